//! The page that keeps the tables, and the machine that they are from.

use std::fs;

/// Puts a text between the two marks of its name. The rest of the page stays.
pub fn put(path: &str, name: &str, text: &str) -> Result<(), String> {
    let page = fs::read_to_string(path).map_err(|fault| format!("{path}: {fault}"))?;
    let (first, last) = (format!("<!-- {name}: written by the bench -->\n"), format!("<!-- end of {name} -->\n"));
    let from = page.find(&first).ok_or(format!("{path} has no line {first}"))? + first.len();
    let to = page.find(&last).ok_or(format!("{path} has no line {last}"))?;
    let new = format!("{}\n{text}\n{}", &page[..from], &page[to..]);
    fs::write(path, new).map_err(|fault| format!("{path}: {fault}"))
}

/// The processor's name, its cores, and how busy they are.
pub fn machine() -> String {
    let about = fs::read_to_string("/proc/cpuinfo").unwrap_or_default();
    let model = about.lines().find_map(|line| line.strip_prefix("model name").and_then(|line| line.split(": ").nth(1)));
    let cores = std::thread::available_parallelism().map_or(1, usize::from);
    let load = fs::read_to_string("/proc/loadavg").unwrap_or_default();
    let load = load.split(' ').next().unwrap_or_default();
    format!("{}, {cores} cores, load average {load} at the start", model.unwrap_or("unknown processor"))
}
