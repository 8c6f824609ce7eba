//! The port: the program `level_search`, fed with a block file, its lines parsed.

use crate::data::{Reply, Search};
use std::io::{Read, Write};
use std::process::{Command, Stdio};

/// What the program printed for one block and search: its reply and the levels that changed.
#[derive(PartialEq, Eq, Clone, Debug)]
pub struct Line {
    pub reply: Reply,
    pub changes: Vec<(usize, i32)>,
}

/// Runs the program on a block file and returns what it printed.
pub fn run(program: &str, file: Vec<u8>) -> Result<String, String> {
    let mut child = Command::new(program)
        .stdin(Stdio::piped())
        .stdout(Stdio::piped())
        .spawn()
        .map_err(|fault| format!("{program}: {fault}"))?;
    let mut input = child.stdin.take().unwrap();
    // A program that ends early closes its end; what it printed then says so.
    let feeder = std::thread::spawn(move || input.write_all(&file).is_ok());
    let mut printed = String::new();
    child.stdout.take().unwrap().read_to_string(&mut printed).map_err(|fault| fault.to_string())?;
    let status = child.wait().map_err(|fault| fault.to_string())?;
    let fed = feeder.join().unwrap_or(false);
    if !status.success() {
        return Err(format!("{program} ended with {status}, all input taken: {fed}"));
    }
    Ok(printed)
}

/// Reads `NUMBER SEARCH REPLY[ INDEX:LEVEL]..`, or says what is wrong with it.
pub fn parse(line: &str, number: usize, search: Search) -> Result<Line, String> {
    let mut words = line.split(' ');
    let mut word = || words.next().ok_or("a word is missing");
    if word()? != number.to_string() {
        return Err("another block's number".into());
    }
    if word()? != format!("{search:?}") {
        return Err("another search".into());
    }
    let reply = match word()? {
        "cost" => {
            let digits = word()?;
            let lower = digits.len() == 8 && digits.bytes().all(|b| b.is_ascii_digit() || (b'a'..=b'f').contains(&b));
            if !lower || word()? != "count" {
                return Err("a cost of another form".into());
            }
            let bits = u32::from_str_radix(digits, 16).map_err(|fault| fault.to_string())?;
            Reply::Cost { bits, count: decimal(word()?)? as u32 }
        }
        "count" => Reply::Count(decimal(word()?)? as u32),
        "refused" => Reply::Refused(decimal(word()?)? as u32),
        _ => return Err("no reply".into()),
    };
    let mut changes = Vec::new();
    for pair in words {
        let (index, level) = pair.split_once(':').ok_or("no colon in a change")?;
        let magnitude = level.strip_prefix('-').unwrap_or(level);
        let level = decimal(magnitude)? as i64 * if magnitude.len() < level.len() { -1 } else { 1 };
        changes.push((decimal(index)? as usize, level as i32));
    }
    if !changes.windows(2).all(|two| two[0].0 < two[1].0) {
        return Err("changes out of order".into());
    }
    Ok(Line { reply, changes })
}

/// Digits with no leading zero.
fn decimal(word: &str) -> Result<u64, String> {
    let digits = !word.is_empty() && word.bytes().all(|b| b.is_ascii_digit());
    if !digits || (word.len() > 1 && word.starts_with('0')) {
        return Err(format!("no decimal number: {word:?}"));
    }
    word.parse().map_err(|_| format!("no decimal number: {word:?}"))
}
