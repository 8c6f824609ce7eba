//! Instructions, counted by callgrind. A child process runs a thing in N rounds and in 2N; the difference is N rounds, whatever the
//! program does besides. The same program on the same machine gets the same counts each time.

use crate::things::{Thing, Work};
use std::process::Command;

/// Both of one digit, so that the children's arguments are of one length.
const ROUNDS: usize = 2;

/// The counts so far: a thing that stands in several tables is counted once.
pub struct Counter(Vec<(Thing, f64)>);

impl Counter {
    /// None where valgrind is missing.
    pub fn found() -> Option<Counter> {
        let version = valgrind().arg("--version").output().ok()?;
        version.status.success().then(|| Counter(Vec::new()))
    }

    /// Instructions of a call.
    pub fn count(&mut self, thing: Thing) -> f64 {
        if let Some((_, count)) = self.0.iter().find(|known| known.0 == thing) {
            return *count;
        }
        let calls = ROUNDS * Work::of(thing).calls();
        let count = (collected(thing, 2 * ROUNDS) - collected(thing, ROUNDS)) as f64 / calls as f64;
        self.0.push((thing, count));
        count
    }
}

/// With an environment that is always the same. The C library is kept from repeated string instructions, which callgrind counts once
/// for each byte.
fn valgrind() -> Command {
    let mut command = Command::new("valgrind");
    command.env_clear().env("PATH", std::env::var_os("PATH").unwrap_or_default());
    command.env("GLIBC_TUNABLES", "glibc.cpu.x86_rep_stosb_threshold=1000000000:glibc.cpu.x86_rep_movsb_threshold=1000000000");
    command
}

/// Instructions within the rounds of a child process.
fn collected(thing: Thing, rounds: usize) -> u64 {
    let output = valgrind()
        .args(["--tool=callgrind", "--callgrind-out-file=/dev/null", "--toggle-collect=*Work::round*"])
        .arg(std::env::current_exe().expect("this program's path"))
        .arg("rounds")
        .arg(rounds.to_string())
        .args(thing.numbers().map(|number| number.to_string()))
        .output()
        .expect("valgrind runs");
    let said = String::from_utf8_lossy(&output.stderr);
    let count = said.lines().find_map(|line| line.split("Collected :").nth(1));
    match count.and_then(|count| count.trim().parse().ok()) {
        // None at all would mean that callgrind did not find the round by its name.
        Some(count) if output.status.success() && count > 0 => count,
        _ => panic!("no count from callgrind:\n{said}"),
    }
}

/// The child's part.
pub fn run(rounds: usize, thing: Thing) {
    let mut work = Work::of(thing);
    for _ in 0..rounds {
        work.reset();
        work.round();
    }
}
