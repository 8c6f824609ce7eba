//! A store of 1,024 runs of 30 tokens, and the calls on it that are measured.

use crate::library;

/// What is measured, with its goal in nanoseconds.
pub const CALLS: [(&str, f64); 4] = [
    ("put in place of a run, behind the last", 8_000.0),
    ("put in place of a run, the others moved together", 45_000.0),
    ("drop", 8_000.0),
    ("read", 8_000.0),
];

const RUNS: usize = 1_024;
const TOKENS: usize = 30;

/// A store, a copy to start each round from, and the place of its call in the list.
pub struct Store {
    call: usize,
    room: Vec<u64>,
    record: Vec<u64>,
    full: (Vec<u64>, Vec<u64>),
    tokens: Vec<u64>,
}

impl Store {
    /// Room for the runs alone where they are to be moved, else for as many again.
    pub fn of(call: usize) -> Store {
        let size = RUNS * TOKENS * if call == 1 { 1 } else { 2 };
        let (mut room, mut record) = (vec![0; size], vec![0; 3 * RUNS + 1]);
        let tokens: Vec<u64> = (0..TOKENS as u64).collect();
        for block in 0..RUNS as u32 {
            assert_eq!(library::put(&mut room, &mut record, block, &tokens), 0);
        }
        let full = (room.clone(), record.clone());
        Store { call, room, record, full, tokens }
    }

    /// The calls of a round: on numbers that lie far apart.
    pub fn calls(&self) -> usize {
        64
    }

    pub fn reset(&mut self) {
        self.room.copy_from_slice(&self.full.0);
        self.record.copy_from_slice(&self.full.1);
    }

    /// Answers the last code.
    pub fn round(&mut self) -> u32 {
        let mut code = 0;
        for at in 0..self.calls() {
            let block = (at * 389 % RUNS) as u32;
            code = match self.call {
                0 | 1 => library::put(&mut self.room, &mut self.record, block, &self.tokens),
                2 => library::drop(&self.room, &mut self.record, block),
                _ => library::read(&self.room, &self.record, block, &mut self.tokens),
            };
        }
        code
    }
}
