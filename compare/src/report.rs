//! The table, and a difference printed in full.

use crate::data::{Block, Search, SEARCHES};
use crate::judge::Source;
use std::collections::BTreeMap;

/// The levels that differ from the block's own, as the program prints them.
pub fn changes(block: &Block, levels: &[i32]) -> String {
    let mut text = String::new();
    for (index, (new, old)) in levels.iter().zip(&block.levels).enumerate() {
        if new != old {
            text += &format!(" {index}:{new}");
        }
    }
    text
}

#[derive(Default, Clone)]
pub struct Counts {
    /// By the Rust's levels, the definition's cost and count.
    pub compared: u64,
    pub equal: u64,
    /// Of those: by the Rust's text with another half-width of the band.
    pub replaced: u64,
    /// Of those: blocks where a search met equal costs, such as rounding alone made, and where the levels changed.
    pub ties: u64,
    pub rounded: u64,
    pub changed: u64,
    pub halves: u64,
    /// Refusals that were due, by number.
    pub refused: BTreeMap<u32, u64>,
    pub differences: u64,
    /// Blocks on which the Rust was not run.
    pub not_compared: u64,
    /// Blocks where the Rust indexed past symbol 127.
    pub no_symbol: u64,
}

/// Blocks whose cost as they stand was asked: how many, those of finite cost, and those that differ.
#[derive(Default, Clone)]
pub struct Inputs {
    pub asked: u64,
    pub finite: u64,
    pub differences: u64,
}

impl Inputs {
    pub fn add(&mut self, other: &Inputs) {
        self.asked += other.asked;
        self.finite += other.finite;
        self.differences += other.differences;
    }
}

#[derive(Default, Clone)]
pub struct Tally {
    pub blocks: u64,
    pub searches: [Counts; SEARCHES.len()],
    pub inputs: Inputs,
}

impl Tally {
    pub fn add(&mut self, other: &Tally) {
        self.blocks += other.blocks;
        self.inputs.add(&other.inputs);
        for (mine, theirs) in self.searches.iter_mut().zip(&other.searches) {
            mine.compared += theirs.compared;
            mine.equal += theirs.equal;
            mine.replaced += theirs.replaced;
            mine.ties += theirs.ties;
            mine.rounded += theirs.rounded;
            mine.changed += theirs.changed;
            mine.halves += theirs.halves;
            mine.differences += theirs.differences;
            mine.not_compared += theirs.not_compared;
            mine.no_symbol += theirs.no_symbol;
            for (&number, &times) in &theirs.refused {
                *mine.refused.entry(number).or_default() += times;
            }
        }
    }

    pub fn of(&mut self, search: Search) -> &mut Counts {
        &mut self.searches[SEARCHES.iter().position(|&s| s == search).unwrap()]
    }
}

impl Counts {
    pub fn due(&mut self, source: Source, number: Option<u32>) {
        if let Some(number) = number {
            *self.refused.entry(number).or_default() += 1;
        }
        self.not_compared += u64::from(matches!(source, Source::Checks | Source::NoChoice));
        self.no_symbol += u64::from(source == Source::NoSymbol);
    }
}

pub const HEADER: &str =
    "      c    blocks  search     compared      equal  other width  with ties  by rounding    changed  with a half  not compared  no symbol  differ  refused as due (number: times)";

pub const LEGEND: &str = "\
compared: the levels with the Rust's, cost and count with the definition's for them. other width: of these, by the Rust's text with its half-width of the band, 6, replaced by the block's. with ties,
by rounding, changed, with a half: where a search met equal costs, met such as rounding alone made equal with the later nonzero level the cheaper before the tail, changed a level, or may restore an ideal that is an exact half. not compared: refused by one of checks 1 to 14, 18 and 26, which narrow the Rust's
domain, or by 15, where the Rust has no answer; held to the number and to an untouched block. 16: the Rust left the block too. no symbol: the Rust indexed past symbol 127 and panicked; held to the plain
definitions alone.";

pub fn row(class: &str, tally: &Tally, left_out: &[Search]) -> String {
    let mut text = String::new();
    for (search, counts) in SEARCHES.iter().zip(&tally.searches) {
        let refused: Vec<String> = counts.refused.iter().map(|(number, times)| format!("{number}: {times}")).collect();
        let note = if left_out.contains(search) { "  (the port's was left out)" } else { "" };
        text += &format!(
            "{class:>7} {:>9}  {:<10} {:>8} {:>10} {:>12} {:>10} {:>12} {:>10} {:>12} {:>13} {:>10} {:>7}  {}{note}\n",
            tally.blocks,
            format!("{search:?}"),
            counts.compared,
            counts.equal,
            counts.replaced,
            counts.ties,
            counts.rounded,
            counts.changed,
            counts.halves,
            counts.not_compared,
            counts.no_symbol,
            counts.differences,
            refused.join(", "),
        );
    }
    text
}
