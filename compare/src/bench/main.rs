//! Measures the port beside the Rust: same machine, same run, same blocks, release builds. See README.md beside this crate.
//!
//!     bench times PASSES [PAGE CHART]     nanoseconds, the median of so many passes
//!     bench instructions [PAGE]           instructions, counted by callgrind
//!
//! Prints tables in Markdown. With a page, puts them there too, between the marks of their name; with a chart, writes it.

mod chart;
mod count;
mod goals;
mod group_list;
mod growth;
mod inputs;
mod library;
mod measure;
mod page;
mod show;
mod store;
mod tally;
mod tables;
mod things;
mod tokens;

#[path = "../data.rs"]
#[allow(dead_code)]
mod data;
#[path = "../random.rs"]
#[allow(dead_code)]
mod random;
#[path = "../scans.rs"]
#[allow(dead_code)]
mod scans;
#[path = "../stand_ins.rs"]
#[allow(dead_code)]
mod stand_ins;

use count::Counter;
use data::{Search, SEARCHES};
use inputs::{DENSITIES, SIZES};
use measure::{Meter, Results};
use show::Unit;
use stand_ins::*;
use std::process::exit;
use things::{Thing, Work};

include!(concat!(env!("OUT_DIR"), "/original.rs"));

fn main() {
    let arguments: Vec<String> = std::env::args().skip(1).collect();
    let words: Vec<&str> = arguments.iter().map(String::as_str).collect();
    match words[..] {
        ["times", passes] => times(passes, None),
        ["times", passes, page, chart] => times(passes, Some((page, chart))),
        ["instructions"] => instructions(None),
        ["instructions", page] => instructions(Some(page)),
        ["rounds", rounds, ref thing @ ..] if thing.len() == 4 => {
            count::run(number(rounds), Thing::of([0, 1, 2, 3].map(|at| number(thing[at]))));
        }
        _ => fail("bench times PASSES [PAGE CHART] | bench instructions [PAGE]"),
    }
}

fn fail(why: &str) -> ! {
    eprintln!("{why}");
    exit(2)
}

fn number(word: &str) -> usize {
    word.parse().unwrap_or_else(|_| fail(&format!("{word} is not a number")))
}

fn times(passes: &str, kept: Option<(&str, &str)>) {
    let passes = number(passes).max(1);
    let how = format!("Machine: {}; {}. Median of {passes} passes by turns, buffers warm.", page::machine(), env!("BENCH_RUSTC"));
    let rooms = compared();
    let results = Meter::Clock { passes }.all();
    let text = report(&how, rooms, &results, Unit::Nanoseconds);
    println!("{text}");
    if let Some((page, chart)) = kept {
        keep(page, "times", &text);
        std::fs::write(chart, chart::chart(&results)).unwrap_or_else(|fault| fail(&format!("{chart}: {fault}")));
        eprintln!("written to {page} and {chart}");
    }
}

fn instructions(kept: Option<&str>) {
    let counter = Counter::found().unwrap_or_else(|| fail("instructions are counted by callgrind: valgrind is not on the path"));
    let how = format!("Instructions of a call, counted by callgrind; {}. The tables are those of the times.", env!("BENCH_RUSTC"));
    let rooms = compared();
    let results = Meter::Callgrind(counter).all();
    let text = report(&how, rooms, &results, Unit::Instructions);
    println!("{text}");
    if let Some(page) = kept {
        keep(page, "instructions", &text);
        eprintln!("written to {page}");
    }
}

fn keep(page: &str, name: &str, text: &str) {
    page::put(page, name, text).unwrap_or_else(|why| fail(&why));
}

fn report(how: &str, rooms: &str, results: &Results, unit: Unit) -> String {
    let text = format!("{how}\n\n") + &tables::all(results, unit, rooms) + &growth::all(results, unit) + &goals::all(results, unit);
    text.trim_end().to_string()
}

/// A group's list by one call, block by block and by the Rust: the levels must be the same.
fn lists_compared() {
    for kind in 0..group_list::KINDS.len() {
        let levels = group_list::WAYS.map(|way| {
            let mut group = group_list::Group::of(way, kind, Search::Trellis as usize, 8);
            assert_eq!(group.round(), 0);
            group.levels().to_vec()
        });
        assert!(levels[0] == levels[1] && levels[0] == levels[2], "a group of {}: the levels differ", group_list::KINDS[kind]);
    }
}

/// Runs every search on both sides. The levels must be the same. Says which side's rooms are clear after trellis and beam.
fn compared() -> &'static str {
    lists_compared();
    let (mut port_clears, mut rust_clears) = (true, true);
    for search in SEARCHES {
        for (c, _) in SIZES {
            for density in 0..DENSITIES.len() {
                let mut port = Work::of(Thing::Call { search, c, density });
                let mut rust = Work::of(Thing::Original { search, c, density });
                port.round();
                rust.round();
                assert!(port.levels() == rust.levels(), "{search:?} at c = {c}: the levels differ");
                if search != Search::Greedy {
                    port_clears &= port.is_clear();
                    rust_clears &= rust.is_clear();
                }
            }
        }
    }
    match (port_clears, rust_clears) {
        (true, true) => "rooms: both clear",
        (true, false) => "rooms: the port clears, the Rust does not",
        (false, true) => "rooms: the Rust clears, the port does not",
        (false, false) => "rooms: neither clears",
    }
}
