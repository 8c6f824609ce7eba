//! What the port answers as the band grows: each block with every half-width, no other part of it changed, and room for the widest.
//! Greedy and beam must answer the same. The trellis must not cost more than with a narrower band, and answer wherever that did;
//! the unfactored walk must answer as the trellis.

use crate::data::{row_floats, trellis_bytes, window, BlockFile, Reply, Search, SEARCHES, WIDEST};
use crate::{checks, made, per_book, port, Options};

/// A block's lines in the port's output.
const LINES: usize = WIDEST as usize * SEARCHES.len();

/// What was seen of a class.
#[derive(Default)]
struct Seen {
    blocks: u64,
    /// Of these: refused by a check, whatever the width.
    refused: u64,
    /// Of the others: where the trellis's cost falls, and where it answers with some width and gets 15 with a narrower one.
    falls: u64,
    opens: u64,
    faults: u64,
}

/// What is wrong with the lines of a block.
fn fault(lines: &[port::Line], seen: &mut Seen) -> Option<String> {
    let of = |search: Search| lines.iter().skip(search as usize).step_by(SEARCHES.len());
    for search in [Search::Greedy, Search::Beam] {
        let first = of(search).next();
        if of(search).any(|line| Some(line) != first) {
            return Some(format!("{search:?} answers by the half-width"));
        }
    }
    if !of(Search::Trellis).eq(of(Search::Unfactored)) {
        return Some("the two walks part".to_string());
    }
    let (mut falls, mut opens) = (false, false);
    for (two, width) in of(Search::Trellis).zip(of(Search::Trellis).skip(1)).zip(2..) {
        match (two.0.reply, two.1.reply) {
            (Reply::Cost { bits: narrow, .. }, Reply::Cost { bits: wide, .. }) => {
                let (narrow, wide) = (f32::from_bits(narrow), f32::from_bits(wide));
                if wide > narrow {
                    return Some(format!("with half-width {width} the trellis costs {wide}, with one less {narrow}"));
                }
                falls |= wide < narrow;
            }
            (Reply::Refused(15), Reply::Cost { .. }) => opens = true,
            (Reply::Refused(15), Reply::Refused(15)) => {}
            (narrow, wide) => return Some(format!("with half-width {width} the trellis says {wide}, with one less {narrow}")),
        }
    }
    seen.falls += u64::from(falls);
    seen.opens += u64::from(opens);
    None
}

/// The blocks from `from` to `to` of a class.
fn batch(options: &Options, program: &str, class: usize, from: u64, to: u64, seen: &mut Seen) {
    let mut file = BlockFile::new();
    let mut kept = Vec::new();
    let mut latest = None;
    for index in from..to {
        let (book, mut block) = made(options.seed, class, index);
        block.choices = trellis_bytes(WIDEST) * window(class).0 as u32;
        block.rows = [row_floats(WIDEST); 2];
        seen.blocks += 1;
        if checks::refusal(Search::Trellis, &book, &block) != 0 {
            seen.refused += 1;
            continue;
        }
        if latest != Some(index / per_book(class)) {
            file.book(&book);
            latest = Some(index / per_book(class));
        }
        for half_width in 1..=WIDEST {
            block.half_width = half_width;
            file.block(&block);
        }
        kept.push(index);
    }
    let printed = port::run(program, file.bytes).unwrap_or_else(|fault| fault);
    let mut lines = printed.lines().enumerate().map(|(at, line)| port::parse(line, at / SEARCHES.len(), SEARCHES[at % SEARCHES.len()]));
    for index in kept {
        let of: Result<Vec<_>, String> = lines.by_ref().take(LINES).collect();
        let wrong = match of {
            Ok(of) if of.len() == LINES => fault(&of, seen),
            Ok(_) => Some("lines are missing".to_string()),
            Err(fault) => Some(fault),
        };
        if let Some(wrong) = wrong {
            seen.faults += 1;
            println!("FAULT: seed {}, class {class}, block {index}: {wrong}", options.seed);
        }
    }
}

/// Whether it holds of the blocks of each class.
pub fn hold(options: &Options, program: &str) -> bool {
    println!("half-widths 1 to {WIDEST}, seed {}\n      c    blocks  refused by a check  cost falls  answers where a narrower gets 15  faults", options.seed);
    let mut sound = true;
    for &class in options.classes.iter().filter(|&&class| class != 0) {
        let step = per_book(class);
        let all: Vec<Seen> = std::thread::scope(|scope| {
            let work = |thread: u64| {
                let mut seen = Seen::default();
                let threads = options.threads.max(1) as u64;
                for from in (thread * step..options.blocks).step_by((threads * step) as usize) {
                    batch(options, program, class, from, (from + step).min(options.blocks), &mut seen);
                }
                seen
            };
            let threads: Vec<_> = (0..options.threads.max(1) as u64).map(|thread| scope.spawn(move || work(thread))).collect();
            threads.into_iter().map(|thread| thread.join().expect("a thread ended well")).collect()
        });
        let sum = |of: fn(&Seen) -> u64| all.iter().map(of).sum::<u64>();
        let faults = sum(|seen| seen.faults);
        println!(
            "{class:>7} {:>9} {:>19} {:>11} {:>33} {faults:>7}",
            sum(|seen| seen.blocks),
            sum(|seen| seen.refused),
            sum(|seen| seen.falls),
            sum(|seen| seen.opens)
        );
        sound &= faults == 0;
    }
    sound
}
