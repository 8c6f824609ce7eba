//! A picture through all passes, with figures.
use crate::coded::{nonzeros, Cells, Coded};
use crate::codes::{ans_book, prefix_book, static_book};
use crate::layout::Tiling;
use crate::passes::{bits_of, search_all, search_small, tally_of, write_all, Kept, Weighing, Written};
use crate::picture::Picture;
use rdoq::{read_tokens, Book, Refusal, Search};
use std::time::{Duration, Instant};

/// How this program weighs bits.
pub const WEIGHING: Weighing = Weighing { lambda: 0.08, penalty: 1.0, distance: 1.0, half_width: 6 };
/// And how finely it quantises.
pub const SCALE: f32 = 0.5;

/// One line of the table.
#[derive(Clone, Debug)]
pub struct Row {
    pub name: String,
    /// By the prices of the prefix code, and of the ANS code, that its own tokens ask for.
    pub prefix_bits: f64,
    pub ans_bits: f64,
    pub psnr: f64,
    /// What the search took, all groups; nothing for plain quantisation.
    pub time: Option<Duration>,
}

/// Bits of plain quantisation, under the ANS code that it asks for, where it is so coarse that its picture is no better than this.
pub fn plain_bits_at(psnr: f64, picture: &Picture, tiling: Tiling) -> Result<f64, Refusal> {
    let book = static_book()?;
    let at = |scale: f32| {
        let coded = Coded::of(picture, tiling, scale);
        row("", picture, &coded, &book, &plain(&coded), None)
    };
    let (mut coarse, mut fine) = (SCALE / 2.0, SCALE * 2.0);
    for _ in 0..10 {
        let middle = (coarse * fine).sqrt();
        if at(middle)?.psnr > psnr {
            fine = middle;
        } else {
            coarse = middle;
        }
    }
    // between the two, by the straight line
    let (low, high) = (at(coarse)?, at(fine)?);
    let share = if high.psnr > low.psnr { ((psnr - low.psnr) / (high.psnr - low.psnr)).clamp(0.0, 1.0) } else { 0.0 };
    Ok(low.ans_bits + share * (high.ans_bits - low.ans_bits))
}

/// What levels cost and look like.
pub fn row(name: &str, picture: &Picture, coded: &Coded, book: &Book, levels: &[Vec<i32>], time: Option<Duration>) -> Result<Row, Refusal> {
    let written = write_all(coded, book, levels)?;
    let tally = tally_of(book, &written)?;
    Ok(Row {
        name: name.to_string(),
        prefix_bits: bits_of(&prefix_book(&tally)?, &written)?,
        ans_bits: bits_of(&ans_book(&tally)?, &written)?,
        psnr: coded.restored(levels)?.psnr(picture),
        time,
    })
}

/// The levels of plain quantisation.
pub fn plain(coded: &Coded) -> Vec<Vec<i32>> {
    coded.groups.iter().map(|group| group.quantised.clone()).collect()
}

/// Searches with a clock running: the least of some rounds.
pub fn timed<T>(rounds: usize, mut run: impl FnMut() -> T) -> (T, Duration) {
    let mut least = Duration::MAX;
    let mut last = None;
    for _ in 0..rounds.max(1) {
        let start = Instant::now();
        last = Some(run());
        least = least.min(start.elapsed());
    }
    (last.expect("at least one round"), least)
}

/// The book that a first pass over plain levels asks for: the trained ANS code.
pub fn trained_book(coded: &Coded) -> Result<Book, Refusal> {
    let book = static_book()?;
    let levels = search_all(coded, &book, Search::Greedy, WEIGHING)?;
    ans_book(&tally_of(&book, &write_all(coded, &book, &levels)?)?)
}

/// The table: plain quantisation, then each search with the trained book.
pub fn table(picture: &Picture, tiling: Tiling, rounds: usize) -> Result<Vec<Row>, Refusal> {
    let coded = Coded::of(picture, tiling, SCALE);
    let book = trained_book(&coded)?;
    let mut rows = vec![row("plain quantisation", picture, &coded, &book, &plain(&coded), None)?];
    for (name, search, half_width) in
        [("greedy", Search::Greedy, 6), ("beam", Search::Beam, 6), ("trellis, w = 6", Search::Trellis, 6), ("trellis, w = 12", Search::Trellis, 12)]
    {
        let weighing = Weighing { half_width, ..WEIGHING };
        let (levels, time) = timed(rounds, || search_all(&coded, &book, search, weighing));
        rows.push(row(name, picture, &coded, &book, &levels?, Some(time))?);
    }
    // it takes one or two covered blocks
    if tiling == Tiling::Eights {
        let (levels, time) = timed(rounds, || search_small(&coded, &book, Search::Trellis, WEIGHING));
        rows.push(row("trellis, small product", picture, &coded, &book, &levels?, Some(time))?);
    }
    Ok(rows)
}

/// Figures of the two runs over a picture.
#[derive(Clone, Debug, PartialEq)]
pub struct Runs {
    pub blocks: usize,
    pub tokens: [usize; 2],
    /// The first run's tokens and the second's, both by the book of the second.
    pub bits: [f64; 2],
    pub prefix_bits: f64,
    /// Blocks whose tokens were replaced.
    pub replaced: usize,
}

/// Two runs: a first with a static book, codes from its tally, a second with the ANS code; the tokens of blocks that changed are replaced in store and tally.
/// Answers the figures, the levels of the second run and what is kept of it.
pub fn two_runs(coded: &Coded) -> Result<(Runs, Vec<Vec<i32>>, Kept), Refusal> {
    let first_book = static_book()?;
    let first_levels = search_all(coded, &first_book, Search::Trellis, WEIGHING)?;
    let first = write_all(coded, &first_book, &first_levels)?;
    let mut kept = Kept::new(&first_book, &first, coded)?;
    let (prefix, ans) = (prefix_book(&kept.tally)?, ans_book(&kept.tally)?);

    let levels = search_all(coded, &ans, Search::Trellis, WEIGHING)?;
    let second = write_all(coded, &ans, &levels)?;
    let mut replaced = 0;
    for (group, blocks) in second.iter().enumerate() {
        for (index, new) in blocks.iter().enumerate().filter(|(index, new)| new.tokens != first[group][*index].tokens) {
            kept.replace(&ans, coded, (group, index), &first[group][index], new)?;
            replaced += 1;
        }
    }
    let count = |written: &[Vec<Written>]| written.iter().flatten().map(|block| block.tokens.len()).sum();
    let runs = Runs {
        blocks: coded.groups.iter().map(|group| group.parts.len()).sum(),
        tokens: [count(&first), count(&second)],
        bits: [bits_of(&ans, &first)?, bits_of(&ans, &second)?],
        prefix_bits: bits_of(&prefix, &second)?,
        replaced,
    };
    Ok((runs, levels, kept))
}

/// Reads every block's tokens back from the store, as a decoder would: each prediction is made from what was read before. Answers the levels; those of the lowest
/// coefficients, which no token has, are 0.
pub fn read_back(coded: &Coded, book: &Book, kept: &Kept) -> Result<Vec<Vec<i32>>, Refusal> {
    let groups = coded.groups.iter().enumerate().map(|(number, group)| {
        let (mut levels, mut cells) = (vec![0; group.source.len()], Cells::new());
        for (index, part) in group.parts.iter().enumerate() {
            let scan = &coded.kind(part).scan;
            let (from, to) = (part.from, part.from + part.size());
            read_tokens(book, part.shape(cells.predicted(part)), scan, &kept.get(coded, number, index)?, &mut levels[from..to])?;
            cells.settle(part, nonzeros(part, scan, &levels));
        }
        Ok(levels)
    });
    groups.collect()
}
