//! The coupon by the Rust: its searches on the same blocks, beside the library's. See README.md beside this crate.
//!
//!     coupon_rust [FOLDER [PICTURE.ppm]]
//!
//! Prints the time of each search of the Rust on the picture's blocks, and on how many of them its levels are not the library's (0). Writes the
//! picture that it makes of the failed strip into the folder.

#[path = "../data.rs"]
#[allow(dead_code)]
mod data;
#[path = "../stand_ins.rs"]
#[allow(dead_code)]
mod stand_ins;

use coupon::coded::{nonzeros, Cells, Coded, CodedGroup, Part};
use coupon::layout::Tiling;
use coupon::picture::Picture;
use coupon::runs::{self, timed, WEIGHING};
use coupon::{paint, passes, strip};
use data::{Block, Book, Search, HALF_WIDTH};
use crate::entropy::entropy_code::door::lent;
use crate::entropy::FrozenTokenPrices;
use crate::group::trellis::door::Runner;
use stand_ins::*;
use std::error::Error;
use std::fs::{self, File};
use std::panic::{catch_unwind, AssertUnwindSafe};
use std::path::PathBuf;

include!(concat!(env!("OUT_DIR"), "/original.rs"));

const SEARCHES: [(Search, rdoq::Search); 3] =
    [(Search::Greedy, rdoq::Search::Greedy), (Search::Beam, rdoq::Search::Beam), (Search::Trellis, rdoq::Search::Trellis)];
const ROUNDS: usize = 5;

/// The library's book, for the Rust.
fn prices(book: &rdoq::Book) -> FrozenTokenPrices {
    lent(&Book {
        clusters: book.clusters(),
        map: book.map().to_vec(),
        configs: book.configs().to_vec(),
        symbols: book.symbols().to_vec(),
        ready: book.ready().to_vec(),
    })
}

/// A block as the Rust takes it, but for its prediction.
fn block_of(coded: &Coded, group: &CodedGroup, part: &Part) -> Block {
    let (kind, shape, settings) = (coded.kind(part), part.shape(0), WEIGHING.settings());
    let bias = rdoq::Bias::DEFAULT[usize::from(part.channel)];
    Block {
        cx: shape.cx,
        cy: shape.cy,
        strategy: shape.strategy,
        channel: shape.channel,
        quant_class: shape.qf_hi,
        predicted: 0,
        channel_weight: settings.channel_weight,
        lambda: settings.lambda,
        penalty: settings.penalty,
        distance: settings.distance,
        half_width: HALF_WIDTH,
        one: bias.one,
        numerator: bias.numerator,
        scale: coded.scale,
        choices: 0,
        rows: [0, 0],
        levels: Vec::new(),
        scan: kind.scan.clone(),
        source: group.source[part.from..part.from + part.size()].to_vec(),
        inverse: kind.inverse.clone(),
    }
}

/// The blocks of a group as the Rust takes them, made before the clock runs.
fn blocks_of(coded: &Coded, group: &CodedGroup) -> Vec<Block> {
    group.parts.iter().map(|part| block_of(coded, group, part)).collect()
}

/// A group by the Rust, block after block with the predictions that an encoder makes. Answers the levels, and how many blocks it panicked on.
fn by_the_rust(search: Search, coded: &Coded, group: &CodedGroup, blocks: &mut [Block], prices: &FrozenTokenPrices, run: &mut Runner) -> (Vec<i32>, usize) {
    let (mut levels, mut cells, mut panics) = (group.quantised.clone(), Cells::new(), 0);
    for (part, block) in group.parts.iter().zip(blocks) {
        block.predicted = cells.predicted(part);
        let own = &mut levels[part.from..part.from + part.size()];
        panics += usize::from(catch_unwind(AssertUnwindSafe(|| run(search, block, prices, own))).is_err());
        cells.settle(part, nonzeros(part, &coded.kind(part).scan, &levels));
    }
    (levels, panics)
}

/// How many blocks two groups' levels differ in.
fn differing(group: &CodedGroup, a: &[i32], b: &[i32]) -> usize {
    group.parts.iter().filter(|part| a[part.from..part.from + part.size()] != b[part.from..part.from + part.size()]).count()
}

fn main() -> Result<(), Box<dyn Error>> {
    let mut args = std::env::args_os().skip(1);
    let folder = PathBuf::from(args.next().unwrap_or_else(|| "target/coupon".into()));
    let picture = match args.next() {
        Some(path) => Picture::read_ppm(File::open(path)?)?,
        None => paint::scanned(),
    };
    fs::create_dir_all(&folder)?;
    let mut coded = Coded::of(&picture, Tiling::Mixed, runs::SCALE);
    let book = runs::trained_book(&coded)?;
    let prices = prices(&book);
    let mut run = group::runner(HALF_WIDTH, usize::MAX);
    let mut differences = 0;
    println!("The Rust's searches on the blocks of the first table, and the library's:");
    for (search, ours) in SEARCHES {
        let mut blocks: Vec<Vec<Block>> = coded.groups.iter().map(|group| blocks_of(&coded, group)).collect();
        let (theirs, rust_time) = timed(ROUNDS, || {
            let groups = coded.groups.iter().zip(&mut blocks);
            groups.map(|(group, blocks)| by_the_rust(search, &coded, group, blocks, &prices, &mut run).0).collect::<Vec<_>>()
        });
        let (levels, time) = timed(ROUNDS, || passes::search_all(&coded, &book, ours, WEIGHING));
        let levels = levels?;
        let differ: usize = coded.groups.iter().zip(theirs.iter().zip(&levels)).map(|(group, (a, b))| differing(group, a, b)).sum();
        println!("    {ours:?}: {:.1} ms by the Rust, {:.1} ms by the library; {differ} blocks differ", rust_time.as_secs_f64() * 1e3, time.as_secs_f64() * 1e3);
        differences += differ;
    }
    failed_strip(&mut coded, &prices, &mut run, &folder)?;
    if differences > 0 {
        return Err("the Rust and the library differ".into());
    }
    Ok(())
}

/// The spoiled group by the Rust.
fn failed_strip(coded: &mut Coded, prices: &FrozenTokenPrices, run: &mut Runner, folder: &std::path::Path) -> Result<(), Box<dyn Error>> {
    strip::spoil(coded);
    let group = &coded.groups[0];
    let usual = std::panic::take_hook();
    std::panic::set_hook(Box::new(|_| {}));
    let (first, panics) = by_the_rust(Search::Trellis, coded, group, &mut blocks_of(coded, group), prices, run);
    std::panic::set_hook(usual);
    let changed = group.parts.iter().filter(|part| {
        let own = part.from..part.from + part.size();
        strip::is_hit(part) && first[own.clone()] != group.quantised[own]
    });
    println!(
        "The failed strip by the Rust's trellis: it changes the levels of {} of the {} blocks that were hit, and panics on {panics}.",
        changed.count(),
        group.parts.iter().filter(|part| strip::is_hit(part)).count()
    );
    let mut levels = runs::plain(coded);
    levels[0] = first;
    Ok(fs::write(folder.join("strip-rust.png"), coded.restored(&levels)?.cropped(strip::SHOWN, strip::SHOWN).png())?)
}
