//! The small product of the static library, beside the Rust's searches with `window_cap` 32. See README.md beside this crate.
//!
//!     small [BLOCKS [BLOCKS OF C = 2 [SEED]]]
//!
//! Each block is searched in all four ways: levels, cost and count must be those that are due, a refusal's number too, the room cleared or untouched. Then blocks
//! that are too large, with whatever else is wrong, must get 32 and change nothing.

#[path = "../blocks.rs"]
#[allow(dead_code)]
mod blocks;
#[path = "../books.rs"]
#[allow(dead_code)]
mod books;
#[path = "../checks.rs"]
#[allow(dead_code)]
mod checks;
#[path = "../damage.rs"]
#[allow(dead_code)]
mod damage;
#[path = "../data.rs"]
#[allow(dead_code)]
mod data;
#[path = "../exact.rs"]
#[allow(dead_code)]
mod exact;
#[path = "../judge.rs"]
#[allow(dead_code)]
mod judge;
#[path = "../plain.rs"]
#[allow(dead_code)]
mod plain;
#[path = "../random.rs"]
#[allow(dead_code)]
mod random;
#[path = "../report.rs"]
#[allow(dead_code)]
mod report;
#[path = "../scans.rs"]
#[allow(dead_code)]
mod scans;
#[path = "../stand_ins.rs"]
#[allow(dead_code)]
mod stand_ins;

use data::{Block, Book, Outcome, Reply, Search, HALF_WIDTH, SEARCHES};
use judge::{due, Original, Source};
use random::Random;
use report::{changes, Tally};
use stand_ins::*;

include!(concat!(env!("OUT_DIR"), "/original.rs"));

#[link(name = "rdoq_c", kind = "static")]
extern "C" {
    fn rdoq_small_block(
        search: u32, clusters: u32, map: *const u8, map_len: usize, configs: *const u8, configs_len: usize, symbols: *const f32,
        symbols_len: usize, ready: *const f32, ready_len: usize, cx: u32, cy: u32, strategy: u8, channel: u8, qf_hi: bool, predicted: u8,
        channel_weight: f32, lambda: f32, penalty: f32, distance: f32, one: f32, numerator: f32, scale: f32, scan: *const u32,
        scan_len: usize, source: *const f32, source_len: usize, inv_qm: *const f32, inv_qm_len: usize, levels: *mut i32, levels_len: usize,
        choices: *mut u8, choices_len: usize, row_a: *mut f32, row_a_len: usize, row_b: *mut f32, row_b_len: usize, cost: *mut f32,
        count: *mut u32,
    ) -> u32;
}

/// The cap on the window.
const SMALL: usize = 32;

/// What the room and the two variables hold before a call.
const STALE: (u8, f32, u32) = (7, 3.5, 0xdead_beef);

/// What a call left.
struct Left {
    code: u32,
    cost: f32,
    count: u32,
    levels: Vec<i32>,
    choices: Vec<u8>,
    rows: [Vec<f32>; 2],
}

impl Left {
    fn room_is(&self, byte: u8, float: f32) -> bool {
        self.choices.iter().all(|&x| x == byte) && self.rows.iter().flatten().all(|&x| x == float)
    }

    /// The room, by the search and the answer: cleared by beam and trellis, after 15 and 16 too.
    fn room_is_due(&self, search: Search) -> bool {
        let searched = search != Search::Greedy && matches!(self.code, 0 | 15 | 16);
        if searched { self.room_is(255, f32::INFINITY) } else { self.room_is(STALE.0, STALE.1) }
    }

    fn variables_kept(&self) -> bool {
        self.cost == STALE.1 && self.count == STALE.2
    }

    fn outcome(&self, search: Search) -> Outcome {
        let reply = match (self.code, search) {
            (0, Search::Greedy) => Reply::Count(self.count),
            (0, _) => Reply::Cost { bits: self.cost.to_bits(), count: self.count },
            (number, _) => Reply::Refused(number),
        };
        Outcome { reply, levels: self.levels.clone() }
    }
}

fn call(search: u32, book: &Book, block: &Block) -> Left {
    let mut left = Left {
        code: 0,
        cost: STALE.1,
        count: STALE.2,
        levels: block.levels.clone(),
        choices: vec![STALE.0; block.choices as usize],
        rows: block.rows.map(|n| vec![STALE.1; n as usize]),
    };
    let [row_a, row_b] = &mut left.rows;
    left.code = unsafe {
        rdoq_small_block(
            search, book.clusters, book.map.as_ptr(), book.map.len(), book.configs.as_ptr(), book.configs.len(), book.symbols.as_ptr(),
            book.symbols.len(), book.ready.as_ptr(), book.ready.len(), block.cx, block.cy, block.strategy, block.channel, block.quant_class,
            block.predicted, block.channel_weight, block.lambda, block.penalty, block.distance, block.one, block.numerator, block.scale,
            block.scan.as_ptr(), block.scan.len(), block.source.as_ptr(), block.source.len(), block.inverse.as_ptr(), block.inverse.len(),
            left.levels.as_mut_ptr(), left.levels.len(), left.choices.as_mut_ptr(), left.choices.len(), row_a.as_mut_ptr(), row_a.len(),
            row_b.as_mut_ptr(), row_b.len(), &mut left.cost, &mut left.count,
        )
    };
    left
}

/// A block with room at its bounds, now and then with ideals past the window that are no numbers.
fn block(random: &mut Random, c: usize) -> Block {
    let mut block = blocks::random_block(random, c, HALF_WIDTH);
    block.choices = if random.once_in(10) { random.pick(&[0, 191, 192, 447]) } else { random.pick(&[448, 449, 1764]) };
    block.rows = [0, 1].map(|_| if random.once_in(20) { random.pick(&[0, 27]) } else { random.pick(&[28, 28, 30, 52]) });
    if random.once_in(4) {
        for _ in 0..1 + random.below(4) {
            let at = block.scan[c + SMALL + random.below(63 * c - SMALL)] as usize;
            block.source[at] = random.pick(&[f32::NAN, f32::INFINITY, -1e30, 32_768.0]);
        }
    }
    block
}

/// What is met; printed at the end.
#[derive(Default)]
struct Met {
    differences: u64,
    past: u64,
    too_large: u64,
}

impl Met {
    fn differ(&mut self, story: &str) {
        self.differences += 1;
        if self.differences <= 10 {
            println!("DIFFERENCE: {story}");
        }
    }
}

/// Whether an ideal past the window would be refused in the first product.
fn bad_past_window(block: &Block, c: usize) -> bool {
    let within = |&at: &u32| (block.source[at as usize] * block.inverse[at as usize] * block.scale).abs() <= 32_767.0;
    !block.scan[c + SMALL..c + data::window(c).0].iter().all(within)
}

/// Whether an ideal that may be restored is an exact half.
fn has_half(block: &Block, c: usize) -> bool {
    let ideal = |&at: &u32| block.source[at as usize] * block.inverse[at as usize] * block.scale;
    block.scan[c..c + data::window_under(SMALL, c).1].iter().any(|at| ideal(at).fract().abs() == 0.5)
}

fn judge_one(met: &mut Met, tally: &mut Tally, original: &mut Original, search: Search, book: &Book, block: &Block, at: &str) {
    let due = due(original, search, book, block);
    let left = call(search as u32, book, block);
    let found = left.outcome(search);
    let refused = if let Reply::Refused(number) = due.outcome.reply { Some(number) } else { None };
    let counts = tally.of(search);
    counts.due(due.source, refused);
    let kept = left.code == 0 || left.variables_kept();
    let right = due.fault.is_none() && found == due.outcome && left.room_is_due(search) && kept;
    if due.source == Source::Rust {
        counts.compared += 1;
        counts.equal += u64::from(right);
        counts.ties += u64::from(due.tie);
        counts.rounded += u64::from(due.rounded);
        counts.changed += u64::from(due.outcome.levels != block.levels);
        counts.halves += u64::from(has_half(block, block.covered()));
    }
    if !right {
        counts.differences += 1;
        let told = |it: &Outcome| format!("{}{}", it.reply, changes(block, &it.levels));
        let fault = due.fault.unwrap_or_default();
        met.differ(&format!("{search:?}, {at}\n  the library gives\n    {}\n  due is\n    {}\n  {fault}", told(&found), told(&due.outcome)));
    }
}

/// The blocks of c covered blocks: a table's rows.
fn judge_class(met: &mut Met, c: usize, blocks: u64, seed: u64) -> Tally {
    let mut tally = Tally::default();
    let mut original = Original::under(SMALL);
    let mut book = Book::default();
    for at in 0..blocks {
        let mut random = Random::of(&[seed, c as u64, at, 12]);
        if at % 40 == 0 {
            book = books::random_book(&mut random);
            original.take(&book);
        }
        let block = block(&mut random, c);
        tally.blocks += 1;
        met.past += u64::from(bad_past_window(&block, c));
        for search in SEARCHES {
            judge_one(met, &mut tally, &mut original, search, &book, &block, &format!("seed {seed}, c = {c}, block {at}"));
        }
    }
    tally
}

/// Sides whose product is above two, or not, with a damaged book and block.
fn judge_sides(met: &mut Met, blocks: u64, seed: u64) {
    const SIDES: [u32; 11] = [0, 1, 2, 3, 4, 5, 32, 33, 65_536, 1 << 31, u32::MAX];
    for at in 0..blocks {
        let mut random = Random::of(&[seed, at, 32]);
        let (mut book, mut block) = (books::random_book(&mut random), block(&mut random, 1));
        if random.once_in(2) {
            damage::damage(&mut random, &mut book, &mut block);
        }
        block.half_width = HALF_WIDTH;
        (block.cx, block.cy) = (random.pick(&SIDES), random.pick(&SIDES));
        let search = random.pick(&[0, 1, 2, 3, 4, 5, 1 << 31, u32::MAX]);
        let large = u64::from(block.cx) * u64::from(block.cy) > 2;
        let expected = match (large, SEARCHES.get(search as usize)) {
            (true, _) => 32,
            (false, None) => 17,
            (false, Some(&search)) => checks::refusal_under(SMALL, search, &book, &block),
        };
        let left = call(search, &book, &block);
        met.too_large += u64::from(large);
        // one that passes its checks is the other classes' affair
        let same = expected == 0 || (left.code == expected && left.levels == block.levels && left.room_is(STALE.0, STALE.1) && left.variables_kept());
        if !same {
            met.differ(&format!("sides {} and {}, search {search}, seed {seed}, block {at}: {} for {expected}", block.cx, block.cy, left.code));
        }
    }
}

fn main() {
    let numbers: Vec<u64> = std::env::args().skip(1).map(|word| word.parse().expect("small [BLOCKS [BLOCKS OF C = 2 [SEED]]]")).collect();
    let of = |at: usize, other: u64| numbers.get(at).copied().unwrap_or(other);
    let (ones, twos, seed) = (of(0, 2_000), of(1, 1_000), of(2, 1));
    judge::quiet_panics();
    let mut met = Met::default();
    println!("the small product, and the Rust with window_cap {SMALL}; seed {seed}\n{}", report::HEADER);
    let mut all = Vec::new();
    for (c, blocks) in [(1, ones), (2, twos)] {
        let tally = judge_class(&mut met, c, blocks, seed);
        print!("{}", report::row(&c.to_string(), &tally, &[]));
        all.push(tally);
    }
    judge_sides(&mut met, (ones + twos) / 2, seed);
    println!("{} blocks with an ideal past the window that the first product refuses; {} blocks too large", met.past, met.too_large);
    let refused = |number: u32| all.iter().flat_map(|tally| &tally.searches).filter_map(|counts| counts.refused.get(&number)).sum::<u64>();
    let seen = met.past > 0 && met.too_large > 0 && refused(14) > 0;
    if !seen {
        println!("not every case was met");
    }
    println!("{} differences", met.differences);
    std::process::exit(i32::from(met.differences != 0 || !seen));
}
