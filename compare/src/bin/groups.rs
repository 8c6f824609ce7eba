//! A whole group in order: the static library's call beside the Rust's `predict_from_top_and_left` driven with its `rdoq_block`. See README.md beside this crate.
//!
//!     groups [GROUPS [DAMAGED [SEED]]]
//!
//! Each group is a list of blocks of mixed sizes in up to three channels. The answer, every level and the room must be those that are due; then the list is run again
//! without the blocks of a channel, and again over the levels that it wrote. Lists with faults, one or several, must be refused with the number that a plain reckoning gives.

#[path = "../blocks.rs"]
#[allow(dead_code)]
mod blocks;
#[path = "../books.rs"]
#[allow(dead_code)]
mod books;
#[path = "../checks.rs"]
#[allow(dead_code)]
mod checks;
#[path = "../damage.rs"]
#[allow(dead_code)]
mod damage;
#[path = "../data.rs"]
#[allow(dead_code)]
mod data;
#[path = "../exact.rs"]
#[allow(dead_code)]
mod exact;
#[path = "../judge.rs"]
#[allow(dead_code)]
mod judge;
#[path = "../plain.rs"]
#[allow(dead_code)]
mod plain;
#[path = "../random.rs"]
#[allow(dead_code)]
mod random;
#[path = "../report.rs"]
#[allow(dead_code)]
mod report;
#[path = "../scans.rs"]
#[allow(dead_code)]
mod scans;
#[path = "../stand_ins.rs"]
#[allow(dead_code)]
mod stand_ins;

use crate::group::door::predict_from_top_and_left;
use data::{row_floats, trellis_bytes, window, Block, Book, Reply, Search, SEARCHES};
use judge::{due, Original};
use random::Random;
use stand_ins::*;
use std::collections::{BTreeMap, HashSet};

include!(concat!(env!("OUT_DIR"), "/original.rs"));

#[link(name = "rdoq_c", kind = "static")]
extern "C" {
    fn rdoq_group(
        search: u32, clusters: u32, map: *const u8, map_len: usize, configs: *const u8, configs_len: usize, symbols: *const f32,
        symbols_len: usize, ready: *const f32, ready_len: usize, blocks: *const u32, blocks_len: usize, settings: *const f32,
        settings_len: usize, scans: *const u32, scans_len: usize, sources: *const f32, sources_len: usize, inv_qms: *const f32,
        inv_qms_len: usize, levels: *mut i32, levels_len: usize, choices: *mut u8, choices_len: usize, row_a: *mut f32, row_a_len: usize,
        row_b: *mut f32, row_b_len: usize, settled: *mut u32,
    ) -> u32;
}

/// The cells of a side.
const SIDE: usize = 32;
/// What the room and the number hold before a call.
const STALE: (u8, f32, u32) = (7, 3.5, 0xdead_beef);

/// A list as it is lent: eight words and seven floats a block, and the blocks' numbers one after the other.
#[derive(Clone, Default)]
struct List {
    words: Vec<u32>,
    floats: Vec<f32>,
    scans: Vec<u32>,
    sources: Vec<f32>,
    inverses: Vec<f32>,
    levels: Vec<i32>,
    choices: usize,
    rows: [usize; 2],
}

impl List {
    fn push(&mut self, x: u32, y: u32, b: &Block) {
        self.words.extend([x, y, b.cx, b.cy, b.strategy.into(), b.channel.into(), b.quant_class.into(), b.half_width]);
        self.floats.extend([b.channel_weight, b.lambda, b.penalty, b.distance, b.one, b.numerator, b.scale]);
        self.scans.extend(&b.scan);
        self.sources.extend(&b.source);
        self.inverses.extend(&b.inverse);
        self.levels.extend(&b.levels);
    }

    fn blocks(&self) -> usize {
        self.words.len() / 8
    }

    /// The blocks that `keep` says, with their numbers; of a list that has the numbers of all.
    fn filtered(&self, keep: impl Fn(u32) -> bool) -> (List, Vec<usize>) {
        let mut list = List { choices: self.choices, rows: self.rows, ..List::default() };
        let (mut at, mut kept) = (0, Vec::new());
        for i in 0..self.blocks() {
            let words = &self.words[8 * i..8 * i + 8];
            let next = at + 64 * (words[2] * words[3]) as usize;
            if keep(words[5]) {
                kept.push(i);
                list.words.extend(words);
                list.floats.extend(&self.floats[7 * i..7 * i + 7]);
                list.scans.extend(&self.scans[at..next]);
                list.sources.extend(&self.sources[at..next]);
                list.inverses.extend(&self.inverses[at..next]);
                list.levels.extend(&self.levels[at..next]);
            }
            at = next;
        }
        (list, kept)
    }

    /// Where the levels of block i stand; of a list that passed.
    fn place(&self, i: usize) -> std::ops::Range<usize> {
        let size = |j: usize| 64 * (self.words[8 * j + 2] * self.words[8 * j + 3]) as usize;
        let from = (0..i).map(size).sum();
        from..from + size(i)
    }
}

/// What a call answers and leaves.
#[derive(Clone, PartialEq)]
struct Left {
    code: u32,
    settled: u32,
    levels: Vec<i32>,
    choices: Vec<u8>,
    rows: [Vec<f32>; 2],
}

fn call(search: u32, book: &Book, list: &List) -> Left {
    let mut left = Left {
        code: 0,
        settled: STALE.2,
        levels: list.levels.clone(),
        choices: vec![STALE.0; list.choices],
        rows: list.rows.map(|n| vec![STALE.1; n]),
    };
    let [row_a, row_b] = &mut left.rows;
    left.code = unsafe {
        rdoq_group(
            search, book.clusters, book.map.as_ptr(), book.map.len(), book.configs.as_ptr(), book.configs.len(), book.symbols.as_ptr(),
            book.symbols.len(), book.ready.as_ptr(), book.ready.len(), list.words.as_ptr(), list.words.len(), list.floats.as_ptr(),
            list.floats.len(), list.scans.as_ptr(), list.scans.len(), list.sources.as_ptr(), list.sources.len(), list.inverses.as_ptr(),
            list.inverses.len(), left.levels.as_mut_ptr(), left.levels.len(), left.choices.as_mut_ptr(), left.choices.len(),
            row_a.as_mut_ptr(), row_a.len(), row_b.as_mut_ptr(), row_b.len(), &mut left.settled,
        )
    };
    left
}

/// The cells that a listed block covers, as (channel, x, y).
fn cells(words: &[u32]) -> impl Iterator<Item = (u32, u32, u32)> + '_ {
    (0..words[3]).flat_map(move |j| (0..words[2]).map(move |i| (words[5], words[0] + i, words[1] + j)))
}

/// What is refused of a list before any search, each number over all blocks before the next.
fn list_refusal(list: &List) -> u32 {
    if list.words.len() % 8 != 0 || list.floats.len() != 7 * list.blocks() {
        return 17;
    }
    let blocks: Vec<&[u32]> = list.words.chunks(8).collect();
    let side = |n: u32| [1, 2, 4, 8, 16, 32].contains(&n);
    if !blocks.iter().all(|b| side(b[2]) && side(b[3])) {
        return 7;
    }
    if blocks.iter().any(|b| b[5] > 2) {
        return 9;
    }
    if blocks.iter().any(|b| u64::from(b[0]) + u64::from(b[2]) > 32 || u64::from(b[1]) + u64::from(b[3]) > 32) {
        return 29;
    }
    let mut taken = HashSet::new();
    if !blocks.iter().all(|b| cells(b).all(|cell| taken.insert(cell))) {
        return 30;
    }
    let mut before: HashSet<(u32, u32, u32)> = HashSet::new();
    for b in &blocks {
        let left = b[0] == 0 || before.contains(&(b[5], b[0] - 1, b[1]));
        let above = b[1] == 0 || before.contains(&(b[5], b[0], b[1] - 1));
        if !left || !above {
            return 31;
        }
        before.extend(cells(b));
    }
    0
}

/// Block i of a list that passed, with the count predicted for it and its numbers, as many as there are up to its size.
fn block_at(list: &List, i: usize, from: usize, predicted: u8) -> Block {
    let (w, f) = (&list.words[8 * i..8 * i + 8], &list.floats[7 * i..7 * i + 7]);
    let n = 64 * (w[2] * w[3]) as usize;
    fn part<T: Clone>(all: &[T], from: usize, n: usize) -> Vec<T> {
        all.iter().skip(from).take(n).cloned().collect()
    }
    Block {
        cx: w[2],
        cy: w[3],
        strategy: w[4].min(255) as u8,
        channel: w[5] as u8,
        quant_class: w[6] != 0,
        predicted,
        channel_weight: f[0],
        lambda: f[1],
        penalty: f[2],
        distance: f[3],
        half_width: w[7],
        one: f[4],
        numerator: f[5],
        scale: f[6],
        choices: list.choices as u32,
        rows: list.rows.map(|n| n as u32),
        levels: part(&list.levels, from, n),
        scan: part(&list.scans, from, n),
        source: part(&list.sources, from, n),
        inverse: part(&list.inverses, from, n),
    }
}

/// What is due of a list: the Rust's prediction and its search, block after block. Besides, the predictions.
fn expected(original: &mut Original, search: Search, book: &Book, list: &List) -> Result<(Left, Vec<u8>), String> {
    let room = |cleared: bool| {
        let (byte, float) = if cleared { (255, f32::INFINITY) } else { (STALE.0, STALE.1) };
        (vec![byte; list.choices], list.rows.map(|n| vec![float; n]))
    };
    let left = |code: u32, settled: usize, levels: Vec<i32>, cleared: bool| {
        let (choices, rows) = room(cleared);
        Left { code, settled: settled as u32, levels, choices, rows }
    };
    let number = match checks::book_refusal(book) {
        0 => list_refusal(list),
        number => number,
    };
    if number != 0 {
        return Ok((left(number, 0, list.levels.clone(), false), Vec::new()));
    }
    let mut counts = vec![[[0u8; SIDE]; SIDE]; 3];
    let (mut levels, mut from, mut predictions) = (list.levels.clone(), 0, Vec::new());
    let mut cleared = false;
    for i in 0..list.blocks() {
        let w = &list.words[8 * i..8 * i + 8];
        let (x, y, channel) = (w[0] as usize, w[1] as usize, w[5] as usize);
        let above = if y == 0 { None } else { Some(&counts[channel][y - 1][..]) };
        let predicted = predict_from_top_and_left(above, &counts[channel][y], x);
        let block = block_at(list, i, from, predicted);
        let due = due(original, search, book, &block);
        if let Some(fault) = due.fault {
            return Err(fault);
        }
        let count = match due.outcome.reply {
            Reply::Cost { count, .. } | Reply::Count(count) => count,
            Reply::Refused(number) => {
                let cleared = cleared || matches!(number, 15 | 16);
                return Ok((left(number, i, levels, cleared), predictions));
            }
        };
        predictions.push(predicted);
        cleared |= search != Search::Greedy;
        let n = block.levels.len();
        levels[from..from + n].copy_from_slice(&due.outcome.levels);
        from += n;
        let each = (count as usize).div_ceil(block.covered()) as u8;
        for (channel, x, y) in cells(w) {
            counts[channel as usize][y as usize][x as usize] = each;
        }
    }
    Ok((left(0, list.blocks(), levels, cleared), predictions))
}

/// Blocks that tile a part of a channel from its top left on, in that order: (x, y, cx, cy).
fn tiles(random: &mut Random) -> Vec<(u32, u32, u32, u32)> {
    let most = random.pick(&[1, 2, 4, 8, 32]);
    let (width, height) = (1 + random.below(most), 1 + random.below(most));
    let limit = 1 + random.below(16);
    let mut taken = [[false; SIDE]; SIDE];
    let mut tiles = Vec::new();
    for y in 0..height {
        for x in 0..width {
            if taken[y][x] || tiles.len() == limit {
                continue;
            }
            // a block may reach past the part that is tiled
            let sides: &[usize] = if random.once_in(6) { &[1, 2, 4, 8] } else { &[1, 1, 1, 2, 2, 4] };
            let (cx, cy) = (random.pick(sides), random.pick(sides));
            let free = x + cx <= SIDE && y + cy <= SIDE && (y..y + cy).all(|j| (x..x + cx).all(|i| !taken[j][i]));
            let (cx, cy) = if free { (cx, cy) } else { (1, 1) };
            for row in &mut taken[y..y + cy] {
                row[x..x + cx].fill(true);
            }
            tiles.push((x as u32, y as u32, cx as u32, cy as u32));
        }
        if tiles.len() == limit {
            break;
        }
    }
    tiles
}

/// A block for a place.
fn block_for(random: &mut Random, channel: u8, cx: u32, cy: u32) -> Block {
    let half_width = blocks::random_width(random);
    loop {
        let block = blocks::random_block(random, (cx * cy) as usize, half_width);
        if (block.cx, block.cy) == (cx, cy) {
            return Block { channel, ..block };
        }
    }
}

/// A list of up to three channels: in turns, row after row, Y before X before B, or one channel after the other. Its room serves every block, or nearly.
fn random_list(random: &mut Random) -> List {
    let mut places: Vec<(u8, (u32, u32, u32, u32))> = Vec::new();
    for channel in [1, 0, 2] {
        if !random.once_in(4) {
            places.extend(tiles(random).into_iter().map(|tile| (channel, tile)));
        }
    }
    if random.once_in(2) {
        // a stable sort: the channels keep their order at one cell
        places.sort_by_key(|&(_, (x, y, _, _))| (y, x));
    }
    let mut list = List::default();
    let (mut bytes, mut row) = (0, 0);
    for (channel, (x, y, cx, cy)) in places {
        let mut block = block_for(random, channel, cx, cy);
        if random.once_in(300) {
            let mut other = books::random_book(random);
            damage::damage(random, &mut other, &mut block);
            // what the list itself would refuse is the damaged lists' affair
            (block.cx, block.cy, block.channel) = (cx, cy, channel);
            let n = 64 * (cx * cy) as usize;
            block.levels.resize(n, 0);
            block.scan.resize(n, 0);
            block.source.resize(n, 0.0);
            block.inverse.resize(n, 0.0);
        }
        let width = block.half_width.clamp(1, data::WIDEST);
        bytes = bytes.max(trellis_bytes(width) as usize * window((cx * cy) as usize).0);
        row = row.max(row_floats(width) as usize);
        list.push(x, y, &block);
    }
    list.choices = if random.once_in(20) { bytes.saturating_sub(1 + random.below(600)) } else { bytes + random.pick(&[0, 0, 1, 70]) };
    list.rows = [0; 2].map(|_: usize| if random.once_in(40) { row.saturating_sub(1) } else { row + random.pick(&[0, 0, 3]) });
    if random.once_in(30) {
        // numbers that no block has
        list.scans.push(9);
        list.sources.extend([f32::NAN; 3]);
        list.inverses.push(0.0);
        list.levels.extend([i32::MIN; 2]);
    }
    list
}

/// A fault of the list, or a limit that is none.
fn damage_list(random: &mut Random, list: &mut List) {
    let n = list.blocks();
    let some = random.below(n.max(1));
    let any = random.next() as u32;
    let mut word = |at: usize, value: u32| {
        if let Some(word) = list.words.get_mut(8 * some + at) {
            *word = value;
        }
    };
    match random.below(20) {
        0 => word(0, random.pick(&[0, 1, 31, 32, 33, u32::MAX, any])),
        1 => word(1, random.pick(&[0, 1, 31, 32, 33, u32::MAX, any])),
        2 | 3 => word(2 + random.below(2), random.pick(&[0, 1, 2, 3, 4, 8, 16, 32, 33, 64, 1 << 31, u32::MAX])),
        4 => word(4, random.pick(&[26, 27, 255, 256, 259, u32::MAX, any % 27])),
        5 | 6 => word(5, random.pick(&[0, 1, 2, 3, 255, 256, 258, u32::MAX])),
        7 => word(6, random.pick(&[0, 1, 2, 256, u32::MAX])),
        8 => word(7, random.pick(&[0, 1, 12, 13, 262, u32::MAX])),
        9 => drop(list.words.pop()),
        10 => list.words.push(any),
        11 => drop(list.floats.pop()),
        12 => list.floats.push(1.0),
        13 if n > 1 => {
            // two blocks in each other's place, with their settings, not their numbers
            let other = random.below(n);
            for at in 0..8 {
                list.words.swap(8 * some + at, 8 * other + at);
            }
        }
        14 if n > 1 => {
            // a block twice
            let words: Vec<u32> = list.words[8 * some..(8 * some + 8).min(list.words.len())].to_vec();
            list.words.extend(words);
            list.floats.extend([1.0, 1.0, 1.0, 1.0, 1.0, 0.145, 1.0]);
        }
        15 => list.scans.truncate(random.below(list.scans.len() + 1)),
        16 => list.sources.truncate(random.below(list.sources.len() + 1)),
        17 => list.inverses.truncate(random.below(list.inverses.len() + 1)),
        18 => list.levels.truncate(random.below(list.levels.len() + 1)),
        _ => list.choices = random.below(list.choices + 1),
    }
}

/// What is met; printed at the end.
#[derive(Default)]
struct Met {
    differences: u64,
    blocks: u64,
    predicted: HashSet<u8>,
    /// Lists by what they end with, 0 the end; and those of them that settled some blocks first.
    codes: BTreeMap<u32, (u64, u64)>,
    reruns: u64,
    again: BTreeMap<u32, u64>,
}

impl Met {
    fn hold(&mut self, good: bool, story: impl FnOnce() -> String) {
        if !good {
            self.differences += 1;
            if self.differences <= 10 {
                println!("DIFFERENCE: {}", story());
            }
        }
    }

    fn count(&mut self, left: &Left) {
        let codes = self.codes.entry(left.code).or_default();
        codes.0 += 1;
        codes.1 += u64::from(left.settled > 0);
    }
}

/// Where two calls part.
fn parting(found: &Left, due: &Left) -> String {
    let levels = found.levels.iter().zip(&due.levels).position(|(a, b)| a != b);
    let room = (&found.choices, &found.rows) == (&due.choices, &due.rows);
    format!("code {} for {}, settled {} for {}, levels part at {levels:?}, room alike: {room}", found.code, due.code, found.settled, due.settled)
}

/// The list without the blocks of a channel: those that both settle have the same levels.
fn without_channel(met: &mut Met, random: &mut Random, search: Search, book: &Book, list: &List, whole: &Left) {
    let out = random.below(3) as u32;
    let (fewer, kept) = list.filtered(|channel| channel != out);
    if kept.len() == list.blocks() {
        return;
    }
    met.reruns += 1;
    let left = call(search as u32, book, &fewer);
    for (at, &i) in kept.iter().enumerate() {
        let both = at < left.settled as usize && i < whole.settled as usize;
        let alike = left.levels[fewer.place(at)] == whole.levels[list.place(i)];
        met.hold(!both || alike, || format!("without channel {out}: block {i} is settled otherwise"));
    }
    // a list that comes to its end does so without a channel, and settles all of the others
    met.hold(whole.code != 0 || (left.code == 0 && left.settled as usize == kept.len()), || format!("without channel {out}: code {}", left.code));
}

fn judge_group(met: &mut Met, original: &mut Original, book: &Book, seed: u64, at: u64) {
    let mut random = Random::of(&[seed, at, 11]);
    let list = random_list(&mut random);
    let search = random.pick(&SEARCHES);
    let story = |what: String| format!("{search:?}, seed {seed}, group {at}: {what}");
    let found = call(search as u32, book, &list);
    match expected(original, search, book, &list) {
        Err(fault) => met.hold(false, || story(fault)),
        Ok((due, predictions)) => {
            met.hold(found == due, || story(parting(&found, &due)));
            met.blocks += u64::from(due.settled);
            met.predicted.extend(predictions);
            met.count(&due);
        }
    }
    without_channel(met, &mut random, search, book, &list, &found);
    // a second run, over the levels that were written
    let second = List { levels: found.levels.clone(), ..list.clone() };
    let again = call(search as u32, book, &second);
    match expected(original, search, book, &second) {
        Err(fault) => met.hold(false, || story(fault)),
        Ok((due, _)) => met.hold(again == due, || story(format!("again: {}", parting(&again, &due)))),
    }
    if found.code == 0 {
        *met.again.entry(again.code).or_default() += 1;
    }
}

fn judge_damaged(met: &mut Met, original: &mut Original, good: &Book, seed: u64, at: u64) {
    let mut random = Random::of(&[seed, at, 111]);
    let mut list = random_list(&mut random);
    let mut book = good.clone();
    for _ in 0..1 + random.below(3) {
        damage_list(&mut random, &mut list);
    }
    if random.once_in(12) {
        damage::damage(&mut random, &mut book, &mut blocks::empty_block());
    }
    let number = random.pick(&[0, 1, 2, 3, 0, 1, 2, 3, 4, 1 << 31, u32::MAX]);
    let found = call(number, &book, &list);
    let story = |what: String| format!("search {number}, seed {seed}, damaged {at}: {what}");
    let Some(&search) = SEARCHES.get(number as usize) else {
        let kept = found.levels == list.levels && found.choices.iter().all(|&x| x == STALE.0) && found.rows.iter().flatten().all(|&x| x == STALE.1);
        met.hold(found.code == 17 && found.settled == 0 && kept, || story(format!("{} for 17", found.code)));
        return;
    };
    let mut own = Original::new();
    let whose = if checks::book_refusal(&book) == 0 { original } else { &mut own };
    match expected(whose, search, &book, &list) {
        Err(fault) => met.hold(false, || story(fault)),
        Ok((due, _)) => {
            met.hold(found == due, || story(parting(&found, &due)));
            met.count(&due);
        }
    }
}

fn main() {
    let numbers: Vec<u64> = std::env::args().skip(1).map(|word| word.parse().expect("groups [GROUPS [DAMAGED [SEED]]]")).collect();
    let of = |at: usize, other: u64| numbers.get(at).copied().unwrap_or(other);
    let (groups, damaged, seed) = (of(0, 300), of(1, 1_000), of(2, 1));
    judge::quiet_panics();
    let mut met = Met::default();
    let mut original = Original::new();
    let mut book = Book::default();
    for at in 0..groups.max(damaged) {
        if at % 20 == 0 {
            book = books::random_book(&mut Random::of(&[seed, at, 1]));
            original.take(&book);
        }
        if at < groups {
            judge_group(&mut met, &mut original, &book, seed, at);
        }
        if at < damaged {
            judge_damaged(&mut met, &mut original, &book, seed, at);
        }
    }
    println!("{groups} groups and {damaged} damaged lists beside the Rust's prediction and its rdoq_block; seed {seed}");
    println!("{} blocks settled, {} predicted counts met, {} lists run again without a channel", met.blocks, met.predicted.len(), met.reruns);
    let told = |codes: &BTreeMap<u32, (u64, u64)>| codes.iter().map(|(code, (all, some))| format!("{code}: {all} ({some})")).collect::<Vec<_>>().join(", ");
    println!("lists by their end, 0 or a refusal (of them, with some blocks settled): {}", told(&met.codes));
    println!("settled to the end, and run again over the levels written: {:?}", met.again);
    let seen = [7, 8, 9, 17, 29, 30, 31].iter().all(|code| met.codes.contains_key(code)) && met.predicted.len() > 20;
    if !seen {
        println!("not every case was met");
    }
    println!("{} differences", met.differences);
    std::process::exit(i32::from(met.differences != 0 || !seen));
}
