//! Tokens out and back: the writer of the static library beside the Rust's token loop, its reader beside a plain one. See README.md beside this crate.
//!
//!     tokens [BLOCKS [DAMAGED [SEED]]]
//!     tokens --list FILE
//!
//! Each block is written, compared token by token with the Rust's, and read back over other levels. Then token lists are damaged, and each must be
//! refused with the number that the plain reader gives, no level changed, or read as it reads them. `--list` writes the fixed list that the tests of the
//! Rust crate replay: the Rust's tokens, and what the plain reader makes of right and damaged lists. The library has no part in it.

#[path = "../blocks.rs"]
#[allow(dead_code)]
mod blocks;
#[path = "../books.rs"]
#[allow(dead_code)]
mod books;
#[path = "../checks.rs"]
#[allow(dead_code)]
mod checks;
#[path = "../data.rs"]
#[allow(dead_code)]
mod data;
#[path = "../plain.rs"]
#[allow(dead_code)]
mod plain;
#[path = "../random.rs"]
#[allow(dead_code)]
mod random;
#[path = "../scans.rs"]
#[allow(dead_code)]
mod scans;
#[path = "../stand_ins.rs"]
#[allow(dead_code)]
mod stand_ins;

use crate::data::{Block, Book, HALF_WIDTH};
use crate::group::tokens::door as rust;
use random::Random;
use stand_ins::*;

include!(concat!(env!("OUT_DIR"), "/original.rs"));

#[link(name = "rdoq_c", kind = "static")]
extern "C" {
    fn rdoq_write_tokens(
        clusters: u32, map: *const u8, map_len: usize, configs: *const u8, configs_len: usize, cx: u32, cy: u32, strategy: u8, channel: u8,
        qf_hi: bool, predicted: u8, scan: *const u32, scan_len: usize, levels: *const i32, levels_len: usize, contexts: *mut u32,
        contexts_len: usize, symbols: *mut u32, symbols_len: usize, extra_bits: *mut u32, extra_bits_len: usize, bits: *mut u32,
        bits_len: usize, count: *mut u32,
    ) -> u32;
    fn rdoq_read_tokens(
        clusters: u32, map: *const u8, map_len: usize, configs: *const u8, configs_len: usize, cx: u32, cy: u32, strategy: u8, channel: u8,
        qf_hi: bool, predicted: u8, scan: *const u32, scan_len: usize, symbols: *const u32, symbols_len: usize, bits: *const u32,
        bits_len: usize, levels: *mut i32, levels_len: usize, count: *mut u32,
    ) -> u32;
}

/// What no call writes.
const KEPT: u32 = 0xdead_beef;

/// Contexts, symbols, numbers of extra bits, extra bits.
#[derive(Clone, PartialEq, Debug)]
struct Outputs([Vec<u32>; 4]);

fn write(book: &Book, block: &Block, lengths: [usize; 4]) -> (u32, u32, Outputs) {
    let mut out = Outputs(lengths.map(|n| vec![KEPT; n]));
    let [contexts, symbols, extra_bits, bits] = &mut out.0;
    let mut count = KEPT;
    let code = unsafe {
        rdoq_write_tokens(
            book.clusters, book.map.as_ptr(), book.map.len(), book.configs.as_ptr(), book.configs.len(), block.cx, block.cy, block.strategy,
            block.channel, block.quant_class, block.predicted, block.scan.as_ptr(), block.scan.len(), block.levels.as_ptr(),
            block.levels.len(), contexts.as_mut_ptr(), contexts.len(), symbols.as_mut_ptr(), symbols.len(), extra_bits.as_mut_ptr(),
            extra_bits.len(), bits.as_mut_ptr(), bits.len(), &mut count,
        )
    };
    (code, count, out)
}

/// The code, the count and the levels afterwards.
fn read(book: &Book, block: &Block, symbols: &[u32], bits: &[u32], old: &[i32]) -> (u32, u32, Vec<i32>) {
    let mut levels = old.to_vec();
    let mut count = KEPT;
    let code = unsafe {
        rdoq_read_tokens(
            book.clusters, book.map.as_ptr(), book.map.len(), book.configs.as_ptr(), book.configs.len(), block.cx, block.cy, block.strategy,
            block.channel, block.quant_class, block.predicted, block.scan.as_ptr(), block.scan.len(), symbols.as_ptr(), symbols.len(),
            bits.as_ptr(), bits.len(), levels.as_mut_ptr(), levels.len(), &mut count,
        )
    };
    (code, count, levels)
}

/// The value that ISO/IEC 18181-1 reads from a symbol and its extra bits, where it is at most 131,071 and its own split.
fn decoded(config: &[u8], symbol: u32, bits: u32) -> Option<u32> {
    let [s, m, l] = [0, 1, 2].map(|at| u32::from(config[at]));
    if symbol > 127 {
        return None;
    }
    if symbol < 1 << s {
        return (bits == 0).then_some(symbol);
    }
    let n = s - m - l + ((symbol - (1 << s)) >> (m + l));
    if n > 17 || u64::from(bits) >= 1 << n {
        return None;
    }
    let low = u64::from(symbol & ((1 << l) - 1));
    let high = u64::from((symbol >> l) & ((1 << m) - 1) | 1 << m);
    let value = ((high << n) | u64::from(bits)) << l | low;
    (value <= 131_071).then_some(value as u32)
}

/// The reader in plain words: the levels from scan position c on, or the number of the refusal.
fn plain_read(book: &Book, block: &Block, symbols: &[u32], bits: &[u32]) -> Result<Vec<i32>, u32> {
    let c = block.covered();
    let own = plain::block_context(block.channel, block.strategy, block.quant_class);
    let config = |context: usize| &book.configs[3 * usize::from(book.map[context])..][..3];
    if symbols.len() != bits.len() {
        return Err(22);
    }
    let mut pairs = symbols.iter().zip(bits);
    let (&symbol, &extra) = pairs.next().ok_or(22u32)?;
    let count = decoded(config(30 * plain::bucket(block.predicted.into()) + own), symbol, extra).ok_or(20u32)? as usize;
    if count > 63 * c {
        return Err(21);
    }
    let (mut owed, mut prev) = (count, usize::from(count <= 4 * c));
    let mut levels = Vec::new();
    while owed > 0 {
        let k = c + levels.len();
        if owed > 64 * c - k {
            return Err(25);
        }
        let (&symbol, &extra) = pairs.next().ok_or(22u32)?;
        let value = decoded(config(1110 + 458 * own + plain::coefficient(c, owed, k, prev)), symbol, extra).ok_or(20u32)?;
        if value > 65_536 {
            return Err(24);
        }
        let level = if value % 2 == 0 { (value / 2) as i32 } else { -(value.div_ceil(2) as i32) };
        prev = usize::from(level != 0);
        owed -= prev;
        levels.push(level);
    }
    if pairs.next().is_some() {
        return Err(22);
    }
    levels.resize(63 * c, 0);
    Ok(levels)
}

/// What was met; the codes by number.
#[derive(Default)]
struct Report {
    blocks: u64,
    tokens: u64,
    damaged: u64,
    differences: u64,
    writing: Vec<u64>,
    reading: Vec<u64>,
}

impl Report {
    fn hold(&mut self, good: bool, what: &str, at: u64) {
        if !good {
            self.differences += 1;
            if self.differences <= 5 {
                println!("DIFFERENCE: {what}, at {at}");
            }
        }
    }
}

/// Sizes, the small ones often. The Rust's loop goes up to c = 256.
fn size(random: &mut Random) -> usize {
    let at = random.below(1000);
    [(700, 1), (850, 2), (930, 4), (970, 8), (990, 16), (995, 32), (998, 64), (999, 128)].iter().find(|(below, _)| at < *below).map_or(256, |(_, c)| *c)
}

/// A block, now and then with levels that only tokens know: ±32,768, or beyond.
fn block(random: &mut Random) -> Block {
    let c = size(random);
    let mut block = blocks::random_block(random, c, HALF_WIDTH);
    if random.once_in(20) {
        for _ in 0..1 + random.below(3) {
            let at = random.below(block.levels.len());
            block.levels[at] = random.pick(&[32_768, -32_768, 32_768, -32_768, 32_769, -32_769, i32::MAX, i32::MIN]);
        }
    }
    block
}

/// What the writer must answer, and its tokens: contexts, symbols, numbers of extra bits, extra bits.
fn expected(book: &Book, block: &Block) -> Result<[Vec<u32>; 4], u32> {
    let c = block.covered();
    let coded = |at: &u32| block.levels[*at as usize];
    if block.scan[c..].iter().map(coded).any(|q| q.unsigned_abs() > 32_768) {
        return Err(24);
    }
    let count = block.scan[c..].iter().map(coded).filter(|&q| q != 0).count();
    let mut tokens = Vec::new();
    rust::tokens(block, count, &mut tokens);
    let configs = rust::configs(book);
    let splits: Vec<_> = tokens.iter().map(|token| rust::split(&book.map, &configs, token)).collect();
    if splits.iter().any(|split| split.0 > 127) {
        return Err(20);
    }
    let of = |part: fn(&(u32, u32, u32)) -> u32| splits.iter().map(part).collect::<Vec<u32>>();
    Ok([tokens.iter().map(|token| token.context).collect(), of(|x| x.0), of(|x| x.1), of(|x| x.2)])
}

/// Writes a block, compares, and reads it back. Answers the two lists where there are tokens.
fn there_and_back(report: &mut Report, random: &mut Random, book: &Book, block: &Block, at: u64) -> Option<(Vec<u32>, Vec<u32>)> {
    let c = block.covered();
    let most = 63 * c + 1;
    let mut lengths = [0; 4].map(|_: usize| most + random.below(3));
    let found = expected(book, block);
    let mut wanted = found.as_ref().err().copied().unwrap_or(0);
    if let Ok(lists) = &found {
        let n = lists[0].len();
        match random.below(10) {
            0 => lengths = [n; 4],
            1 => {
                lengths[random.below(4)] = n - 1;
                wanted = 23;
            }
            _ => {}
        }
    }
    let (code, count, out) = write(book, block, lengths);
    report.blocks += 1;
    report.writing[code as usize] += 1;
    report.hold(code == wanted, "the writer's code", at);
    let lists = match found {
        Ok(lists) if code == 0 => lists,
        _ => {
            report.hold(count == KEPT && out.0.iter().flatten().all(|&x| x == KEPT), "what a refused writing leaves", at);
            return None;
        }
    };
    let n = lists[0].len();
    report.tokens += n as u64;
    report.hold(count as usize == n, "the number of tokens", at);
    for (list, out) in lists.iter().zip(&out.0) {
        report.hold(out[..n] == list[..] && out[n..].iter().all(|&x| x == KEPT), "an output", at);
    }
    let old: Vec<i32> = block.levels.iter().map(|_| random.next() as i32).collect();
    let (code, count, levels) = read(book, block, &lists[1], &lists[3], &old);
    report.reading[code as usize] += 1;
    let same = |(k, &place): (usize, &u32)| levels[place as usize] == if k < c { old[place as usize] } else { block.levels[place as usize] };
    report.hold(code == 0 && count as usize == n && block.scan.iter().enumerate().all(same), "what is read back", at);
    let [_, symbols, _, bits] = lists;
    Some((symbols, bits))
}

/// Damages two lists of tokens.
fn damage(random: &mut Random, symbols: &mut Vec<u32>, bits: &mut Vec<u32>) {
    for _ in 0..1 + random.below(2) {
        let n = symbols.len().min(bits.len());
        let at = if random.once_in(3) { 0 } else { random.below(n.max(1)) };
        match random.below(9) {
            _ if n == 0 => symbols.push(1),
            0 => symbols[at] = random.below(128) as u32,
            1 => symbols[at] = random.pick(&[127, 128, 255, 767, u32::MAX]),
            2 => bits[at] = bits[at].wrapping_add(random.pick(&[1, 1 << 4, 1 << 16, u32::MAX])),
            3 => {
                let wide = random.below(18);
                (symbols[at], bits[at]) = (random.below(128) as u32, random.below(1 << wide) as u32);
            }
            4 => {
                symbols.truncate(at);
                bits.truncate(at);
            }
            5 => {
                symbols.push(random.below(6) as u32);
                bits.push(0);
            }
            6 => {
                symbols.remove(at);
                bits.remove(at);
            }
            7 => {
                symbols.insert(at, 0);
                bits.insert(at, 0);
            }
            _ => bits.truncate(at),
        }
    }
}

/// Reads damaged lists beside the plain reader.
fn damaged(report: &mut Report, random: &mut Random, book: &Book, block: &Block, lists: &(Vec<u32>, Vec<u32>), at: u64) {
    let (mut symbols, mut bits) = lists.clone();
    damage(random, &mut symbols, &mut bits);
    let c = block.covered();
    let old: Vec<i32> = block.levels.iter().map(|_| random.next() as i32).collect();
    let (code, count, levels) = read(book, block, &symbols, &bits, &old);
    report.damaged += 1;
    report.reading[code as usize] += 1;
    match plain_read(book, block, &symbols, &bits) {
        Err(number) => report.hold(code == number && count == KEPT && levels == old, "a damaged list", at),
        Ok(coded) => {
            let same = |(k, &place): (usize, &u32)| levels[place as usize] == if k < c { old[place as usize] } else { coded[k - c] };
            report.hold(code == 0 && count as usize == symbols.len() && block.scan.iter().enumerate().all(same), "a changed list", at);
        }
    }
}

/// The fixed list's code: clusters of these configurations by turns.
const LISTED: [[u8; 3]; 3] = [[4, 2, 0], [5, 2, 2], [6, 3, 0]];

fn listed_book() -> Book {
    Book { clusters: 3, map: (0..14_850u32).map(|context| (context % 3) as u8).collect(), configs: LISTED.concat(), ..Book::default() }
}

/// A block of few levels, whose scan takes steps of `step`, an odd number.
fn listed_block(random: &mut Random, c: usize, step: usize) -> Block {
    let mut block = Block { predicted: random.below(64) as u8, ..blocks::random_block(random, c, HALF_WIDTH) };
    let n = block.levels.len();
    block.scan = (0..n).map(|i| (i * step % n) as u32).collect();
    block.levels = vec![0; n];
    for _ in 0..random.below(12) {
        let size = random.pick(&[1, 1, 1, 2, 3, 9, 40, 700, 16_384, 32_768]);
        let at = block.scan[c + random.below(48)] as usize;
        block.levels[at] = if random.once_in(2) { size } else { -size };
    }
    block
}

/// The levels that are not 0, by scan position.
fn by_position(block: &Block, level: impl Fn(usize, usize) -> i32) -> String {
    let places = block.scan.iter().enumerate().skip(block.covered()).map(|(k, &place)| (k, level(k, place as usize)));
    places.filter(|(_, level)| *level != 0).map(|(k, level)| format!("{k}:{level}")).collect::<Vec<_>>().join(" ")
}

/// Lines of the fixed list: head, levels by position, code, tokens; and for reading head, symbols with extra bits, code, levels.
fn list() -> String {
    let book = listed_book();
    let mut lines = String::new();
    let (mut met, mut met_reading) = ([0u32; 38], [0u32; 38]);
    for (number, c) in [1, 1, 1, 1, 2, 2, 4, 4, 8, 16, 32, 64, 128, 256].iter().cycle().take(70).enumerate() {
        let mut random = Random::of(&[5, number as u64, 11]);
        let step = 2 * random.below(32 * c) + 1;
        let mut block = listed_block(&mut random, *c, step);
        if number % 23 == 22 {
            block.levels[block.scan[*c + 3] as usize] = 32_769;
        }
        let head = format!(
            "{} {} {} {} {} {} {step}",
            block.cx, block.cy, block.strategy, block.channel, u8::from(block.quant_class), block.predicted
        );
        let found = expected(&book, &block);
        let code = found.as_ref().err().copied().unwrap_or(0);
        met[code as usize] += 1;
        let tokens = found.as_ref().map_or(String::new(), |[contexts, symbols, extra_bits, bits]| {
            (0..contexts.len()).map(|i| format!("{},{},{},{}", contexts[i], symbols[i], extra_bits[i], bits[i])).collect::<Vec<_>>().join(" ")
        });
        lines += &format!("W {head} | {} | {code} | {tokens}\n", by_position(&block, |_, place| block.levels[place]));
        let Ok([contexts, symbols, _, bits]) = found else { continue };
        for damaged in 0..4 {
            let (mut symbols, mut bits) = (symbols.clone(), bits.clone());
            match damaged {
                0 => {}
                // every position is owed, and one of them holds 0
                1 if symbols.len() > 1 => {
                    let count = entropy::token::Token::new(contexts[0], 63 * *c as u32);
                    (symbols[0], _, bits[0]) = rust::split(&book.map, &rust::configs(&book), &count);
                    (symbols[1], bits[1]) = (0, 0);
                }
                // a value that no level has
                2 if symbols.len() > 1 && number % 5 == 0 => {
                    let level = entropy::token::Token::new(contexts[1], 65_537);
                    (symbols[1], _, bits[1]) = rust::split(&book.map, &rust::configs(&book), &level);
                }
                _ => damage(&mut random, &mut symbols, &mut bits),
            }
            if symbols.len() != bits.len() {
                continue;
            }
            let read = plain_read(&book, &block, &symbols, &bits);
            let code = read.as_ref().err().copied().unwrap_or(0);
            met_reading[code as usize] += 1;
            let pairs = symbols.iter().zip(&bits).map(|(symbol, bits)| format!("{symbol},{bits}")).collect::<Vec<_>>().join(" ");
            let levels = read.map_or(String::new(), |levels| by_position(&block, |k, _| levels[k - c]));
            lines += &format!("R {head} | {pairs} | {code} | {levels}\n");
        }
    }
    assert!([0, 20, 24].iter().all(|&n| met[n] > 0), "not every refusal of the writer is listed: {met:?}");
    assert!([0, 20, 21, 22, 24, 25].iter().all(|&n| met_reading[n] > 0), "not every refusal of the reader is listed: {met_reading:?}");
    lines
}

fn main() {
    let mut words = std::env::args().skip(1);
    if words.next().as_deref() == Some("--list") {
        let file = words.next().expect("tokens --list FILE");
        return std::fs::write(&file, list()).expect("the list's file");
    }
    let numbers: Vec<u64> = std::env::args().skip(1).map(|word| word.parse().expect("tokens [BLOCKS [DAMAGED [SEED]]]")).collect();
    let of = |at: usize, other: u64| numbers.get(at).copied().unwrap_or(other);
    let (blocks, lists, seed) = (of(0, 20_000), of(1, 5_000), of(2, 1));
    let every = (blocks / lists.max(1)).max(1);
    let mut report = Report { writing: vec![0; 38], reading: vec![0; 38], ..Report::default() };
    let mut book = Book::default();
    for at in 0..blocks {
        let mut random = Random::of(&[seed, at, 5]);
        if at % 250 == 0 {
            book = books::random_book(&mut random);
        }
        let block = block(&mut random);
        let Some(written) = there_and_back(&mut report, &mut random, &book, &block, at) else { continue };
        let more = if at % every == 0 { 2 } else { 0 };
        for _ in 0..more {
            if report.damaged < lists {
                damaged(&mut report, &mut random, &book, &block, &written, at);
            }
        }
    }
    let told = |codes: &[u64]| codes.iter().enumerate().filter(|(_, &n)| n > 0).map(|(code, n)| format!("{code}: {n}")).collect::<Vec<_>>().join(", ");
    println!("{} blocks, {} tokens, {} damaged lists, seed {seed}: {} differences", report.blocks, report.tokens, report.damaged, report.differences);
    println!("codes of the writer: {}", told(&report.writing));
    println!("codes of the reader: {}", told(&report.reading));
    let all = [20, 23, 24].iter().all(|&n| report.writing[n] > 0) && (20..=25).filter(|&n| n != 23).all(|n| report.reading[n] > 0);
    if !all {
        println!("not every refusal from 20 to 25 was met");
    }
    std::process::exit(i32::from(report.differences != 0 || !all));
}
