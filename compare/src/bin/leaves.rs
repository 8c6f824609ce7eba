//! Compares the leaf calls of the static library with the Rust's, over their whole domain where that is feasible. See README.md beside this crate.
//!
//! Packing, splitting and `fast_round` are not in the Rust's text; for them the stand-ins of document 01's rules decide.

#[path = "../books.rs"]
#[allow(dead_code)]
mod books;
#[path = "../checks.rs"]
#[allow(dead_code)]
mod checks;
#[path = "../data.rs"]
#[allow(dead_code)]
mod data;
#[path = "../plain.rs"]
#[allow(dead_code)]
mod plain;
#[path = "../random.rs"]
#[allow(dead_code)]
mod random;
#[path = "../stand_ins.rs"]
#[allow(dead_code)]
mod stand_ins;

use crate::ac_context as contexts;
use crate::data::Book;
use crate::entropy::entropy_code::door as prices;
use crate::group::door as bias;
use crate::group::trellis::{chroma_rdoq_weight, door as trellis};
use random::Random;
use stand_ins::*;

include!(concat!(env!("OUT_DIR"), "/original.rs"));

#[link(name = "rdoq_c", kind = "static")]
extern "C" {
    fn rdoq_pack_signed(level: i32, packed: *mut u32) -> u32;
    fn rdoq_uint_encode_with_config(value: u32, s: u32, m: u32, l: u32, symbol: *mut u32, extra: *mut u32, bits: *mut u32) -> u32;
    fn rdoq_fine_block_context(channel: u32, strategy: u32, qf_hi: bool, context: *mut u32) -> u32;
    fn rdoq_fine_non_zero_context(non_zeros: u32, block: u32, context: *mut u32) -> u32;
    fn rdoq_fine_zero_density_contexts_offset(block: u32, offset: *mut u32) -> u32;
    fn rdoq_zero_density_context(left: u32, k: u32, covered: u32, prev: u32, context: *mut u32) -> u32;
    fn rdoq_zero_density_context_8x8(left: u32, k: u32, prev: u32, context: *mut u32) -> u32;
    fn rdoq_level(one: f32, numerator: f32, quant: i32, level: *mut f32) -> u32;
    fn rdoq_chroma_rdoq_weight(distance: f32, weight: *mut f32) -> u32;
    fn rdoq_distortion_weight(index: u32, length: u32, distance: f32, weight: *mut f32) -> u32;
    fn rdoq_candidates(ideal: f32, current: i32, restore: bool, levels: *mut i32, levels_len: usize, count: *mut u32) -> u32;
    fn rdoq_window_len(covered: u32, length: *mut usize, restoring: *mut usize) -> u32;
    fn rdoq_ans_symbol_bits(clusters: u32, freqs: *const u16, freqs_len: usize, symbols: *mut f32, symbols_len: usize) -> u32;
    fn rdoq_check_book(
        clusters: u32, map: *const u8, map_len: usize, configs: *const u8, configs_len: usize, symbols: *const f32, symbols_len: usize,
        ready: *const f32, ready_len: usize,
    ) -> u32;
    fn rdoq_fill_ready(
        clusters: u32, map: *const u8, map_len: usize, configs: *const u8, configs_len: usize, symbols: *const f32, symbols_len: usize,
        ready: *mut f32, ready_len: usize,
    ) -> u32;
    fn rdoq_prefix_symbol_bits(
        clusters: u32, depths: *const u8, depths_len: usize, singles: *const u8, singles_len: usize, strict: bool, symbols: *mut f32,
        symbols_len: usize,
    ) -> u32;
    fn rdoq_token_bits(
        clusters: u32, map: *const u8, map_len: usize, configs: *const u8, configs_len: usize, symbols: *const f32, symbols_len: usize,
        ready: *const f32, ready_len: usize, context: u32, value: u32, bits: *mut f32,
    ) -> u32;
    fn rdoq_token_bits_pair(
        clusters: u32, map: *const u8, map_len: usize, configs: *const u8, configs_len: usize, symbols: *const f32, symbols_len: usize,
        ready: *const f32, ready_len: usize, context: u32, value: u32, first: *mut f32, second: *mut f32,
    ) -> u32;
    fn rdoq_tally_add(
        clusters: u32, map: *const u8, map_len: usize, configs: *const u8, configs_len: usize, contexts: *const u32, contexts_len: usize,
        values: *const u32, values_len: usize, counts: *mut u32, counts_len: usize, extra: *mut u64,
    ) -> u32;
    fn rdoq_tally_remove(
        clusters: u32, map: *const u8, map_len: usize, configs: *const u8, configs_len: usize, contexts: *const u32, contexts_len: usize,
        values: *const u32, values_len: usize, counts: *mut u32, counts_len: usize, extra: *mut u64,
    ) -> u32;
}

/// Calls made and differences met, of one leaf.
struct Tally {
    name: &'static str,
    domain: &'static str,
    calls: u64,
    differences: u64,
}

impl Tally {
    fn new(name: &'static str, domain: &'static str) -> Self {
        Tally { name, domain, calls: 0, differences: 0 }
    }

    fn hold<T: PartialEq + std::fmt::Debug>(&mut self, ours: T, theirs: T, asked: impl std::fmt::Debug) {
        self.calls += 1;
        if ours != theirs {
            self.differences += 1;
            if self.differences <= 3 {
                println!("DIFFERENCE in {} at {asked:?}: {ours:?} for {theirs:?}", self.name);
            }
        }
    }
}

/// A code and a number that the call writes.
fn number(call: impl FnOnce(*mut u32) -> u32) -> (u32, u32) {
    let mut out = u32::MAX;
    (call(&mut out), out)
}

fn float(call: impl FnOnce(*mut f32) -> u32) -> (u32, u32) {
    let mut out = f32::NAN;
    let code = call(&mut out);
    (code, out.to_bits())
}

fn packing() -> Tally {
    let mut tally = Tally::new("pack_signed", "all levels");
    for level in -32768..=32768 {
        tally.hold(number(|out| unsafe { rdoq_pack_signed(level, out) }), (0, crate::entropy::pack_signed(level)), level);
    }
    tally
}

fn splitting() -> Tally {
    let mut tally = Tally::new("uint_encode_with_config", "all values under all 84 configurations");
    for [s, m, l] in configurations() {
        let config = crate::entropy::token::HybridUintConfig { s: s.into(), m: m.into(), l: l.into() };
        for value in 0..=131_071 {
            let mut out = [0u32; 3];
            let [symbol, extra, bits] = &mut out;
            let code = unsafe { rdoq_uint_encode_with_config(value, s.into(), m.into(), l.into(), symbol, extra, bits) };
            let (symbol, extra, bits) = crate::entropy::token::uint_encode_with_config(value, config);
            tally.hold((code, out), (0, [symbol, extra, bits]), (value, s, m, l));
        }
    }
    tally
}

fn block_contexts() -> Tally {
    let mut tally = Tally::new("fine_block_context and offsets", "all");
    for (channel, strategy, class) in (0..3).flat_map(|c| (0..27).flat_map(move |s| [(c, s, false), (c, s, true)])) {
        let theirs = contexts::fine_block_context(channel as usize, strategy as u8, class);
        tally.hold(number(|out| unsafe { rdoq_fine_block_context(channel, strategy, class, out) }), (0, theirs), (channel, strategy, class));
    }
    for block in 0..30 {
        let theirs = contexts::fine_zero_density_contexts_offset(block);
        tally.hold(number(|out| unsafe { rdoq_fine_zero_density_contexts_offset(block, out) }), (0, theirs), block);
    }
    tally
}

fn count_contexts() -> Tally {
    let mut tally = Tally::new("fine_non_zero_context", "counts to 70,000, all block contexts");
    for (count, block) in (0..=70_000).flat_map(|n| (0..30).map(move |b| (n, b))) {
        let theirs = contexts::fine_non_zero_context(count, block);
        tally.hold(number(|out| unsafe { rdoq_fine_non_zero_context(count, block, out) }), (0, theirs), (count, block));
    }
    tally
}

fn coefficient_contexts() -> Tally {
    let mut tally = Tally::new("zero_density_context", "all to c = 32; above, both ends of each pair of buckets");
    for log in 0..=10u32 {
        let c = 1u32 << log;
        let mut at = |left: u32, k: u32| {
            if left == 0 || k < c || left + k > 64 * c {
                return;
            }
            for prev in 0..2 {
                let theirs = contexts::zero_density_context(left as usize, k as usize, c as usize, log as usize, prev as usize) as u32;
                tally.hold(number(|out| unsafe { rdoq_zero_density_context(left, k, c, prev, out) }), (0, theirs), (left, k, c, prev));
                if c == 1 {
                    let theirs = contexts::zero_density_context_8x8(left as usize, k as usize, prev as usize) as u32;
                    tally.hold(number(|out| unsafe { rdoq_zero_density_context_8x8(left, k, prev, out) }), (0, theirs), (left, k, prev));
                }
            }
        };
        if c <= 32 {
            for k in c..64 * c {
                for left in 1..=64 * c - k {
                    at(left, k);
                }
            }
        } else {
            for (count, freq) in (0..64).flat_map(|n| (1..64).map(move |f| (n, f))) {
                for (left, k) in [(count * c + 1, freq * c), (count * c + c, freq * c), (count * c + 1, freq * c + c - 1), (count * c + c, freq * c + c - 1)] {
                    at(left, k);
                }
            }
        }
    }
    tally
}

fn levels() -> Tally {
    let mut tally = Tally::new("DequantBias::level", "all levels, 8 values of one");
    for one in [1.0 - 0.054_650_073, 1.0 - 0.070_054_5, 1.0 - 0.049_935_103, 0.0, 0.5, 1.0, 1.25, 2.0] {
        for quant in -32768..=32768 {
            let theirs = bias::level(one, quant).to_bits();
            tally.hold(float(|out| unsafe { rdoq_level(one, 0.145, quant, out) }), (0, theirs), (one, quant));
        }
    }
    tally
}

fn weights() -> Tally {
    let mut tally = Tally::new("chroma_rdoq_weight, rdoq_distortion_weight, rdoq_window_len", "a million distances; all indices of all lengths at 6 distances; all c");
    for step in 0..=1_000_000u32 {
        let distance = 25.0 * (step as f32 / 1_000_000.0);
        let theirs = chroma_rdoq_weight(distance).to_bits();
        tally.hold(float(|out| unsafe { rdoq_chroma_rdoq_weight(distance, out) }), (0, theirs), distance);
    }
    for distance in [0.0, 2.0, 2.3, 2.71, 3.0, 25.0] {
        for (index, length) in (0..=1024u32).flat_map(|length| (0..=length).map(move |index| (index, length))) {
            let theirs = trellis::distortion_weight(index as usize, length as usize, distance).to_bits();
            tally.hold(float(|out| unsafe { rdoq_distortion_weight(index, length, distance, out) }), (0, theirs), (index, length, distance));
        }
    }
    for c in (0..=10).map(|log| 1usize << log) {
        let (mut length, mut restoring) = (0, 0);
        let code = unsafe { rdoq_window_len(c as u32, &mut length, &mut restoring) };
        // The Rust takes the minimum with 63c in the caller.
        let (theirs, restore) = trellis::window_len(c);
        tally.hold((code, length, restoring), (0, theirs.min(63 * c), restore), c);
    }
    tally
}

fn candidates() -> Tally {
    let mut tally = Tally::new("rdoq_candidates", "all quarters and their neighbours within 40 of 81 levels; 4 million drawn");
    let mut at = |ideal: f32, current: i32| {
        for restore in [false, true] {
            let mut found = ([0i32; 5], 0u32);
            let code = unsafe { rdoq_candidates(ideal, current, restore, found.0.as_mut_ptr(), 5, &mut found.1) };
            let (levels, count) = trellis::candidates(ideal, current, restore);
            tally.hold((code, found), (0, (levels, count as u32)), (ideal, current, restore));
        }
    };
    for current in -40..=40 {
        for quarter in -160..=160 {
            let ideal = quarter as f32 / 4.0;
            for ideal in [ideal.next_down(), ideal, ideal.next_up()] {
                at(ideal, current);
            }
        }
    }
    let mut random = Random::of(&[17]);
    for _ in 0..2_000_000 {
        let range = random.pick(&[1.0f32, 4.0, 300.0, 32767.0]);
        let ideal = random.between(-range, range);
        let current = if random.once_in(2) { ideal.round() as i32 } else { random.between(-range, range) as i32 };
        at(ideal, current);
    }
    tally
}

/// Lenient prices are the Rust's; strict ones too, with +infinity for the depths 0 of each cluster that has a word.
fn prefix_prices() -> Tally {
    let mut tally = Tally::new("prefix_symbol_bits", "4,000 drawn codes, strict and not, some clusters without a word");
    let mut random = Random::of(&[23]);
    for made in 0..4000 {
        let clusters = 1 + if random.once_in(20) { random.below(256) } else { random.below(8) };
        let codes: Vec<_> = (0..clusters).map(|_| books::prefix_code(&mut random)).collect();
        let depths: Vec<u8> = codes.iter().flat_map(|code| code.depths).collect();
        let singles: Vec<u8> = codes.iter().map(|code| if code.single_symbol { random.pick(&[1, 2, 255]) } else { 0 }).collect();
        for strict in [false, true] {
            let mut book = data::Book { clusters: clusters as u32, map: vec![0; 14850], configs: [4, 2, 0].repeat(clusters), ..data::Book::default() };
            books::price_prefix(&mut book, &codes, strict);
            let mut ours = vec![f32::NAN; 128 * clusters];
            let code = unsafe {
                rdoq_prefix_symbol_bits(
                    book.clusters, depths.as_ptr(), depths.len(), singles.as_ptr(), singles.len(), strict, ours.as_mut_ptr(), ours.len(),
                )
            };
            let bits = |prices: &[f32]| prices.iter().map(|price| price.to_bits()).collect::<Vec<_>>();
            tally.hold((code, bits(&ours)), (0, bits(&book.symbols)), (made, strict));
        }
    }
    tally
}

/// Every frequency by itself, then drawn codes: the routine as the Rust's branch takes it.
fn ans_prices() -> Tally {
    let mut tally = Tally::new("ans_symbol_bits", "all 4,097 frequencies, and 2,000 drawn codes");
    let mut random = Random::of(&[29]);
    let mut at = |freqs: &[u16], which: usize| {
        let clusters = freqs.len() / 128;
        let mut book = data::Book { clusters: clusters as u32, map: vec![0; 14850], configs: [4, 2, 0].repeat(clusters), ..data::Book::default() };
        books::price_ans(&mut book, freqs);
        let mut ours = vec![f32::NAN; freqs.len()];
        let code = unsafe { rdoq_ans_symbol_bits(book.clusters, freqs.as_ptr(), freqs.len(), ours.as_mut_ptr(), ours.len()) };
        let bits = |prices: &[f32]| prices.iter().map(|price| price.to_bits()).collect::<Vec<_>>();
        tally.hold((code, bits(&ours)), (0, bits(&book.symbols)), which);
    };
    let all: Vec<u16> = (0..33 * 128).map(|f| f.min(4096)).collect();
    at(&all, 0);
    for made in 1..=2000 {
        let clusters = 1 + if random.once_in(20) { random.below(256) } else { random.below(8) };
        at(&books::ans_code(&mut random, clusters), made);
    }
    tally
}

/// A book of these configurations by turns, its prices the Rust's from drawn prefix codes or drawn, some of them infinite.
fn book_of(random: &mut Random, configs: &[[u8; 3]]) -> data::Book {
    let clusters = configs.len();
    let map = (0..14850).map(|_| random.below(clusters) as u8).collect();
    let mut book = data::Book { clusters: clusters as u32, map, configs: configs.concat(), ..data::Book::default() };
    if random.once_in(2) {
        let codes: Vec<_> = (0..clusters).map(|_| books::prefix_code(random)).collect();
        books::price_prefix(&mut book, &codes, random.once_in(2));
    } else {
        let price = |random: &mut Random| if random.once_in(20) { f32::INFINITY } else { random.between(0.0, 12.0) };
        book.symbols = (0..128 * clusters).map(|_| price(random)).collect();
        books::fill_ready(&mut book);
    }
    book
}

/// The configurations that pass check 4.
fn configurations() -> Vec<[u8; 3]> {
    let all = (0..=6u8).flat_map(|s| (0..=s).flat_map(move |m| (0..=s - m).map(move |l| [s, m, l])));
    let all: Vec<_> = all.collect();
    assert_eq!(all.len(), 84);
    all
}

fn check(book: &Book) -> u32 {
    unsafe {
        rdoq_check_book(
            book.clusters, book.map.as_ptr(), book.map.len(), book.configs.as_ptr(), book.configs.len(), book.symbols.as_ptr(), book.symbols.len(),
            book.ready.as_ptr(), book.ready.len(),
        )
    }
}

/// Filled ready prices are those of the book (the Rust's, where it made them); they pass check 6, and with one bit of one of them changed they do not.
fn ready_prices() -> Tally {
    let mut tally = Tally::new("fill_ready, check_book", "6 books of each configuration; each ready price one bit off");
    let mut random = Random::of(&[29]);
    for config in configurations() {
        for made in 0..6 {
            let mut book = book_of(&mut random, &[config, [4, 2, 0]]);
            let mut ready = vec![f32::NAN; book.ready.len()];
            let code = unsafe {
                rdoq_fill_ready(
                    book.clusters, book.map.as_ptr(), book.map.len(), book.configs.as_ptr(), book.configs.len(), book.symbols.as_ptr(),
                    book.symbols.len(), ready.as_mut_ptr(), ready.len(),
                )
            };
            let bits = |prices: &[f32]| prices.iter().map(|price| price.to_bits()).collect::<Vec<_>>();
            tally.hold((code, bits(&ready)), (0, bits(&book.ready)), (config, made));
            tally.hold(check(&book), 0, (config, made));
            for at in 0..book.ready.len() {
                let right = book.ready[at];
                book.ready[at] = f32::from_bits(right.to_bits() ^ 1 << random.below(32));
                tally.hold(check(&book), 6, (config, made, at));
                book.ready[at] = right;
            }
        }
    }
    tally
}

/// Both price calls on one book, every value in a drawn context. A value that has no word is held to +infinity: there the Rust indexes past 127.
fn price_book(random: &mut Random, made: usize, book: &Book, tally: &mut Tally, none: &mut Tally) {
    let frozen = prices::lent(book);
    for value in 0..=131_071 {
        let context = random.below(14_849) as u32;
        let has_word = |context: u32| {
            let c = &book.configs[3 * usize::from(book.map[context as usize])..][..3];
            value < 256 || plain::split(value, c[0].into(), c[1].into(), c[2].into()).0 < 128
        };
        let theirs = |context: u32| if has_word(context) { prices::token_bits(&frozen, context, value) } else { f32::INFINITY }.to_bits();
        let ours = float(|out| unsafe {
            rdoq_token_bits(
                book.clusters, book.map.as_ptr(), book.map.len(), book.configs.as_ptr(), book.configs.len(), book.symbols.as_ptr(),
                book.symbols.len(), book.ready.as_ptr(), book.ready.len(), context, value, out,
            )
        });
        let counted = if has_word(context) { &mut *tally } else { &mut *none };
        counted.hold(ours, (0, theirs(context)), (made, context, value));
        let mut pair = [f32::NAN; 2];
        let [first, second] = &mut pair;
        let code = unsafe {
            rdoq_token_bits_pair(
                book.clusters, book.map.as_ptr(), book.map.len(), book.configs.as_ptr(), book.configs.len(), book.symbols.as_ptr(),
                book.symbols.len(), book.ready.as_ptr(), book.ready.len(), context, value, first, second,
            )
        };
        let pair = (code, pair.map(f32::to_bits));
        if has_word(context) && has_word(context + 1) {
            tally.hold(pair, (0, prices::token_bits_pair(&frozen, context, value).map(f32::to_bits)), (made, context, value));
        } else {
            none.hold(pair, (0, [theirs(context), theirs(context + 1)]), (made, context, value));
        }
    }
}

/// Drawn books, and books of 5,2,2, 6,3,0 and 6,m,6-m alone.
fn price_calls() -> [Tally; 2] {
    let mut tally = Tally::new("token_bits, token_bits_pair", "all values, each in a drawn context, in 100 books");
    let mut none = Tally::new("the same, values that have no word", "held to +infinity; the Rust would index past 127");
    let mut random = Random::of(&[19]);
    let mut made = 0;
    while made < 80 {
        let book = books::random_book(&mut random);
        if checks::book_refusal(&book) == 0 {
            price_book(&mut random, made, &book, &mut tally, &mut none);
            made += 1;
        }
    }
    let past: Vec<[u8; 3]> = [[5, 2, 2], [6, 3, 0]].into_iter().chain((0..=6).map(|m| [6, m, 6 - m])).collect();
    while made < 100 {
        let configs: Vec<_> = (0..1 + random.below(4)).map(|_| random.pick(&past)).collect();
        let book = book_of(&mut random, &configs);
        price_book(&mut random, made, &book, &mut tally, &mut none);
        made += 1;
    }
    [tally, none]
}

/// Adds tokens to a tally, or takes them out.
fn count(add: bool, book: &data::Book, contexts: &[u32], values: &[u32], counts: &mut [u32], extra: &mut u64) -> u32 {
    let call = if add { rdoq_tally_add } else { rdoq_tally_remove };
    unsafe {
        call(
            book.clusters, book.map.as_ptr(), book.map.len(), book.configs.as_ptr(), book.configs.len(), contexts.as_ptr(), contexts.len(),
            values.as_ptr(), values.len(), counts.as_mut_ptr(), counts.len(), extra,
        )
    }
}

/// Streams added to an empty tally, beside the Rust's `AdaptiveRate`; then taken out again.
fn tallies() -> Tally {
    let mut tally = Tally::new("tally_add, tally_remove", "100,000 streams of up to 80 tokens, in 500 books; taken out again");
    let mut random = Random::of(&[23]);
    let mut books = 0;
    while books < 500 {
        let book = books::random_book(&mut random);
        if checks::book_refusal(&book) != 0 {
            continue;
        }
        let prices = prices::lent(&book);
        for _ in 0..200 {
            let most = random.pick(&[1usize, 40, 131_072]);
            let tokens: Vec<(u32, u32)> = (0..random.below(81)).map(|_| (random.below(14850) as u32, random.below(most) as u32)).collect();
            let (contexts, values): (Vec<u32>, Vec<u32>) = tokens.iter().copied().unzip();
            let mut counts = vec![0; 128 * book.clusters as usize];
            let mut extra = 0;
            let code = count(true, &book, &contexts, &values, &mut counts, &mut extra);
            let found = (code, (counts.clone(), extra));
            tally.hold(found, (0, prices::uses(&prices, &tokens)), books);
            let code = count(false, &book, &contexts, &values, &mut counts, &mut extra);
            tally.hold((code, counts.iter().all(|&n| n == 0), extra), (0, true, 0), books);
        }
        books += 1;
    }
    tally
}

fn main() {
    let parts = [packing, splitting, block_contexts, count_contexts, coefficient_contexts, levels, weights, candidates, prefix_prices, ans_prices, ready_prices, tallies];
    let mut differences = 0;
    for tally in parts.into_iter().map(|part| part()).chain(std::iter::once_with(price_calls).flatten()) {
        println!("{:<62} {:>11} calls {:>4} differences   {}", tally.name, tally.calls, tally.differences, tally.domain);
        differences += tally.differences;
    }
    std::process::exit((differences != 0) as i32);
}
