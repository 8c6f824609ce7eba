//! Price books by seed: a third from ANS codes, others from prefix codes, strict or not, and hand-made ones.

use crate::checks::{config_passes, has_all_words};
use crate::data::Book;
use crate::entropy::prefix_code::PrefixCode;
use crate::plain::cluster_price;
use crate::random::Random;

pub fn random_book(random: &mut Random) -> Book {
    let clusters = match random.below(100) {
        0..=24 => 1,
        25..=64 => 2 + random.below(3),
        65..=93 => 5 + random.below(12),
        94..=97 => 17 + random.below(48),
        98 => 256,
        _ => 65 + random.below(192),
    };
    let mut book = Book { clusters: clusters as u32, ..Book::default() };
    book.map = map(random, clusters);
    // Half of the books have a word for every value.
    let any = random.once_in(2);
    for _ in 0..clusters {
        book.configs.extend(config(random, any));
    }
    match random.below(15) {
        0..=2 => prefix_book(random, &mut book, false),
        3 => prefix_book(random, &mut book, true),
        10.. => price_ans(&mut book, &ans_code(random, clusters)),
        kind => {
            let infinite = random.pick(&[0, 0, 0, 0, 300, 60, 12, 2]);
            for _ in 0..128 * clusters {
                let price = price(random, kind);
                let none = infinite != 0 && random.once_in(infinite);
                book.symbols.push(if none { f32::INFINITY } else { price });
            }
            fill_ready(&mut book);
        }
    }
    if random.once_in(40) {
        book.symbols.fill(f32::INFINITY);
        fill_ready(&mut book);
    }
    book
}

fn map(random: &mut Random, clusters: usize) -> Vec<u8> {
    match random.below(4) {
        // One cluster for many: neighbours differ now and then.
        0 => {
            let mut cluster = random.below(clusters);
            let mut next = |_| {
                if random.once_in(50) {
                    cluster = random.below(clusters);
                }
                cluster as u8
            };
            (0..14850).map(&mut next).collect()
        }
        // The two contexts of a pair in clusters of their own.
        1 => (0..14850).map(|at| (at % 2 % clusters) as u8).collect(),
        _ => (0..14850).map(|_| random.below(clusters) as u8).collect(),
    }
}

/// A configuration that passes check 4: any of the 84, or one that has a word for every value.
fn config(random: &mut Random, any: bool) -> [u8; 3] {
    loop {
        let drawn = [0; 3].map(|_: u8| random.below(7) as u8);
        let known = random.pick(&[[4, 2, 0], [4, 2, 1], [6, 2, 0], [0, 0, 0], [5, 2, 2], [6, 3, 0], [6, 3, 3]]);
        let config = if random.once_in(3) { known } else { drawn };
        if config_passes(config) && (any || has_all_words(&config)) {
            return config;
        }
    }
}

fn price(random: &mut Random, kind: usize) -> f32 {
    match kind {
        // All alike, or few whole prices: ties.
        4 => 1.0,
        5 => random.below(3) as f32,
        // Anything that check 5 passes, the limits and a negative zero among it.
        6 => match random.below(12) {
            0 => 1024.0,
            1 => -0.0,
            2 => f32::from_bits(1 + random.below(100) as u32),
            3 => random.between(0.0, 1024.0),
            4 => 2f32.powi(-(random.below(40) as i32)),
            _ => random.between(0.0, 4.0),
        },
        7 => random.below(40) as f32 / 4.0,
        _ => random.between(0.0, 12.0),
    }
}

/// The ready prices that check 6 asks for.
/// One cluster with split 6,2,0, in which every value up to 63 costs 0.
pub fn free_of_cost() -> Book {
    let mut book = Book { clusters: 1, map: vec![0; 14850], configs: vec![6, 2, 0], ..Book::default() };
    book.symbols = vec![0.0; 128];
    fill_ready(&mut book);
    book
}

pub fn fill_ready(book: &mut Book) {
    let price = |at: usize| cluster_price(book, at / 256, (at % 256) as u32);
    book.ready = (0..256 * book.configs.len() / 3).map(price).collect();
}

fn prefix_book(random: &mut Random, book: &mut Book, strict: bool) {
    let codes: Vec<PrefixCode> = (0..book.clusters).map(|_| prefix_code(random)).collect();
    price_prefix(book, &codes, strict);
}

/// Prices that the Rust makes from prefix codes. Strict: a symbol without a word costs +infinity, where its cluster has a word.
pub fn price_prefix(book: &mut Book, codes: &[PrefixCode], strict: bool) {
    by_the_rust(book, |book| crate::entropy::entropy_code::door::from_prefix(book, codes.to_vec()));
    if strict {
        for (row, code) in book.symbols.chunks_mut(128).zip(codes) {
            if code.depths == [0; 128] {
                continue;
            }
            for (price, depth) in row.iter_mut().zip(code.depths) {
                if depth == 0 {
                    *price = f32::INFINITY;
                }
            }
        }
        fill_ready(book);
    }
}

/// Prices that the Rust makes from ANS frequencies.
pub fn price_ans(book: &mut Book, freqs: &[u16]) {
    by_the_rust(book, |book| crate::entropy::entropy_code::door::from_ans(book, freqs));
}

/// Under 6,m,6-m the Rust would index past 127 for the ready prices: it makes the symbol prices alone.
fn by_the_rust(book: &mut Book, make: impl FnOnce(&mut Book)) {
    let past = book.configs.chunks(3).any(|c| c[1] + c[2] == 6);
    let configs = book.configs.clone();
    if past {
        book.configs = [4, 2, 0].repeat(configs.len() / 3);
    }
    make(book);
    book.configs = configs;
    if past {
        fill_ready(book);
    }
}

/// Frequencies of an ANS code, 128 a cluster: each cluster's add up to 4,096, or nearly so, in one symbol or in many; some clusters have none.
pub fn ans_code(random: &mut Random, clusters: usize) -> Vec<u16> {
    let mut freqs = vec![0u16; 128 * clusters];
    for row in freqs.chunks_mut(128) {
        let used = random.pick(&[0, 1, 1, 2, 8, 40, 128, 128]);
        let mut left = 4096;
        for at in 0..used {
            let share = if at + 1 == used { left } else { random.below(1 + 2 * left / (used - at)).min(left) };
            let any = random.below(128);
            row[random.pick(&[at, at, at, any])] = share as u16;
            left -= share;
        }
    }
    freqs
}

/// Depths of a code that exists: each is the logarithm of total over frequency, rounded up. Some have no word at all.
pub fn prefix_code(random: &mut Random) -> PrefixCode {
    let mut depths = [0; 128];
    if random.once_in(12) {
        return PrefixCode { depths, single_symbol: random.once_in(2) };
    }
    if random.once_in(12) {
        let any = random.below(128);
        depths[random.pick(&[0, 0, 1, any])] = 1;
        return PrefixCode { depths, single_symbol: true };
    }
    let used = random.pick(&[2, 4, 16, 40, 128]);
    let spread = random.between(0.5, 6.0);
    let frequencies: Vec<f32> = (0..used).map(|_| (random.unit() * spread).exp2()).collect();
    // Later symbols are rarer.
    let scale = |at: usize| 1.0 + 4.0 * at as f32 / used as f32;
    let weights: Vec<f32> = frequencies.iter().enumerate().map(|(at, f)| f / scale(at)).collect();
    let total: f32 = weights.iter().sum();
    for (depth, weight) in depths.iter_mut().zip(&weights) {
        *depth = (total / weight).log2().ceil().clamp(1.0, 15.0) as u8;
    }
    PrefixCode { depths, single_symbol: false }
}
