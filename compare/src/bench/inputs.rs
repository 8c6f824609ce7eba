//! The books and blocks that are measured on. Each is named by its numbers, so that both sides, and a child process, get the same.

use crate::data::{row_floats, strategies, trellis_bytes, window, Block, Book, Search, HALF_WIDTH};
use crate::entropy::token::{uint_encode_with_config, HybridUintConfig};
use crate::random::Random;
use crate::scans;

/// Covered blocks, and how many blocks of that size are searched in a round.
pub const SIZES: [(usize, usize); 5] = [(1, 64), (4, 16), (16, 8), (64, 4), (1024, 1)];

/// The share of levels that are not zero.
pub const DENSITIES: [(&str, f32); 3] = [("a third nonzero", 0.33), ("sparse (1 in 20)", 0.05), ("dense (9 in 10)", 0.9)];

/// Clusters of the books whose checks are measured.
pub const CLUSTERS: [usize; 4] = [1, 8, 64, 256];

/// Their configurations: s, m, l.
pub const CONFIGS: [[u8; 3]; 6] = [[4, 2, 0], [6, 2, 0], [4, 3, 0], [4, 2, 1], [5, 2, 2], [6, 3, 3]];

/// Clusters of the book that the searches run on, of the first configuration.
pub const SEARCHED: usize = 8;

/// Half-widths of the trellis's band, and the sizes at which they are measured.
pub const WIDTHS: [u32; 6] = [1, 2, 3, 6, 9, 12];
pub const WIDE_SIZES: [usize; 3] = [1, 4, 16];

/// Covered blocks of the small product, and how many blocks of that size are searched in a round.
pub const SMALL_SIZES: [(usize, usize); 2] = [(1, 64), (2, 32)];

/// The choice bytes, and the floats in each row, that a search needs with the first half-width.
pub fn needed(search: Search, c: usize) -> (usize, usize) {
    needed_with(search, c, HALF_WIDTH)
}

pub fn needed_with(search: Search, c: usize, half_width: u32) -> (usize, usize) {
    needed_on(search, window(c).0, half_width)
}

/// And of the small product.
pub fn needed_small(search: Search) -> (usize, usize) {
    needed_on(search, 32, HALF_WIDTH)
}

fn needed_on(search: Search, window: usize, half_width: u32) -> (usize, usize) {
    match search {
        Search::Greedy => (0, 0),
        Search::Beam => (6 * window, 0),
        Search::Trellis | Search::Unfactored => (trellis_bytes(half_width) as usize * window, row_floats(half_width) as usize),
    }
}

/// Symbol, and number of extra bits.
fn split(value: u32, config: &[u8]) -> (u32, u32) {
    let [s, m, l] = [0, 1, 2].map(|at| u32::from(config[at]));
    let (symbol, extra, _) = uint_encode_with_config(value, HybridUintConfig { s, m, l });
    (symbol, extra)
}

/// The price of a value by the 128 symbol prices of its cluster. A symbol above 127 has no word.
pub fn price(symbols: &[f32], value: u32, config: &[u8]) -> f32 {
    let (symbol, extra) = split(value, config);
    symbols[..128].get(symbol as usize).map_or(f32::INFINITY, |price| price + extra as f32)
}

pub fn book(clusters: usize, config: [u8; 3]) -> Book {
    let mut random = Random::of(&[7, clusters as u64]);
    let mut book = Book { clusters: clusters as u32, ..Book::default() };
    book.map = (0..14850).map(|_| random.below(clusters) as u8).collect();
    for _ in 0..clusters {
        book.configs.extend(config);
        let symbols: Vec<f32> = (0..128).map(|symbol| 1.0 + 0.125 * symbol as f32).collect();
        for value in 0..256 {
            book.ready.push(price(&symbols, value, &config));
        }
        book.symbols.extend(symbols);
    }
    book
}

/// A block of zeros.
fn zeros(c: usize) -> Block {
    let n = 64 * c;
    let side = 1u32 << (c.ilog2() / 2);
    Block {
        cx: side, cy: c as u32 / side, strategy: strategies(c)[0], channel: 1, quant_class: false, predicted: 20, channel_weight: 1.0, lambda: 0.25,
        penalty: 1.5, distance: 1.0, half_width: HALF_WIDTH, one: 0.945, numerator: 0.145, scale: 1.0, choices: 0, rows: [0; 2], levels: vec![0; n],
        scan: scans::natural(side as usize, c / side as usize), source: vec![0.0; n], inverse: vec![1.0; n],
    }
}

/// Blocks whose levels are their rounded ideals.
pub fn blocks(c: usize, density: usize) -> Vec<Block> {
    let mut random = Random::of(&[11, c as u64, density as u64]);
    let nonzero = DENSITIES[density].1;
    let mut drawn = || {
        let mut block = zeros(c);
        for at in 0..64 * c {
            let big = random.between(0.0, 1.0) < nonzero;
            let ideal = if big { random.between(0.6, 6.0) } else { random.between(0.0, 0.45) };
            block.source[at] = random.signed(ideal);
            block.levels[at] = block.source[at].round() as i32;
        }
        block
    };
    let count = SIZES.iter().chain(&SMALL_SIZES).find(|size| size.0 == c).map_or(1, |size| size.1);
    (0..count).map(|_| drawn()).collect()
}

/// A block of c = 1 with one candidate at each position: 3 for an ideal of 3 where levels may be restored, 0 behind. So its search is
/// short.
pub fn settled() -> Block {
    let mut block = zeros(1);
    let (_, restoring) = window(1);
    for k in 1..1 + restoring {
        let at = block.scan[k] as usize;
        block.source[at] = 3.0;
        block.levels[at] = 3;
    }
    block
}
