//! Document 01's checks 1 to 14 and document 02's 18 and 26, each a plain test, in the order in which they are made: 18 comes straight after 9, 26 after 10.

use crate::data::{row_floats, strategy_covers, trellis_bytes, window_under, Block, Book, Search, WHOLE, WIDEST};

/// 0, or the number of the first check that fails.
pub fn refusal(search: Search, book: &Book, block: &Block) -> u32 {
    refusal_under(WHOLE, search, book, block)
}

/// The same with a cap on the window.
pub fn refusal_under(cap: usize, search: Search, book: &Book, block: &Block) -> u32 {
    match book_refusal(book) {
        0 => block_refusal(cap, search, block),
        number => number,
    }
}

/// Checks 1 to 6: 0, or the first that fails.
pub fn book_refusal(book: &Book) -> u32 {
    let clusters = book.clusters as usize;
    if book.map.len() != 14850 || !(1..=256).contains(&clusters) {
        return 1;
    }
    let lengths = (book.configs.len(), book.symbols.len(), book.ready.len());
    if lengths != (3 * clusters, 128 * clusters, 256 * clusters) {
        return 2;
    }
    if book.map.iter().any(|&cluster| cluster as usize >= clusters) {
        return 3;
    }
    if !book.configs.chunks(3).all(|c| config_passes([c[0], c[1], c[2]])) {
        return 4;
    }
    // A comparison with NaN is false; -0.0 is not below 0.
    let sound = |&price: &f32| price >= 0.0 && (price <= 1024.0 || price == f32::INFINITY);
    if !book.symbols.iter().all(sound) {
        return 5;
    }
    for cluster in 0..clusters {
        for value in 0..256 {
            let price = crate::plain::cluster_price(book, cluster, value);
            if price.to_bits() != book.ready[256 * cluster + value as usize].to_bits() {
                return 6;
            }
        }
    }
    0
}

pub fn config_passes([s, m, l]: [u8; 3]) -> bool {
    s <= 6 && u32::from(m) + u32::from(l) <= u32::from(s)
}

/// Whether every value up to 131,071 has a symbol below 128, under a configuration that passes.
pub fn has_all_words(config: &[u8]) -> bool {
    let [s, m, l] = [0, 1, 2].map(|at| u32::from(config[at]));
    2u32.pow(s) + (17 - s) * 2u32.pow(m + l) <= 128
}

/// Whether that holds of every configuration of a book that passes. Else the Rust may index past its 128 prices.
pub fn all_words(book: &Book) -> bool {
    book.configs.chunks(3).all(has_all_words)
}

/// Checks 7 to 14, 18 and 26: 0, or the first that fails.
fn block_refusal(cap: usize, search: Search, block: &Block) -> u32 {
    let side = |n: u32| [1, 2, 4, 8, 16, 32].contains(&n);
    if !side(block.cx) || !side(block.cy) {
        return 7;
    }
    let c = block.covered();
    let lengths = [block.levels.len(), block.scan.len(), block.source.len(), block.inverse.len()];
    if lengths != [64 * c; 4] {
        return 8;
    }
    if block.strategy > 26 || block.channel > 2 {
        return 9;
    }
    if strategy_covers(block.strategy) != c {
        return 18;
    }
    if !settings_pass(block) {
        return 10;
    }
    if block.half_width < 1 || block.half_width > WIDEST {
        return 26;
    }
    let mut seen = vec![false; 64 * c];
    for &at in &block.scan {
        match seen.get_mut(at as usize) {
            Some(mark) if !*mark => *mark = true,
            _ => return 11,
        }
    }
    if block.scan[c..].iter().any(|&at| block.levels[at as usize].unsigned_abs() > 32767) {
        return 12;
    }
    let (w, _) = window_under(cap, c);
    let within = |&at: &u32| {
        let at = at as usize;
        (block.source[at] * block.inverse[at] * block.scale).abs() <= 32767.0
    };
    if !block.scan[c..c + w].iter().all(within) {
        return 13;
    }
    let (choices, row) = (block.choices as usize, block.rows[0].min(block.rows[1]));
    let short = match search {
        Search::Greedy => false,
        Search::Beam => choices < 6 * w,
        Search::Trellis | Search::Unfactored => choices < trellis_bytes(block.half_width) as usize * w || row < row_floats(block.half_width),
    };
    if short {
        return 14;
    }
    0
}

fn settings_pass(block: &Block) -> bool {
    let within = |x: f32, low: f32, high: f32| x >= low && x <= high;
    let two = |n: i32| 2f32.powi(n);
    within(block.lambda, two(-20), two(20))
        && within(block.penalty, two(-10), two(10))
        && within(block.channel_weight, two(-10), two(10))
        && within(block.distance, 0.0, 25.0)
        && within(block.one, 0.0, 2.0)
        && block.numerator == 0.145
}
