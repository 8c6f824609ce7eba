//! Inputs with one or two faults each, for the checks 1 to 14, 18 and 26 and their order. A fault may also be none: the limits
//! themselves are among the values.

use crate::data::{row_floats, Block, Book, WIDEST};
use crate::random::Random;

pub fn damage(random: &mut Random, book: &mut Book, block: &mut Block) {
    for _ in 0..1 + random.below(3) / 2 {
        if random.once_in(3) {
            damage_book(random, book);
        } else {
            damage_block(random, block);
        }
    }
}

/// One entry more or less, or none at all.
fn resize<T: Clone + Default>(random: &mut Random, list: &mut Vec<T>) {
    match random.below(5) {
        0 | 1 => drop(list.pop()),
        2 | 3 => list.push(T::default()),
        _ => list.clear(),
    }
}

/// The float next above or next below, by its bits.
fn beside(random: &mut Random, x: f32) -> f32 {
    let step = random.pick(&[1, 0, u32::MAX]);
    f32::from_bits(x.to_bits().wrapping_add(step))
}

fn strange(random: &mut Random) -> f32 {
    let nan = f32::from_bits(0x7fc0_0000 | (random.next() & 0x8000_ffff) as u32);
    let any = f32::from_bits(random.next() as u32);
    let inf = f32::INFINITY;
    random.pick(&[nan, nan, inf, -inf, -1.0, -f32::MIN_POSITIVE, -0.0, 0.0, f32::MAX, any, any])
}

fn damage_book(random: &mut Random, book: &mut Book) {
    let spot = |random: &mut Random, n: usize| random.below(n.max(1));
    match random.below(13) {
        0 => book.clusters = random.pick(&[0, 257, u32::MAX, book.clusters.wrapping_add(1), book.clusters.wrapping_sub(1)]),
        1 => resize(random, &mut book.map),
        2 => resize(random, &mut book.configs),
        3 => resize(random, &mut book.symbols),
        4 => resize(random, &mut book.ready),
        5 | 6 => {
            let at = spot(random, book.map.len());
            if let Some(entry) = book.map.get_mut(at) {
                *entry = random.pick(&[book.clusters.min(255) as u8, 255]);
            }
        }
        7 | 8 => {
            let at = spot(random, book.configs.len());
            if let Some(entry) = book.configs.get_mut(at) {
                *entry = random.pick(&[7, 6, 5, 3, 255, entry.wrapping_add(1)]);
            }
        }
        9 | 10 => {
            let at = spot(random, book.symbols.len());
            let near = beside(random, 1024.0);
            let price = strange(random);
            if let Some(entry) = book.symbols.get_mut(at) {
                *entry = random.pick(&[price, near]);
            }
            if random.once_in(2) && crate::checks::book_refusal(book) == 6 {
                crate::books::fill_ready(book);
            }
        }
        11 => {
            let at = spot(random, book.ready.len());
            let price = strange(random);
            if let Some(entry) = book.ready.get_mut(at) {
                let near = f32::from_bits(entry.to_bits().wrapping_add(1));
                *entry = random.pick(&[price, near, -*entry]);
            }
        }
        _ => {
            // One cluster too many, every list as long as that asks.
            book.clusters = 257;
            book.configs = [4, 2, 0].repeat(257);
            book.symbols = vec![1.0; 128 * 257];
            crate::books::fill_ready(book);
        }
    }
}

fn damage_block(random: &mut Random, block: &mut Block) {
    let n = block.levels.len().min(block.scan.len()).min(block.source.len()).min(block.inverse.len());
    match random.below(24) {
        0 => block.cx = random.pick(&[0, 3, 64, 33, u32::MAX, block.cx.wrapping_mul(2), 1 << 31]),
        1 => block.cy = random.pick(&[0, 5, 64, 31, u32::MAX, block.cy.wrapping_mul(2), 1 << 16]),
        2 => resize(random, &mut block.levels),
        3 => resize(random, &mut block.scan),
        4 => resize(random, &mut block.source),
        5 => resize(random, &mut block.inverse),
        6 => {
            let any = random.below(27) as u8;
            block.strategy = random.pick(&[27, 255, any, any]);
        }
        7 => block.channel = random.pick(&[3, 255, 2]),
        8 => block.lambda = limit(random, 2f32.powi(-20), 2f32.powi(20)),
        9 => block.penalty = limit(random, 2f32.powi(-10), 2f32.powi(10)),
        10 => block.channel_weight = limit(random, 2f32.powi(-10), 2f32.powi(10)),
        11 => block.distance = limit(random, 0.0, 25.0),
        12 => block.one = limit(random, 0.0, 2.0),
        13 => block.numerator = limit(random, 0.145, 0.145),
        14 => block.scale = strange(random),
        15 | 16 if n > 0 => {
            let (at, other) = (random.below(n), random.below(n));
            block.scan[at] = random.pick(&[block.scan[other], n as u32, u32::MAX, n as u32 - 1]);
        }
        17 | 18 if n > 0 => {
            let at = random.below(n);
            block.levels[at] = random.pick(&[32768, -32768, 32767, i32::MIN, i32::MAX, -32767]);
        }
        19 | 20 if n > 0 => {
            let at = random.below(n);
            let ideal = limit(random, -32767.0, 32767.0);
            block.source[at] = ideal;
            block.inverse[at] = if random.once_in(4) { strange(random) } else { 1.0 / block.scale };
        }
        21 | 22 => {
            let any = random.next() as u32;
            block.half_width = random.pick(&[0, WIDEST + 1, 262, u32::MAX, 1, WIDEST, 1 << 31, any]);
        }
        _ => {
            block.choices = random.pick(&[0, 1, block.choices.saturating_sub(1)]);
            let at = random.below(2);
            let row = row_floats(block.half_width.clamp(1, WIDEST));
            block.rows[at] = random.pick(&[row - 1, 0, row]);
        }
    }
}

/// A value at or beside the ends of a range, or a strange one.
fn limit(random: &mut Random, low: f32, high: f32) -> f32 {
    let (below, above) = (beside(random, low), beside(random, high));
    let strange = strange(random);
    random.pick(&[below, above, below, above, strange])
}
