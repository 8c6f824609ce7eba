//! Blocks by seed, all of them in the domain that checks 7 to 13 leave.

use crate::data::{row_floats, strategies, trellis_bytes, window, Block, HALF_WIDTH, WIDEST};
use crate::random::Random;
use crate::scans::{natural, shuffled};

/// How the levels and ideals of a block are made.
#[derive(Clone, Copy, PartialEq, Eq)]
enum Profile {
    /// Ideals that fall off along the scan, levels quantised from them with a dead zone.
    Natural,
    /// As natural, every level nonzero.
    Dense,
    Empty,
    /// The whole count at 4c or beside it.
    AtFew,
    /// Zeros that are cheap to restore: more than the band lets in.
    Restorable,
    /// Small levels that are cheap to drop: more than the band lets go.
    Droppable,
    /// Ideals at a half, or the nearest floats to it.
    Halves,
    /// Levels and ideals at the ends of their range.
    Ends,
    /// Whole ideals and their neighbours: ties.
    Whole,
    /// Each position by its own.
    Any,
}

const PROFILES: [Profile; 10] = [
    Profile::Natural,
    Profile::Dense,
    Profile::Empty,
    Profile::AtFew,
    Profile::Restorable,
    Profile::Droppable,
    Profile::Halves,
    Profile::Ends,
    Profile::Whole,
    Profile::Any,
];

const SIDES: [u32; 6] = [1, 2, 4, 8, 16, 32];

/// Every half-width, its first value as often as all others.
pub fn random_width(random: &mut Random) -> u32 {
    if random.once_in(2) { HALF_WIDTH } else { 1 + random.below(WIDEST as usize) as u32 }
}

/// A block of c covered blocks.
pub fn random_block(random: &mut Random, c: usize, half_width: u32) -> Block {
    let shapes: Vec<(u32, u32)> = SIDES
        .iter()
        .flat_map(|&x| SIDES.map(|y| (x, y)))
        .filter(|&(x, y)| (x * y) as usize == c)
        .collect();
    let (cx, cy) = random.pick(&shapes);
    let n = 64 * c;
    let (w, _) = window(c);
    let scan = match random.below(4) {
        0 => shuffled(random, n),
        1 => (0..n as u32).collect(),
        _ => natural(cx as usize, cy as usize),
    };
    let mut block = Block {
        cx,
        cy,
        strategy: random.pick(&strategies(c)),
        channel: random.below(3) as u8,
        quant_class: random.once_in(2),
        predicted: if random.once_in(3) { random.below(256) as u8 } else { random.below(70) as u8 },
        channel_weight: 1.0,
        lambda: 1.0,
        penalty: 1.0,
        distance: 1.0,
        half_width,
        one: 1.0,
        numerator: 0.145,
        scale: 1.0,
        choices: trellis_bytes(half_width) * w as u32,
        rows: [row_floats(half_width); 2],
        levels: vec![0; n],
        scan,
        source: vec![0.0; n],
        inverse: vec![1.0; n],
    };
    settings(random, &mut block);
    rooms(random, &mut block, w);
    contents(random, &mut block, c, w);
    block
}

/// A block of one covered block, all of it zero.
pub fn empty_block() -> Block {
    Block {
        cx: 1,
        cy: 1,
        strategy: 0,
        channel: 1,
        quant_class: false,
        predicted: 0,
        channel_weight: 1.0,
        lambda: 1.0,
        penalty: 1.0,
        distance: 1.0,
        half_width: HALF_WIDTH,
        one: 1.0,
        numerator: 0.145,
        scale: 1.0,
        choices: trellis_bytes(HALF_WIDTH) * 63,
        rows: [row_floats(HALF_WIDTH); 2],
        levels: vec![0; 64],
        scan: (0..64).collect(),
        source: vec![0.0; 64],
        inverse: vec![1.0; 64],
    }
}

/// A block whose rounding buys nearly all that it may (document 02, ticket 13), for a book whose prices are all 0: beside the last position's distortion, whose ulp
/// is 0.25, a 2 costs as much as a 1 everywhere, and the 2 is tried first.
pub fn nearly_off() -> Block {
    let mut block = Block { lambda: 2f32.powi(-20), one: 0.9616, ..empty_block() };
    for at in 1..64 {
        (block.source[at], block.levels[at]) = if at == 63 { (1448.155, 0) } else { (block.one + 0.3537, 2) };
    }
    block
}

fn settings(random: &mut Random, block: &mut Block) {
    let two = |n: i32| 2f32.powi(n);
    let third = random.between(-8.0, 8.0).exp2();
    block.lambda = match random.below(16) {
        0 => two(-20),
        1 => two(20),
        2 => two(10),
        3 => two(random.below(41) as i32 - 20),
        4..=6 => random.pick(&[0.25, 0.5, 1.0, 2.0, 4.0]),
        _ => third,
    };
    let any = random.between(-10.0, 10.0).exp2();
    block.penalty = random.pick(&[1.0, 1.0, 1.0, 2.0, 2.0, 2.0, 0.5, two(-10), two(10), any]);
    let any = random.between(-10.0, 10.0).exp2();
    block.channel_weight = random.pick(&[1.0, 1.0, 1.0, 0.5, 4.0, 8.25, two(-10), two(10), any, any]);
    let any = random.between(0.0, 5.0);
    block.distance =
        random.pick(&[0.0, -0.0, 1.0, 2.0, 2.25, 2.5, 3.0, 4.0, 25.0, any, any, any, any]);
    let any = random.between(0.0, 2.0);
    block.one = random.pick(&[
        1.0 - 0.054_650_073,
        1.0 - 0.070_054_5,
        1.0 - 0.049_935_103,
        1.0,
        1.0,
        0.0,
        2.0,
        -0.0,
        any,
    ]);
}

/// Mostly rooms of the exact lengths; now and then more, or too little for the trellis or the beam.
fn rooms(random: &mut Random, block: &mut Block, w: usize) {
    let (w, row) = (w as u32, row_floats(block.half_width));
    let needed = trellis_bytes(block.half_width) * w;
    if random.once_in(8) {
        block.choices = random.pick(&[needed + 1, needed + 64, needed - 1, 6 * w, 6 * w - 1, 0, 6 * w + 1]);
    }
    if random.once_in(8) {
        block.rows = [0; 2].map(|_: u32| random.pick(&[row, row + 1, row, 64, row, row - 1, row, 0]));
    }
}

/// The ideals and levels, by scan position, and a source that gives the ideals.
fn contents(random: &mut Random, block: &mut Block, c: usize, w: usize) {
    let profile = random.pick(&PROFILES);
    let exact = random.once_in(2) || profile == Profile::Halves || profile == Profile::Whole;
    block.scale = if exact { random.pick(&[1.0, 0.5, 4.0, -1.0]) } else { random.between(0.01, 40.0) };
    let decay = random.between(0.02, 1.0) * w as f32 / random.pick(&[1.0, 4.0, 16.0]);
    let strength = random.pick(&[0.5, 1.0, 3.0, 10.0, 200.0]);
    let dead = random.pick(&[0.5, 0.6, 0.75, 1.0]);
    for k in c..block.scan.len() {
        let each = if profile == Profile::Any { random.pick(&PROFILES) } else { profile };
        let falls = strength * (-((k - c) as f32) / decay).exp();
        let (ideal, level) = coefficient(random, each, falls, dead);
        place(random, block, k, ideal, level, exact);
    }
    if profile == Profile::AtFew {
        let count = (4 * c + random.below(4)).saturating_sub(1);
        few(random, block, c, w, count);
    }
    if random.once_in(2) {
        // Few levels, or none, past the window, and often none near its end.
        let from = c + if random.once_in(2) { w } else { random.below(w + 1) };
        for k in from..block.scan.len() {
            if !random.once_in(200) {
                block.levels[block.scan[k] as usize] = 0;
            }
        }
    }
    outside(random, block, c, w);
}

fn coefficient(random: &mut Random, profile: Profile, falls: f32, dead: f32) -> (f32, i32) {
    let quantised = |ideal: f32| if ideal.abs() < dead { 0 } else { ideal.round() as i32 };
    match profile {
        Profile::Natural | Profile::Any => {
            let ideal = random.between(-1.0, 1.0) * falls * 2.0;
            (ideal, quantised(ideal))
        }
        Profile::Dense => {
            let ideal = random.between(0.3, 1.0) * (1.0 + falls);
            let ideal = random.signed(ideal);
            (ideal, quantised(ideal) + i32::from(quantised(ideal) == 0))
        }
        Profile::Empty => (if random.once_in(9) { random.between(-0.6, 0.6) } else { 0.0 }, 0),
        Profile::AtFew => (random.between(-1.5, 1.5), random.pick(&[1, -1, 2])),
        Profile::Restorable => {
            let ideal = random.between(0.5, 2.4);
            (random.signed(ideal), i32::from(random.once_in(6)))
        }
        Profile::Droppable => (random.between(-0.6, 0.6), random.pick(&[1, -1, 1, -1, 0, 2])),
        Profile::Halves => {
            let most = random.pick(&[3, 8, 40, 32766]);
            let half = random.below(most) as f32 + 0.5;
            let near = f32::from_bits((half.to_bits() as i32 + random.pick(&[0, 0, 1, -1])) as u32);
            let ideal = random.signed(near);
            (ideal, ideal.round() as i32 * random.pick(&[1, 1, 0]))
        }
        Profile::Ends => {
            let ideal = random.pick(&[32767.0, 32766.5, 32766.75, 16384.5, 0.0, 2.5]);
            let level = random.pick(&[32767, 32766, 0, 16384, 1]);
            (random.signed(ideal), random.signed(level as f32) as i32)
        }
        Profile::Whole => {
            let ideal = random.below(7) as f32 - 3.0 + random.pick(&[0.0, 0.0, 0.25, -0.25, 0.5]);
            (ideal, random.below(7) as i32 - 3)
        }
    }
}

/// Sets level and source at a scan position. The source is kept where the ideal stays in its range, else 0.
fn place(random: &mut Random, block: &mut Block, k: usize, ideal: f32, level: i32, exact: bool) {
    let at = block.scan[k] as usize;
    let inverse = if exact {
        random.pick(&[1.0, 1.0, 2.0, 0.25, -1.0])
    } else {
        random.between(0.05, 30.0)
    };
    let source = ideal / inverse / block.scale;
    let kept = (source * inverse * block.scale).abs() <= 32767.0;
    block.inverse[at] = inverse;
    block.source[at] = if kept { source } else { 0.0 };
    block.levels[at] = level;
}

/// Leaves this many nonzero levels, most of them in the window.
fn few(random: &mut Random, block: &mut Block, c: usize, w: usize, count: usize) {
    let n = block.scan.len();
    let mut places: Vec<usize> = (c..n).collect();
    let near = if random.once_in(2) { w } else { w.min(count + 8) };
    for i in 0..near {
        let other = i + random.below(near - i);
        places.swap(i, other);
    }
    for &k in places.iter().skip(count) {
        block.levels[block.scan[k] as usize] = 0;
    }
}

/// The first c positions may hold anything, and the source past the window too: no check looks there.
fn outside(random: &mut Random, block: &mut Block, c: usize, w: usize) {
    if random.once_in(2) {
        return;
    }
    for k in 0..c {
        let at = block.scan[k] as usize;
        block.levels[at] = random.pick(&[0, 5, -70000, i32::MAX, i32::MIN]);
        block.source[at] = random.pick(&[0.0, f32::NAN, f32::INFINITY, 1e30]);
    }
    for k in c + w..block.scan.len() {
        let at = block.scan[k] as usize;
        if random.once_in(3) {
            block.source[at] = random.pick(&[f32::NAN, f32::NEG_INFINITY, 3e38]);
        }
        if random.once_in(1000) {
            block.levels[at] = random.pick(&[32767, -32767]);
        }
    }
}

/// Puts an ideal far from its level near the window's end, so that the tails of the positions before are large and sums with them round to equal ones.
pub fn weigh_down(random: &mut Random, block: &mut Block) {
    let (w, _) = window(block.covered());
    let at = block.scan[block.covered() + w - 1 - random.below(8) as usize] as usize;
    let ideal = 2f32.powf(6.0 + 8.0 * random.below(1000) as f32 / 1000.0);
    let unit = block.inverse[at] * block.scale;
    if unit != 0.0 && (ideal / unit).is_finite() {
        block.source[at] = ideal / unit;
    }
}
