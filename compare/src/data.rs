//! A price book, a block, and their records in the block file.

#[derive(Clone, Copy, PartialEq, Eq, Debug)]
pub enum Search {
    Greedy,
    Beam,
    Trellis,
    Unfactored,
}

impl Search {
    /// Whether it walks the band: either trellis.
    pub fn in_band(self) -> bool {
        matches!(self, Search::Trellis | Search::Unfactored)
    }
}

pub const SEARCHES: [Search; 4] = [Search::Greedy, Search::Beam, Search::Trellis, Search::Unfactored];

/// The half-width of the band to begin with, the Rust's own, and the largest.
pub const HALF_WIDTH: u32 = 6;
pub const WIDEST: u32 = 12;

#[derive(Clone, Default)]
pub struct Book {
    pub clusters: u32,
    pub map: Vec<u8>,
    pub configs: Vec<u8>,
    pub symbols: Vec<f32>,
    pub ready: Vec<f32>,
}

#[derive(Clone)]
pub struct Block {
    pub cx: u32,
    pub cy: u32,
    pub strategy: u8,
    pub channel: u8,
    pub quant_class: bool,
    pub predicted: u8,
    pub channel_weight: f32,
    pub lambda: f32,
    pub penalty: f32,
    pub distance: f32,
    pub half_width: u32,
    pub one: f32,
    pub numerator: f32,
    pub scale: f32,
    pub choices: u32,
    pub rows: [u32; 2],
    pub levels: Vec<i32>,
    pub scan: Vec<u32>,
    pub source: Vec<f32>,
    pub inverse: Vec<f32>,
}

/// What a search answers, and the levels afterwards.
#[derive(Clone, PartialEq, Eq, Debug)]
pub struct Outcome {
    pub reply: Reply,
    pub levels: Vec<i32>,
}

/// The cost by its bits: equal costs have equal bits here, since none is NaN or -0.0.
#[derive(Clone, Copy, PartialEq, Eq, Debug)]
pub enum Reply {
    Cost { bits: u32, count: u32 },
    Count(u32),
    Refused(u32),
}

impl std::fmt::Display for Reply {
    fn fmt(&self, f: &mut std::fmt::Formatter<'_>) -> std::fmt::Result {
        match self {
            Reply::Cost { bits, count } => write!(f, "cost {bits:08x} count {count}"),
            Reply::Count(count) => write!(f, "count {count}"),
            Reply::Refused(number) => write!(f, "refused {number}"),
        }
    }
}

/// How many 8×8 blocks a varblock of this strategy code covers (ISO/IEC 18181-1).
pub fn strategy_covers(code: u8) -> usize {
    match code {
        0..=3 | 12..=17 => 1,
        6 | 7 => 2,
        4 | 8 | 9 => 4,
        10 | 11 => 8,
        5 => 16,
        19 | 20 => 32,
        18 => 64,
        22 | 23 => 128,
        21 => 256,
        25 | 26 => 512,
        24 => 1024,
        _ => 0,
    }
}

/// The strategy codes of c covered blocks.
pub fn strategies(c: usize) -> Vec<u8> {
    (0..27).filter(|&code| strategy_covers(code) == c).collect()
}

/// A cap on the window that cuts nothing.
pub const WHOLE: usize = 1024;

/// The length of the window and the part of it that may be restored, for c covered blocks.
pub fn window(c: usize) -> (usize, usize) {
    if c == 1 {
        (63, 20)
    } else {
        ((64 * c).min(1024).min(63 * c), (24 * c).min(256))
    }
}

/// The same with a cap on the length.
pub fn window_under(cap: usize, c: usize) -> (usize, usize) {
    let (length, restoring) = window(c);
    (length.min(cap), restoring.min(cap))
}

/// The floats of a cost row, and the choice bytes of a window position, that the trellis needs for a half-width in range.
pub fn row_floats(half_width: u32) -> u32 {
    2 * (2 * half_width + 2)
}

/// Two choices in a byte.
pub fn trellis_bytes(half_width: u32) -> u32 {
    2 * half_width + 2
}

fn words<T: Copy>(out: &mut Vec<u8>, list: &[T], bytes: impl Fn(T) -> [u8; 4]) {
    out.extend((list.len() as u32).to_le_bytes());
    for &x in list {
        out.extend(bytes(x));
    }
}

fn octets(out: &mut Vec<u8>, list: &[u8]) {
    out.extend((list.len() as u32).to_le_bytes());
    out.extend(list);
}

impl Book {
    pub fn write(&self, out: &mut Vec<u8>) {
        out.push(b'K');
        out.extend(self.clusters.to_le_bytes());
        octets(out, &self.map);
        octets(out, &self.configs);
        words(out, &self.symbols, f32::to_le_bytes);
        words(out, &self.ready, f32::to_le_bytes);
    }
}

/// The record that sets the half-width of the blocks that follow.
pub fn write_width(half_width: u32, out: &mut Vec<u8>) {
    out.push(b'W');
    out.extend(half_width.to_le_bytes());
}

/// A block file: a half-width's record stands before a block where it changes.
pub struct BlockFile {
    pub bytes: Vec<u8>,
    half_width: u32,
}

impl BlockFile {
    pub fn new() -> Self {
        BlockFile { bytes: Vec::new(), half_width: HALF_WIDTH }
    }

    pub fn book(&mut self, book: &Book) {
        book.write(&mut self.bytes);
    }

    pub fn block(&mut self, block: &Block) {
        if block.half_width != self.half_width {
            self.width(block.half_width);
        }
        block.write(&mut self.bytes);
    }

    /// Written though it may change nothing.
    pub fn width(&mut self, half_width: u32) {
        write_width(half_width, &mut self.bytes);
        self.half_width = half_width;
    }
}

impl Block {
    pub fn covered(&self) -> usize {
        self.cx as usize * self.cy as usize
    }

    /// Its own record, which does not hold the half-width.
    pub fn write(&self, out: &mut Vec<u8>) {
        out.push(b'C');
        out.extend(self.cx.to_le_bytes());
        out.extend(self.cy.to_le_bytes());
        out.extend([self.strategy, self.channel, self.quant_class as u8, self.predicted]);
        let floats = [
            self.channel_weight,
            self.lambda,
            self.penalty,
            self.distance,
            self.one,
            self.numerator,
            self.scale,
        ];
        for x in floats {
            out.extend(x.to_le_bytes());
        }
        for n in [self.choices, self.rows[0], self.rows[1]] {
            out.extend(n.to_le_bytes());
        }
        words(out, &self.levels, i32::to_le_bytes);
        words(out, &self.scan, u32::to_le_bytes);
        words(out, &self.source, f32::to_le_bytes);
        words(out, &self.inverse, f32::to_le_bytes);
    }
}
