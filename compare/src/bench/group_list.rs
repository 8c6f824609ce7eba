//! A group's list of 1,024 cells, settled by one call, block by block, and by the Rust's prediction driven with its search.

use crate::data::{Block, Book, Search, HALF_WIDTH, SEARCHES};
use crate::entropy::entropy_code::door::lent;
use crate::entropy::FrozenTokenPrices;
use crate::group::door::predict_from_top_and_left;
use crate::group::trellis::door::{run, Scratch};
use crate::inputs::{self, CONFIGS};
use crate::library::{self, Room};

/// The blocks of a list: all of c = 1, all of c = 4, or rows of 16, 4, 2 and 1 covered blocks.
pub const KINDS: [&str; 3] = ["1,024 of c = 1", "256 of c = 4", "mixed, c = 1 to 16"];

/// Clusters of the book.
pub const CLUSTERS: [usize; 2] = [8, 64];

#[derive(Clone, Copy, PartialEq, Debug)]
pub enum Way {
    /// The call over the list.
    Whole,
    /// `rdoq_block` for each block, with the count predicted for it.
    EachBlock,
    /// The Rust's search for each, with its prediction.
    Rust,
}

pub const WAYS: [Way; 3] = [Way::Whole, Way::EachBlock, Way::Rust];

const SIDE: usize = 32;

/// The top left cells and sides of a kind's blocks, row after row.
fn places(kind: usize) -> Vec<(usize, usize, usize, usize)> {
    let tiled = |from: usize, height: usize, cx: usize, cy: usize| {
        (from..from + height).step_by(cy).flat_map(move |y| (0..SIDE).step_by(cx).map(move |x| (x, y, cx, cy)))
    };
    match kind {
        0 => tiled(0, 32, 1, 1).collect(),
        1 => tiled(0, 32, 2, 2).collect(),
        _ => tiled(0, 8, 4, 4).chain(tiled(8, 8, 2, 2)).chain(tiled(16, 8, 2, 1)).chain(tiled(24, 8, 1, 1)).collect(),
    }
}

pub struct List {
    pub words: Vec<u32>,
    pub floats: Vec<f32>,
    pub scans: Vec<u32>,
    pub sources: Vec<f32>,
    pub inverses: Vec<f32>,
}

pub struct Group {
    way: Way,
    search: Search,
    book: Book,
    prices: FrozenTokenPrices,
    scratch: Scratch,
    room: Room,
    list: List,
    blocks: Vec<(usize, usize, Block)>,
    start: Vec<i32>,
    levels: Vec<i32>,
}

impl Group {
    pub fn of(way: Way, kind: usize, search: usize, clusters: usize) -> Group {
        let search = SEARCHES[search];
        let book = inputs::book(clusters, CONFIGS[0]);
        let drawn: Vec<(usize, Vec<Block>)> = [1, 2, 4, 16].map(|c| (c, inputs::blocks(c, 0))).into();
        let block = |(at, (x, y, cx, cy)): (usize, (usize, usize, usize, usize))| {
            let some = &drawn.iter().find(|drawn| drawn.0 == cx * cy).expect("a size").1;
            (x, y, Block { cx: cx as u32, cy: cy as u32, ..some[at % some.len()].clone() })
        };
        let blocks: Vec<_> = places(kind).into_iter().enumerate().map(block).collect();
        let mut list = List { words: Vec::new(), floats: Vec::new(), scans: Vec::new(), sources: Vec::new(), inverses: Vec::new() };
        let (mut start, mut need) = (Vec::new(), (0, 0));
        for (x, y, b) in &blocks {
            list.words.extend([*x as u32, *y as u32, b.cx, b.cy, b.strategy.into(), b.channel.into(), b.quant_class.into(), HALF_WIDTH]);
            list.floats.extend([b.channel_weight, b.lambda, b.penalty, b.distance, b.one, b.numerator, b.scale]);
            list.scans.extend(&b.scan);
            list.sources.extend(&b.source);
            list.inverses.extend(&b.inverse);
            start.extend(&b.levels);
            let (bytes, floats) = inputs::needed(search, b.covered());
            need = (need.0.max(bytes), need.1.max(floats));
        }
        let prices = lent(&book);
        Group { way, search, book, prices, scratch: Scratch::default(), room: Room::of(need.0, need.1), list, blocks, levels: start.clone(), start }
    }

    pub fn blocks(kind: usize) -> usize {
        places(kind).len()
    }

    pub fn reset(&mut self) {
        self.levels.copy_from_slice(&self.start);
    }

    pub fn levels(&self) -> &[i32] {
        &self.levels
    }

    /// Answers 0 where every block was settled.
    pub fn round(&mut self) -> u32 {
        if self.way == Way::Whole {
            return library::group(self.search, &self.book, &self.list, &mut self.levels, &mut self.room);
        }
        let mut counts = [[0u8; SIDE]; SIDE];
        let (mut from, mut reply) = (0, 0);
        for (x, y, block) in &mut self.blocks {
            let n = block.levels.len();
            let levels = &mut self.levels[from..from + n];
            from += n;
            let above = if *y == 0 { None } else { Some(&counts[*y - 1][..]) };
            block.predicted = predict_from_top_and_left(above, &counts[*y], *x);
            let c = block.covered();
            let count = if self.way == Way::EachBlock {
                let (code, count) = library::counted(self.search, &self.book, block, levels, &mut self.room);
                reply |= code;
                count as usize
            } else {
                run(self.search, block, &self.prices, levels, &mut self.scratch);
                block.scan[c..].iter().filter(|&&at| levels[at as usize] != 0).count()
            };
            for row in &mut counts[*y..*y + block.cy as usize] {
                row[*x..*x + block.cx as usize].fill(count.div_ceil(c) as u8);
            }
        }
        reply
    }
}
