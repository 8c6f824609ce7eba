//! How a picture is cut: groups of 32 by 32 cells, and in each the blocks that are transformed as one.
use crate::colour::Planes;

/// Cells of 8 by 8 samples in a group's row and column.
pub const GROUP: usize = 32;

/// A square block of a group.
#[derive(Clone, Copy, Debug, PartialEq, Eq)]
pub struct Square {
    /// Its top left cell in the group.
    pub x: usize,
    pub y: usize,
    /// Its side in cells: 1, 2 or 4.
    pub cells: usize,
}

impl Square {
    /// The strategy code of a square transform.
    pub fn strategy(self) -> u8 {
        match self.cells {
            1 => 0,
            2 => 4,
            _ => 5,
        }
    }

    /// The covered blocks, c.
    pub fn covered(self) -> usize {
        self.cells * self.cells
    }
}

/// Which blocks a picture is cut into.
#[derive(Clone, Copy, Debug, PartialEq, Eq)]
pub enum Tiling {
    /// 8 by 8 alone.
    Eights,
    /// Up to 32 by 32 where the picture is smooth.
    Mixed,
}

/// A group's place in the picture, and its blocks in the order in which they are coded: by their top left cells, row after row, so that what
/// lies left of a block and above it comes before it.
#[derive(Clone, Debug)]
pub struct Group {
    /// Its first cell's column and row in the picture.
    pub left: usize,
    pub top: usize,
    pub squares: Vec<Square>,
}

/// Cuts a picture into groups and blocks.
pub fn cut(planes: &Planes, tiling: Tiling) -> Vec<Group> {
    let (columns, rows) = (planes.width / 8, planes.height / 8);
    let mut groups = Vec::new();
    for top in (0..rows).step_by(GROUP) {
        for left in (0..columns).step_by(GROUP) {
            let (wide, high) = ((columns - left).min(GROUP), (rows - top).min(GROUP));
            let mut squares = Vec::new();
            for y in (0..high).step_by(4) {
                for x in (0..wide).step_by(4) {
                    split(planes, tiling, (left, top), Square { x, y, cells: 4 }, (wide, high), &mut squares);
                }
            }
            squares.sort_by_key(|square| (square.y, square.x));
            groups.push(Group { left, top, squares });
        }
    }
    groups
}

/// The square, or its quarters where it leaves the picture, is not smooth or not wanted.
fn split(planes: &Planes, tiling: Tiling, origin: (usize, usize), square: Square, (wide, high): (usize, usize), out: &mut Vec<Square>) {
    let Square { x, y, cells } = square;
    if x >= wide || y >= high {
        return;
    }
    let fits = x + cells <= wide && y + cells <= high;
    if cells == 1 || fits && tiling == Tiling::Mixed && is_smooth(planes, origin.0 + x, origin.1 + y, cells) {
        out.push(square);
        return;
    }
    let half = cells / 2;
    for (dx, dy) in [(0, 0), (half, 0), (0, half), (half, half)] {
        split(planes, tiling, origin, Square { x: x + dx, y: y + dy, cells: half }, (wide, high), out);
    }
}

/// Whether no sample of Y is far from the block's mean: paper, not print.
fn is_smooth(planes: &Planes, column: usize, row: usize, cells: usize) -> bool {
    const FAR: f32 = 0.06;
    let samples = || (0..8 * cells).flat_map(|y| (0..8 * cells).map(move |x| planes.samples[1][(8 * row + y) * planes.width + 8 * column + x]));
    let mean = samples().sum::<f32>() / (64 * cells * cells) as f32;
    samples().all(|sample| (sample - mean).abs() < FAR)
}
