//! A picture as an encoder holds it: coefficients, weights and quantised levels, group by group; and the picture that a decoder restores.
use crate::colour::Planes;
use crate::layout::{cut, Group, Square, Tiling, GROUP};
use crate::picture::Picture;
use crate::transform::{backward, forward, inverse_weights, scan};
use rdoq::{level, Bias, Refusal, Shape};

/// Channels in the order in which a group's blocks are coded: Y, X, B.
pub const ORDER: [u8; 3] = [1, 0, 2];

/// What is the same for all blocks of one side and channel.
pub struct Kind {
    pub scan: Vec<u32>,
    pub inverse: Vec<f32>,
}

/// One block of one channel.
#[derive(Clone, Copy, Debug)]
pub struct Part {
    pub square: Square,
    pub channel: u8,
    /// Where its numbers begin in the group's lists.
    pub from: usize,
}

impl Part {
    pub fn size(&self) -> usize {
        64 * self.square.covered()
    }

    /// Its place in the format, with the count predicted for it.
    pub fn shape(&self, predicted: u8) -> Shape {
        let side = self.square.cells as u32;
        Shape { cx: side, cy: side, strategy: self.square.strategy(), channel: self.channel, qf_hi: false, predicted }
    }
}

/// A group's blocks, each in the three channels, and their coefficients and levels block after block.
pub struct CodedGroup {
    pub place: Group,
    pub parts: Vec<Part>,
    pub source: Vec<f32>,
    /// As plain quantisation has them: each coefficient's ideal, rounded.
    pub quantised: Vec<i32>,
}

/// The picture with all that a search needs.
pub struct Coded {
    planes: Planes,
    pub groups: Vec<CodedGroup>,
    pub scale: f32,
    kinds: Vec<Kind>,
}

impl Coded {
    /// Transforms and quantises. A larger `scale` is a finer quantisation.
    pub fn of(picture: &Picture, tiling: Tiling, scale: f32) -> Coded {
        let planes = Planes::of(picture);
        let kinds = (0..9).map(|i| Kind { scan: scan(1 << (i / 3)), inverse: inverse_weights(i % 3, 1 << (i / 3)) }).collect();
        let groups = cut(&planes, tiling);
        let mut coded = Coded { planes, groups: Vec::new(), scale, kinds };
        coded.groups = groups.into_iter().map(|place| coded.group(place)).collect();
        coded
    }

    pub fn kind(&self, part: &Part) -> &Kind {
        &self.kinds[3 * part.square.cells.trailing_zeros() as usize + usize::from(part.channel)]
    }

    fn group(&self, place: Group) -> CodedGroup {
        let mut group = CodedGroup { place, parts: Vec::new(), source: Vec::new(), quantised: Vec::new() };
        for &square in &group.place.squares {
            for channel in ORDER {
                let part = Part { square, channel, from: group.source.len() };
                group.source.extend(forward(&self.samples(&group.place, part), 8 * square.cells));
                group.parts.push(part);
            }
        }
        self.quantise(&mut group);
        group
    }

    /// Rounds each ideal, (source x inverse weight) x scale. A coefficient that is no number becomes 0, as Rust's `as` has it.
    pub fn quantise(&self, group: &mut CodedGroup) {
        group.quantised = vec![0; group.source.len()];
        for part in &group.parts {
            let own = part.from..part.from + part.size();
            let ideals = group.source[own.clone()].iter().zip(&self.kind(part).inverse).map(|(source, inverse)| source * inverse * self.scale);
            group.quantised[own].iter_mut().zip(ideals).for_each(|(level, ideal)| *level = ideal.round() as i32);
        }
    }

    /// Where a block's samples stand in its plane: the first of each row.
    fn rows<'a>(&'a self, place: &'a Group, part: Part) -> impl Iterator<Item = usize> + 'a {
        let (column, row) = (8 * (place.left + part.square.x), 8 * (place.top + part.square.y));
        (0..8 * part.square.cells).map(move |y| (row + y) * self.planes.width + column)
    }

    fn samples(&self, place: &Group, part: Part) -> Vec<f32> {
        let plane = &self.planes.samples[usize::from(part.channel)];
        self.rows(place, part).flat_map(|at| &plane[at..at + 8 * part.square.cells]).copied().collect()
    }

    /// The picture that a decoder restores from levels, a list for each group. The lowest coefficients of each block, which a file keeps in its DC
    /// picture and no search touches, are taken as they are; 0 stands for one that is no number.
    pub fn restored(&self, levels: &[Vec<i32>]) -> Result<Picture, Refusal> {
        let mut planes = self.planes.like();
        for (group, levels) in self.groups.iter().zip(levels) {
            for &part in &group.parts {
                let n = 8 * part.square.cells;
                let kind = self.kind(&part);
                let mut coefficients = vec![0.0; part.size()];
                for (k, &at) in kind.scan.iter().enumerate() {
                    let at = at as usize;
                    coefficients[at] = if k < part.square.covered() {
                        Some(group.source[part.from + at]).filter(|x| !x.is_nan()).unwrap_or(0.0)
                    } else {
                        level(Bias::DEFAULT[usize::from(part.channel)], levels[part.from + at])? / (kind.inverse[at] * self.scale)
                    };
                }
                let samples = backward(&coefficients, n);
                for (from, line) in self.rows(&group.place, part).zip(samples.chunks(n)) {
                    planes.samples[usize::from(part.channel)][from..from + n].copy_from_slice(line);
                }
            }
        }
        Ok(planes.to_picture())
    }
}

/// The nonzero levels of a block from scan position c on.
pub fn nonzeros(part: &Part, scan: &[u32], levels: &[i32]) -> usize {
    scan[part.square.covered()..].iter().filter(|&&at| levels[part.from + at as usize] != 0).count()
}

/// The counts that a writer predicts from, cell by cell and channel by channel: what `rdoq_group` keeps for itself.
pub struct Cells([[[u8; GROUP]; GROUP]; 3]);

impl Cells {
    pub fn new() -> Cells {
        Cells([[[0; GROUP]; GROUP]; 3])
    }

    /// ISO/IEC 18181-1: 32 at the first cell, the left one along the top row, the upper one down the left edge, else their mean.
    pub fn predicted(&self, part: &Part) -> u8 {
        let (x, y) = (part.square.x, part.square.y);
        let cells = &self.0[usize::from(part.channel)];
        match (x, y) {
            (0, 0) => 32,
            (_, 0) => cells[0][x - 1],
            (0, _) => cells[y - 1][0],
            _ => (u32::from(cells[y - 1][x]) + u32::from(cells[y][x - 1]) + 1) as u8 / 2,
        }
    }

    /// A block's count over its covered blocks, rounded up, goes into each of its cells.
    pub fn settle(&mut self, part: &Part, count: usize) {
        let Square { x, y, cells } = part.square;
        let each = count.div_ceil(part.square.covered()) as u8;
        for row in &mut self.0[usize::from(part.channel)][y..y + cells] {
            row[x..x + cells].fill(each);
        }
    }
}

impl Default for Cells {
    fn default() -> Cells {
        Cells::new()
    }
}
