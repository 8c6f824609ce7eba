//! The failed strip: a band of the sensor whose coefficients are not numbers.
use crate::coded::{Coded, CodedGroup, Part};
use crate::passes::{search_each, search_group};
use crate::runs::WEIGHING;
use rdoq::{Book, Refusal, Room, Search, Stopped};

/// The cells of each group's rows that the strip runs through: across the face value.
const COLUMNS: std::ops::Range<usize> = 8..11;
/// The scan positions that it spoils, counted from the first that is coded.
const SPOILED: std::ops::Range<usize> = 2..40;

/// The side in pixels of the picture that shows it: the first group's.
pub const SHOWN: usize = 8 * crate::layout::GROUP;

/// Whether the strip runs through a block. It is in the first group alone.
pub fn is_hit(part: &Part) -> bool {
    part.square.x < COLUMNS.end && COLUMNS.start < part.square.x + part.square.cells
}

/// Spoils the coefficients of the strip in the first group, and quantises it again.
pub fn spoil(coded: &mut Coded) {
    let mut group = coded.groups.remove(0);
    let CodedGroup { parts, source, .. } = &mut group;
    for part in parts.iter().filter(|part| is_hit(part)) {
        let scan = &coded.kind(part).scan[part.square.covered()..];
        scan[SPOILED].iter().for_each(|&at| source[part.from + at as usize] = f32::NAN);
    }
    coded.quantise(&mut group);
    coded.groups.insert(0, group);
}

/// What a search makes of a spoiled group.
pub struct Spoiled {
    /// The list of all blocks: stopped at the first block that was hit.
    pub list: Result<u32, Stopped>,
    /// Block by block: those that were refused.
    pub refused: Vec<(Part, Refusal)>,
    /// Afterwards, block by block.
    pub levels: Vec<i32>,
}

/// Searches the first group as a list, and again block by block, so that all blocks that were not hit are searched.
pub fn search(coded: &Coded, book: &Book, search: Search) -> Spoiled {
    let group = &coded.groups[0];
    let (_, list) = search_group(coded, group, book, search, WEIGHING, &mut Room::new());
    let mut levels = group.quantised.clone();
    let refused = search_each(coded, group, book, search, WEIGHING, &mut levels);
    Spoiled { list, refused, levels }
}
