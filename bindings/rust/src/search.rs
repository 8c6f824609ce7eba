use crate::book::Book;
use crate::ffi;
use crate::group::Lists;
use crate::leaves::window_len;
use crate::refusal::{answered, Refusal};
use crate::short::Short;
use alloc::{vec, vec::Vec};
use core::fmt;

/// No call into the library takes more of its thread's stack.
pub const STACK_BYTES: usize = 20_480;

/// The largest half-width of the trellis's band.
const WIDEST: u32 = 12;
/// The longest window.
const LONGEST: usize = 1_024;
/// The choice bytes of a window position, for the beam.
const BEAM_CHOICES: usize = 6;

/// And for the trellis, two choices in each.
const fn trellis_choices(half_width: u32) -> usize {
    2 * half_width as usize + 2
}

/// The floats of a cost row.
const fn row(half_width: u32) -> usize {
    2 * (2 * half_width as usize + 2)
}

/// Which search.
#[derive(Clone, Copy, Debug, PartialEq, Eq, Hash)]
pub enum Search {
    /// One pass that takes each position's cheapest candidate. Needs no room and never gives refusals 15 and 16.
    Greedy,
    /// Keeps at most three paths.
    Beam,
    /// Finds a choice of least cost among those of its band.
    Trellis,
    /// The trellis by another walk, a check on the first: on every input the same answer, refusal and room (proved), more slowly.
    Unfactored,
}

impl Search {
    /// Its number in C.
    pub(crate) fn number(self) -> u32 {
        match self {
            Search::Greedy => 0,
            Search::Beam => 1,
            Search::Trellis => 2,
            Search::Unfactored => 3,
        }
    }
}

/// A block's place in the format.
#[derive(Clone, Copy, Debug, PartialEq, Eq, Hash)]
pub struct Shape {
    /// One side in units of 8 samples: 1, 2, 4, 8, 16 or 32.
    pub cx: u32,
    /// The other side.
    pub cy: u32,
    /// The strategy code, at most 26. The product of the sides must be what it covers; which side is the longer does not matter.
    pub strategy: u8,
    /// X = 0, Y = 1, B = 2.
    pub channel: u8,
    /// The quant class.
    pub qf_hi: bool,
    /// The predicted count of nonzero levels.
    pub predicted: u8,
}

/// What a caller sets: what a search weighs distortion and bits by, and how wide it looks.
///
/// Fields may be added: name those that you set, and take the others from [`Settings::default`].
///
/// ```
/// let settings = rdoq::Settings { lambda: 0.1, distance: 2.0, ..rdoq::Settings::default() };
/// assert_eq!(settings, rdoq::Settings::new(0.1, 2.0));
/// ```
#[derive(Clone, Copy, Debug, PartialEq)]
pub struct Settings {
    /// The channel's weight, 2^-10 to 2^10.
    pub channel_weight: f32,
    /// The price of a bit, 2^-20 to 2^20.
    pub lambda: f32,
    /// What lambda is multiplied by where a zero becomes nonzero, 2^-10 to 2^10.
    pub penalty: f32,
    /// The distance, 0 to 25.
    pub distance: f32,
    /// The half-width of the trellis's band, 1 to 12: after each position the count of nonzero levels may differ by so many from
    /// the input's. On the same block a wider band never costs more, and answers wherever a narrower one did. Greedy and beam have
    /// no band, and answer the same for every value in range.
    pub half_width: u32,
}

impl Settings {
    /// Settings with a channel weight and a penalty of 1, and a half-width of 6.
    pub fn new(lambda: f32, distance: f32) -> Settings {
        Settings { lambda, distance, ..Settings::default() }
    }
}

/// Distortion and restored levels at their own price, distance 1, and a half-width of 6. Lambda is the encoder's own (see
/// [`lambda`](crate::lambda())); 1 stands for none.
impl Default for Settings {
    fn default() -> Settings {
        Settings { channel_weight: 1.0, lambda: 1.0, penalty: 1.0, distance: 1.0, half_width: 6 }
    }
}

/// One channel's bias: how a decoder restores a level.
#[derive(Clone, Copy, Debug, PartialEq)]
pub struct Bias {
    /// The size of a level of 1, 0 to 2.
    pub one: f32,
    /// The numerator of the correction of larger levels. Only 0.145 is taken.
    pub numerator: f32,
}

impl Bias {
    /// The biases of X, Y and B that a decoder uses where the file gives none.
    pub const DEFAULT: [Bias; 3] = [Bias::new(1.0 - 0.054_650_073), Bias::new(1.0 - 0.070_054_5), Bias::new(1.0 - 0.049_935_103)];

    /// The bias with the standard's numerator.
    pub const fn new(one: f32) -> Bias {
        Bias { one, numerator: 0.145 }
    }
}

/// That of Y in [`Bias::DEFAULT`].
impl Default for Bias {
    fn default() -> Bias {
        Bias::DEFAULT[1]
    }
}

/// A block without its levels. The lists hold 64 numbers for each covered block.
#[derive(Clone, Copy, PartialEq)]
pub struct Block<'a> {
    /// Its place in the format.
    pub shape: Shape,
    /// What distortion and bits are weighed by, and the half-width of the band.
    pub settings: Settings,
    /// The channel's bias.
    pub bias: Bias,
    /// The ideal at a position is (source × inverse weight) × scale.
    pub scale: f32,
    /// Each index once, in scan order.
    pub scan: &'a [u32],
    /// The source coefficients.
    pub source: &'a [f32],
    /// Their inverse weights.
    pub inv_qm: &'a [f32],
}

impl fmt::Debug for Block<'_> {
    fn fmt(&self, f: &mut fmt::Formatter<'_>) -> fmt::Result {
        f.debug_struct("Block")
            .field("shape", &self.shape)
            .field("settings", &self.settings)
            .field("bias", &self.bias)
            .field("scale", &self.scale)
            .field("scan", &Short(self.scan.len()))
            .field("source", &Short(self.source.len()))
            .field("inv_qm", &Short(self.inv_qm.len()))
            .finish()
    }
}

/// Working room, to be used again by any number of searches, one at a time.
///
/// After an answer of the beam or the trellis, and after refusals 15 and 16, all of it is cleared: choice bytes at 255, rows at
/// +infinity. The library clears what it is lent, so a search is lent what its block needs and no more: one room of
/// [`Room::new`] serves small blocks as fast as one of [`Room::for_covered`].
#[derive(Clone)]
pub struct Room {
    choices: Vec<u8>,
    row_a: Vec<f32>,
    row_b: Vec<f32>,
    /// All of it is cleared, so that what is not lent stays so.
    cleared: bool,
    /// Where the list of a group is gathered.
    pub(crate) lists: Lists,
}

impl Room {
    /// Room for every block, search and half-width.
    pub fn new() -> Room {
        Room::with_window(LONGEST)
    }

    /// Room for every search and half-width on blocks of a number of covered blocks, a power of two up to 1,024.
    ///
    /// # Errors
    ///
    /// [`Refusal::Domain`] for any other number.
    pub fn for_covered(covered_blocks: u32) -> Result<Room, Refusal> {
        Ok(Room::with_window(window_len(covered_blocks)?.length))
    }

    /// Room from parts, of any length. Too small a room is refused by the search. It is lent whole until a search has cleared it.
    pub fn from_parts(choices: Vec<u8>, row_a: Vec<f32>, row_b: Vec<f32>) -> Room {
        Room { choices, row_a, row_b, cleared: false, lists: Lists::default() }
    }

    fn with_window(length: usize) -> Room {
        Room::cleared_of(needed(Search::Trellis, length, WIDEST))
    }

    /// Cleared, of so many choice bytes and so many floats in each row.
    pub(crate) fn cleared_of((bytes, floats): (usize, usize)) -> Room {
        let row = vec![f32::INFINITY; floats];
        Room { choices: vec![255; bytes], row_a: row.clone(), row_b: row, cleared: true, lists: Lists::default() }
    }

    /// The choice bytes.
    pub fn choices(&self) -> &[u8] {
        &self.choices
    }

    /// The two cost rows.
    pub fn rows(&self) -> (&[f32], &[f32]) {
        (&self.row_a, &self.row_b)
    }

    /// The front that is needed, so many choice bytes and so many floats of each row; all of the room where that would leave a part
    /// uncleared, or where the need is not known.
    pub(crate) fn lend(&mut self, need: Option<(usize, usize)>) -> (&mut [u8], &mut [f32], &mut [f32]) {
        let Room { choices, row_a, row_b, cleared, .. } = self;
        let (bytes, floats) = need.filter(|_| *cleared).unwrap_or((usize::MAX, usize::MAX));
        (front(choices, bytes), front(row_a, floats), front(row_b, floats))
    }

    /// Takes note of what a search that was lent a part has left.
    pub(crate) fn take_back(&mut self, search: Search, reply: Result<(), Refusal>) {
        self.cleared = match (reply, search) {
            // all that was lent is cleared, and what was not was so before
            (Ok(()), Search::Beam | Search::Trellis | Search::Unfactored)
            | (Err(Refusal::BandInfinite | Refusal::PathsInfinite), _) => true,
            (Err(Refusal::Unknown), _) => false,
            // nothing has changed
            _ => self.cleared,
        };
    }
}

/// The choice bytes, and the floats of each row, that a search needs on a window.
pub(crate) fn needed(search: Search, window: usize, half_width: u32) -> (usize, usize) {
    match search {
        Search::Greedy => (0, 0),
        Search::Beam => (BEAM_CHOICES * window, 0),
        Search::Trellis | Search::Unfactored => (trellis_choices(half_width) * window, row(half_width)),
    }
}

/// What a search needs on a block, where there is such a block and such a half-width.
pub(crate) fn needed_by(search: Search, cx: u32, cy: u32, half_width: u32) -> Option<(usize, usize)> {
    let covered = cx.checked_mul(cy).filter(|_| (1..=WIDEST).contains(&half_width))?;
    Some(needed(search, window_len(covered).ok()?.length, half_width))
}

/// The first of a list, as many as there are.
fn front<T>(list: &mut [T], length: usize) -> &mut [T] {
    let length = length.min(list.len());
    &mut list[..length]
}

impl Default for Room {
    fn default() -> Room {
        Room::new()
    }
}

/// By what it holds.
impl PartialEq for Room {
    fn eq(&self, other: &Room) -> bool {
        self.choices == other.choices && self.rows() == other.rows()
    }
}

impl fmt::Debug for Room {
    fn fmt(&self, f: &mut fmt::Formatter<'_>) -> fmt::Result {
        f.debug_struct("Room")
            .field("choices", &Short(self.choices.len()))
            .field("row_a", &Short(self.row_a.len()))
            .field("row_b", &Short(self.row_b.len()))
            .finish()
    }
}

/// What a search found.
#[derive(Clone, Copy, Debug, PartialEq)]
#[non_exhaustive]
pub struct Answer {
    /// The cost of the levels that were written. Greedy answers none.
    pub cost: Option<f32>,
    /// How many levels are nonzero from scan position c on, c being the covered blocks.
    pub count: u32,
}

impl Answer {
    /// From what a search wrote; greedy writes no cost.
    pub(crate) fn of(search: Search, cost: f32, count: u32) -> Answer {
        Answer { cost: if search == Search::Greedy { None } else { Some(cost) }, count }
    }
}

/// Re-picks the levels of a block, in place.
///
/// A refused block keeps every level. After every refusal but 15 and 16 the room is as it was too.
///
/// # Errors
///
/// The first check that fails, in this order:
///
/// - of the book: [`MapLength`](Refusal::MapLength), [`BookLength`](Refusal::BookLength), [`MapEntry`](Refusal::MapEntry),
///   [`Configuration`](Refusal::Configuration), [`SymbolPrice`](Refusal::SymbolPrice), [`ReadyPrice`](Refusal::ReadyPrice);
/// - of the block: [`BlockSide`](Refusal::BlockSide), [`BlockLength`](Refusal::BlockLength), [`Strategy`](Refusal::Strategy),
///   [`Sides`](Refusal::Sides), [`Settings`](Refusal::Settings), [`HalfWidth`](Refusal::HalfWidth), [`Scan`](Refusal::Scan),
///   [`Level`](Refusal::Level), [`Ideal`](Refusal::Ideal);
/// - [`Room`](Refusal::Room);
/// - what the search may find: [`BandInfinite`](Refusal::BandInfinite) the trellis by either walk, [`PathsInfinite`](Refusal::PathsInfinite)
///   the beam, greedy nothing.
///
/// # Examples
///
/// ```
/// use rdoq::{rdoq_block, Bias, Block, BookBuilder, Room, Search, Settings, Shape, CONTEXTS, SYMBOLS};
///
/// let book = BookBuilder::new(vec![0; CONTEXTS], &[[4, 2, 0]])
///     .symbol_prices(vec![1.0; SYMBOLS])
///     .fill()?;
/// let scan: Vec<u32> = (0..64).collect();
/// let block = Block {
///     shape: Shape { cx: 1, cy: 1, strategy: 0, channel: 1, qf_hi: false, predicted: 0 },
///     settings: Settings { lambda: 0.5, ..Settings::default() },
///     bias: Bias::new(0.9),
///     scale: 1.0,
///     scan: &scan,
///     source: &[0.0; 64],
///     inv_qm: &[1.0; 64],
/// };
/// let mut levels = [0; 64];
/// let mut room = Room::new();
///
/// let answer = rdoq_block(Search::Trellis, &book, &block, &mut levels, &mut room)?;
/// // all zero: the count is 0, and its token is all that is paid
/// assert_eq!(answer.count, 0);
/// assert_eq!(answer.cost, Some(0.5));
/// # Ok::<(), rdoq::Refusal>(())
/// ```
pub fn rdoq_block(search: Search, book: &Book, block: &Block<'_>, levels: &mut [i32], room: &mut Room) -> Result<Answer, Refusal> {
    let (map, configs, symbols, ready) = (book.map(), book.configs(), book.symbols(), book.ready());
    let Block { shape, settings, bias, scale, scan, source, inv_qm } = *block;
    let (choices, row_a, row_b) = room.lend(needed_by(search, shape.cx, shape.cy, settings.half_width));
    let (mut cost, mut count) = (f32::NAN, 0);
    // SAFETY: each pointer comes with the length of its slice. What is written is borrowed mutably, so it overlaps nothing else.
    let reply = answered(unsafe {
        ffi::rdoq_block(
            search.number(),
            book.clusters(),
            map.as_ptr(),
            map.len(),
            configs.as_ptr(),
            configs.len(),
            symbols.as_ptr(),
            symbols.len(),
            ready.as_ptr(),
            ready.len(),
            shape.cx,
            shape.cy,
            shape.strategy,
            shape.channel,
            shape.qf_hi,
            shape.predicted,
            settings.channel_weight,
            settings.lambda,
            settings.penalty,
            settings.distance,
            settings.half_width,
            bias.one,
            bias.numerator,
            scale,
            scan.as_ptr(),
            scan.len(),
            source.as_ptr(),
            source.len(),
            inv_qm.as_ptr(),
            inv_qm.len(),
            levels.as_mut_ptr(),
            levels.len(),
            choices.as_mut_ptr(),
            choices.len(),
            row_a.as_mut_ptr(),
            row_a.len(),
            row_b.as_mut_ptr(),
            row_b.len(),
            &mut cost,
            &mut count,
        )
    });
    room.take_back(search, reply);
    reply?;
    Ok(Answer::of(search, cost, count))
}

#[cfg(test)]
mod tests {
    use super::{needed_by, Room, Search};
    use alloc::vec;

    fn lent_with(room: &mut Room, search: Search, cx: u32, cy: u32, half_width: u32) -> (usize, usize, usize) {
        let (choices, row_a, row_b) = room.lend(needed_by(search, cx, cy, half_width));
        (choices.len(), row_a.len(), row_b.len())
    }

    fn lent(room: &mut Room, search: Search, cx: u32, cy: u32) -> (usize, usize, usize) {
        lent_with(room, search, cx, cy, 6)
    }

    #[test]
    fn a_search_is_lent_what_it_needs() {
        let mut room = Room::new();
        for (cx, cy, window) in [(1, 1, 63), (1, 2, 126), (2, 2, 252), (4, 4, 1_008), (4, 8, 1_024), (32, 32, 1_024)] {
            for (half_width, bytes, row) in [(1, 4, 8), (2, 6, 12), (6, 14, 28), (9, 20, 40), (12, 26, 52)] {
                assert_eq!(lent_with(&mut room, Search::Greedy, cx, cy, half_width), (0, 0, 0));
                assert_eq!(lent_with(&mut room, Search::Beam, cx, cy, half_width), (6 * window, 0, 0));
                for search in [Search::Trellis, Search::Unfactored] {
                    assert_eq!(lent_with(&mut room, search, cx, cy, half_width), (bytes * window, row, row));
                }
            }
        }
        // no block, so that the search refuses the sides
        for (cx, cy) in [(0, 1), (3, 1), (64, 64), (65_536, 65_536)] {
            assert_eq!(lent(&mut room, Search::Beam, cx, cy), (26_624, 52, 52));
        }
        // no half-width, so that the search refuses it
        for half_width in [0, 13, 262, u32::MAX] {
            assert_eq!(lent_with(&mut room, Search::Trellis, 1, 1, half_width), (26_624, 52, 52));
        }
        // too small a room is lent whole
        let mut small = Room::for_covered(1).unwrap();
        assert_eq!(lent_with(&mut small, Search::Trellis, 2, 2, 12), (26 * 63, 52, 52));
    }

    #[test]
    fn what_is_not_cleared_is_lent_whole() {
        let mut room = Room::from_parts(vec![255; 2_000], vec![0.0; 30], vec![0.0; 29]);
        for search in [Search::Greedy, Search::Beam, Search::Trellis, Search::Unfactored] {
            assert_eq!(lent(&mut room, search, 1, 1), (2_000, 30, 29));
        }
    }
}
