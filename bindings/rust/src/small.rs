//! The small product: the searches for blocks of one or two covered blocks, over a window of 32 positions, in little room.
//!
//! [`rdoq_small_block`] is [`rdoq_block`](crate::rdoq_block) with these differences:
//!
//! - More than two covered blocks, whatever else is wrong, get [`Refusal::NotSmall`] before every other check.
//! - The window is 32 positions long. 20 of them may be restored where one block is covered, all where two are. The levels past it
//!   stay, and their ideals are not looked at.
//! - The half-width of the trellis's band is 6: [`small::Settings`](Settings) has none.
//! - The trellis needs 448 choice bytes and two rows of 28 floats, the beam 192 choice bytes ([`room`]).
//!
//! What is promised of a trellis's answer there is promised here, of this window: its levels are of least cost in the band (proved).
//!
//! ```
//! use rdoq::{small, Bias, BookBuilder, Search, Shape, CONTEXTS, SYMBOLS};
//!
//! let book = BookBuilder::new(vec![0; CONTEXTS], &[[4, 2, 0]])
//!     .symbol_prices(vec![1.0; SYMBOLS])
//!     .fill()?;
//! let scan: Vec<u32> = (0..64).collect();
//! let block = small::Block {
//!     shape: Shape { cx: 1, cy: 1, strategy: 0, channel: 1, qf_hi: false, predicted: 0 },
//!     settings: small::Settings { lambda: 0.5, ..small::Settings::default() },
//!     bias: Bias::new(0.9),
//!     scale: 1.0,
//!     scan: &scan,
//!     source: &[0.0; 64],
//!     inv_qm: &[1.0; 64],
//! };
//! let mut levels = [0; 64];
//!
//! let answer = small::rdoq_small_block(Search::Trellis, &book, &block, &mut levels, &mut small::room())?;
//! // all zero: the count is 0, and its token is all that is paid
//! assert_eq!(answer.count, 0);
//! assert_eq!(answer.cost, Some(0.5));
//! # Ok::<(), rdoq::Refusal>(())
//! ```
use crate::book::Book;
use crate::ffi;
use crate::refusal::{answered, Refusal};
use crate::search::{needed, Answer, Bias, Room, Search, Shape};
use crate::short::Short;
use core::fmt;

/// The window's positions.
const WINDOW: usize = 32;
/// The half-width of the trellis's band.
const HALF_WIDTH: u32 = 6;

/// What a search weighs distortion and bits by: [`rdoq::Settings`](crate::Settings) without a half-width.
///
/// Fields may be added: name those that you set, and take the others from [`Settings::default`].
#[derive(Clone, Copy, Debug, PartialEq)]
pub struct Settings {
    /// The channel's weight, 2^-10 to 2^10.
    pub channel_weight: f32,
    /// The price of a bit, 2^-20 to 2^20.
    pub lambda: f32,
    /// What lambda is multiplied by where a zero becomes nonzero, 2^-10 to 2^10.
    pub penalty: f32,
    /// The distance, 0 to 25.
    pub distance: f32,
}

/// Distortion and restored levels at their own price, and distance 1. Lambda is the encoder's own (see
/// [`lambda`](crate::lambda())); 1 stands for none.
impl Default for Settings {
    fn default() -> Settings {
        Settings { channel_weight: 1.0, lambda: 1.0, penalty: 1.0, distance: 1.0 }
    }
}

/// A block of one or two covered blocks without its levels. The lists hold 64 numbers for each covered block.
#[derive(Clone, Copy, PartialEq)]
pub struct Block<'a> {
    /// Its place in the format.
    pub shape: Shape,
    /// What distortion and bits are weighed by.
    pub settings: Settings,
    /// The channel's bias.
    pub bias: Bias,
    /// The ideal at a position is (source × inverse weight) × scale.
    pub scale: f32,
    /// Each index once, in scan order.
    pub scan: &'a [u32],
    /// The source coefficients.
    pub source: &'a [f32],
    /// Their inverse weights.
    pub inv_qm: &'a [f32],
}

impl fmt::Debug for Block<'_> {
    fn fmt(&self, f: &mut fmt::Formatter<'_>) -> fmt::Result {
        f.debug_struct("Block")
            .field("shape", &self.shape)
            .field("settings", &self.settings)
            .field("bias", &self.bias)
            .field("scale", &self.scale)
            .field("scan", &Short(self.scan.len()))
            .field("source", &Short(self.source.len()))
            .field("inv_qm", &Short(self.inv_qm.len()))
            .finish()
    }
}

/// Room for every search of the small product: 448 choice bytes and two rows of 28 floats. A larger one serves too, and a search is lent
/// no more of it than this.
pub fn room() -> Room {
    Room::cleared_of(needed(Search::Trellis, WINDOW, HALF_WIDTH))
}

/// Re-picks the levels of a block of one or two covered blocks, in place.
///
/// A refused block keeps every level. After every refusal but 15 and 16 the room is as it was too.
///
/// # Errors
///
/// [`NotSmall`](Refusal::NotSmall) before everything; then those of [`rdoq_block`](crate::rdoq_block) in their order, without
/// [`HalfWidth`](Refusal::HalfWidth).
pub fn rdoq_small_block(
    search: Search, book: &Book, block: &Block<'_>, levels: &mut [i32], room: &mut Room,
) -> Result<Answer, Refusal> {
    let (map, configs, symbols, ready) = (book.map(), book.configs(), book.symbols(), book.ready());
    let Block { shape, settings, bias, scale, scan, source, inv_qm } = *block;
    let (choices, row_a, row_b) = room.lend(Some(needed(search, WINDOW, HALF_WIDTH)));
    let (mut cost, mut count) = (f32::NAN, 0);
    // SAFETY: each pointer comes with the length of its slice. What is written is borrowed mutably, so it overlaps nothing else.
    let reply = answered(unsafe {
        ffi::rdoq_small_block(
            search.number(),
            book.clusters(),
            map.as_ptr(),
            map.len(),
            configs.as_ptr(),
            configs.len(),
            symbols.as_ptr(),
            symbols.len(),
            ready.as_ptr(),
            ready.len(),
            shape.cx,
            shape.cy,
            shape.strategy,
            shape.channel,
            shape.qf_hi,
            shape.predicted,
            settings.channel_weight,
            settings.lambda,
            settings.penalty,
            settings.distance,
            bias.one,
            bias.numerator,
            scale,
            scan.as_ptr(),
            scan.len(),
            source.as_ptr(),
            source.len(),
            inv_qm.as_ptr(),
            inv_qm.len(),
            levels.as_mut_ptr(),
            levels.len(),
            choices.as_mut_ptr(),
            choices.len(),
            row_a.as_mut_ptr(),
            row_a.len(),
            row_b.as_mut_ptr(),
            row_b.len(),
            &mut cost,
            &mut count,
        )
    });
    room.take_back(search, reply);
    reply?;
    Ok(Answer::of(search, cost, count))
}
