use crate::book::Book;
use crate::ffi;
use crate::refusal::{answered, Refusal};
use crate::search::{needed_by, Bias, Room, Search, Settings};
use crate::short::Short;
use alloc::vec::Vec;
use core::fmt;
use core::mem;

/// A block of a group, without its levels. The lists hold 64 numbers for each covered block.
///
/// A group is 32 by 32 cells of 8 × 8 samples, for each of three channels.
#[derive(Clone, Copy, PartialEq)]
pub struct GroupBlock<'a> {
    /// The column of its top left cell, 0 to 31.
    pub x: u32,
    /// The row of its top left cell, 0 to 31.
    pub y: u32,
    /// How many cells it covers to the right: 1, 2, 4, 8, 16 or 32.
    pub cx: u32,
    /// How many cells it covers down.
    pub cy: u32,
    /// The strategy code, at most 26. It must cover `cx` × `cy` cells.
    pub strategy: u8,
    /// X = 0, Y = 1, B = 2.
    pub channel: u8,
    /// The quant class.
    pub qf_hi: bool,
    /// What distortion and bits are weighed by, and the half-width of the band.
    pub settings: Settings,
    /// The channel's bias.
    pub bias: Bias,
    /// The ideal at a position is (source × inverse weight) × scale.
    pub scale: f32,
    /// Each index once, in scan order.
    pub scan: &'a [u32],
    /// The source coefficients.
    pub source: &'a [f32],
    /// Their inverse weights.
    pub inv_qm: &'a [f32],
}

impl GroupBlock<'_> {
    /// How many numbers its lists should hold.
    fn numbers(&self) -> Option<usize> {
        usize::try_from(self.cx.checked_mul(self.cy)?).ok()?.checked_mul(64)
    }
}

impl fmt::Debug for GroupBlock<'_> {
    fn fmt(&self, f: &mut fmt::Formatter<'_>) -> fmt::Result {
        f.debug_struct("GroupBlock")
            .field("x", &self.x)
            .field("y", &self.y)
            .field("cx", &self.cx)
            .field("cy", &self.cy)
            .field("strategy", &self.strategy)
            .field("channel", &self.channel)
            .field("qf_hi", &self.qf_hi)
            .field("settings", &self.settings)
            .field("bias", &self.bias)
            .field("scale", &self.scale)
            .field("scan", &Short(self.scan.len()))
            .field("source", &Short(self.source.len()))
            .field("inv_qm", &Short(self.inv_qm.len()))
            .finish()
    }
}

/// Why a list did not come to its end, and how far it came.
#[derive(Clone, Copy, Debug, PartialEq, Eq, Hash)]
pub struct Stopped {
    /// The refusal: of the book or of the list as a whole, with 0 settled, or of the block at which the list stopped.
    pub refusal: Refusal,
    /// How many blocks were settled before. They keep the levels that were picked for them.
    pub settled: u32,
}

impl fmt::Display for Stopped {
    fn fmt(&self, f: &mut fmt::Formatter<'_>) -> fmt::Result {
        write!(f, "{} ({} blocks of the list are settled)", self.refusal, self.settled)
    }
}

#[cfg(feature = "std")]
impl std::error::Error for Stopped {}

impl From<Stopped> for Refusal {
    fn from(stopped: Stopped) -> Refusal {
        stopped.refusal
    }
}

/// A list as the library takes it: eight words and seven floats a block, and the blocks' numbers one after the other.
#[derive(Clone, Default)]
pub(crate) struct Lists {
    words: Vec<u32>,
    floats: Vec<f32>,
    scans: Vec<u32>,
    sources: Vec<f32>,
    inv_qms: Vec<f32>,
}

impl Lists {
    /// The numbers end before the first block whose lists are not of their lengths, so that it finds too few.
    fn gather(&mut self, blocks: &[GroupBlock<'_>]) {
        let Lists { words, floats, scans, sources, inv_qms } = self;
        words.clear();
        floats.clear();
        scans.clear();
        sources.clear();
        inv_qms.clear();
        for b in blocks {
            let Settings { channel_weight, lambda, penalty, distance, half_width } = b.settings;
            let Bias { one, numerator } = b.bias;
            words.extend([b.x, b.y, b.cx, b.cy, b.strategy.into(), b.channel.into(), b.qf_hi.into(), half_width]);
            floats.extend([channel_weight, lambda, penalty, distance, one, numerator, b.scale]);
        }
        for b in blocks {
            let lengths = [b.scan.len(), b.source.len(), b.inv_qm.len()];
            if lengths.iter().any(|&length| Some(length) != b.numbers()) {
                break;
            }
            scans.extend_from_slice(b.scan);
            sources.extend_from_slice(b.source);
            inv_qms.extend_from_slice(b.inv_qm);
        }
    }
}

/// The largest need of a list's blocks, where each has one.
fn needed_by_all(search: Search, blocks: &[GroupBlock<'_>]) -> Option<(usize, usize)> {
    blocks.iter().try_fold((0, 0), |(bytes, floats), b| {
        let (more_bytes, more_floats) = needed_by(search, b.cx, b.cy, b.settings.half_width)?;
        Some((bytes.max(more_bytes), floats.max(more_floats)))
    })
}

/// Re-picks the levels of a group's blocks, in place and in the order of the list, and answers how many there are. This is the call
/// that an encoder should use: the book is checked once, and the count of nonzero levels that a block is coded by is predicted as
/// ISO/IEC 18181-1 has it, from the blocks that were settled above and to the left. (A settled block writes its own count, over its
/// covered blocks and rounded up, into its cells.)
///
/// `levels` holds 64 numbers for each covered block, block after block; what is left over is neither read nor refused.
///
/// A block may come once the cells left of and above its top left cell were listed in its channel, where the group has such cells.
/// So from the top left on, row after row, will do; the channels may come one after the other or in turns, for none touches another:
/// blocks of one channel are settled alike whatever blocks of others stand in the list, as long as both lists settle them (proved).
///
/// A list may write a level of 32,768 where 32,767 is restored to a larger one. A second run over such levels stops there with
/// [`Refusal::Level`].
///
/// # Errors
///
/// [`Stopped`], with the first refusal in this order:
///
/// - of the book, with 0 settled: what [`rdoq_block`](crate::rdoq_block) refuses of one;
/// - of the list, each over all blocks before the next, with 0 settled and nothing changed: [`BlockSide`](Refusal::BlockSide),
///   [`Strategy`](Refusal::Strategy) for a channel above 2, [`OutsideGroup`](Refusal::OutsideGroup), [`Overlap`](Refusal::Overlap),
///   [`NeighbourMissing`](Refusal::NeighbourMissing);
/// - then block by block: [`BlockLength`](Refusal::BlockLength) where too few levels are left, or where scan, source or inverse
///   weights are not 64 numbers for each covered block; and all else that [`rdoq_block`](crate::rdoq_block) refuses of a block. The
///   list stops there: the blocks before stay settled, the others keep every level.
///
/// # Examples
///
/// Two blocks side by side, the first with a count of 2: the second is coded as one of which 2 are expected.
///
/// ```
/// use rdoq::{rdoq_group, Bias, BookBuilder, GroupBlock, Room, Search, Settings, CONTEXTS, SYMBOLS};
///
/// let book = BookBuilder::new(vec![0; CONTEXTS], &[[4, 2, 0]]).symbol_prices(vec![1.0; SYMBOLS]).fill()?;
/// let scan: Vec<u32> = (0..64).collect();
/// let mut source = [0.0; 64];
/// source[1] = 7.0;
/// source[2] = -5.0;
/// let first = GroupBlock {
///     x: 0, y: 0, cx: 1, cy: 1, strategy: 0, channel: 1, qf_hi: false,
///     settings: Settings { lambda: 0.01, ..Settings::default() },
///     bias: Bias::default(),
///     scale: 1.0,
///     scan: &scan,
///     source: &source,
///     inv_qm: &[1.0; 64],
/// };
/// let second = GroupBlock { x: 1, source: &[0.0; 64], ..first };
/// let mut levels = vec![0; 128];
/// levels[1] = 7;
/// levels[2] = -5;
///
/// let settled = rdoq_group(Search::Trellis, &book, &[first, second], &mut levels, &mut Room::new())?;
/// assert_eq!(settled, 2);
/// // the other order lacks a neighbour
/// let stopped = rdoq_group(Search::Trellis, &book, &[second, first], &mut levels, &mut Room::new()).unwrap_err();
/// assert_eq!((stopped.refusal.number(), stopped.settled), (31, 0));
/// # Ok::<(), rdoq::Refusal>(())
/// ```
pub fn rdoq_group(
    search: Search, book: &Book, blocks: &[GroupBlock<'_>], levels: &mut [i32], room: &mut Room,
) -> Result<u32, Stopped> {
    let (map, configs, symbols, ready) = (book.map(), book.configs(), book.symbols(), book.ready());
    let mut lists = mem::take(&mut room.lists);
    lists.gather(blocks);
    let Lists { words, floats, scans, sources, inv_qms } = &lists;
    let (choices, row_a, row_b) = room.lend(needed_by_all(search, blocks));
    let mut settled = 0;
    // SAFETY: each pointer comes with the length of its slice. What is written is borrowed mutably, so it overlaps nothing else.
    let reply = answered(unsafe {
        ffi::rdoq_group(
            search.number(),
            book.clusters(),
            map.as_ptr(),
            map.len(),
            configs.as_ptr(),
            configs.len(),
            symbols.as_ptr(),
            symbols.len(),
            ready.as_ptr(),
            ready.len(),
            words.as_ptr(),
            words.len(),
            floats.as_ptr(),
            floats.len(),
            scans.as_ptr(),
            scans.len(),
            sources.as_ptr(),
            sources.len(),
            inv_qms.as_ptr(),
            inv_qms.len(),
            levels.as_mut_ptr(),
            levels.len(),
            choices.as_mut_ptr(),
            choices.len(),
            row_a.as_mut_ptr(),
            row_a.len(),
            row_b.as_mut_ptr(),
            row_b.len(),
            &mut settled,
        )
    });
    room.lists = lists;
    match (reply, settled) {
        // no block was searched
        (Ok(()), 0) => {}
        (Err(_), 0) | (Err(Refusal::Unknown), _) => room.take_back(search, reply),
        // what a settled block left stands, or was cleared again
        _ => room.take_back(search, Ok(())),
    }
    match reply {
        Ok(()) => Ok(settled),
        Err(refusal) => Err(Stopped { refusal, settled }),
    }
}
