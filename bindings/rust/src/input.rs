use crate::book::Book;
use crate::ffi;
use crate::refusal::{answered, Refusal};
use crate::search::Block;

/// What a block's levels cost as they stand.
#[derive(Clone, Copy, Debug, PartialEq)]
#[non_exhaustive]
pub struct InputCost {
    /// The cost of the levels from scan position c on, c being the covered blocks: +infinity where a level or the count has no word,
    /// never NaN, never below 0.
    pub cost: f32,
    /// How many of them are nonzero.
    pub count: u32,
}

/// What the levels of a block cost as they stand, by the definition of the searches' costs. Asked before a search, it says what the
/// input costs; the search's own cost taken from it is what was saved. No room is needed, and of the settings the half-width is not
/// read.
///
/// Where the trellis answers, of whatever half-width, its cost is at most this one (proved). The levels that beam or trellis wrote,
/// handed in, cost what was answered (of the trellis proved), unless a level was restored (a nonzero level where there was 0) and the
/// penalty is not 1: here the levels are the input, so none is restored. A level of 32,768, which a search may write, is refused.
///
/// # Errors
///
/// The first check that fails, as of [`rdoq_block`](crate::rdoq_block()) up to [`Ideal`](Refusal::Ideal), without
/// [`HalfWidth`](Refusal::HalfWidth). A level without a word is no refusal: the cost is +infinity.
///
/// # Examples
///
/// ```
/// use rdoq::{input_cost, rdoq_block, Bias, Block, BookBuilder, Room, Search, Settings, Shape, CONTEXTS, SYMBOLS};
///
/// let book = BookBuilder::new(vec![0; CONTEXTS], &[[4, 2, 0]])
///     .symbol_prices(vec![1.0; SYMBOLS])
///     .fill()?;
/// let scan: Vec<u32> = (0..64).collect();
/// let mut source = [0.0; 64];
/// source[1] = 0.5;
/// let block = Block {
///     shape: Shape { cx: 1, cy: 1, strategy: 0, channel: 1, qf_hi: false, predicted: 0 },
///     settings: Settings { lambda: 0.5, ..Settings::default() },
///     bias: Bias::new(0.5),
///     scale: 1.0,
///     scan: &scan,
///     source: &source,
///     inv_qm: &[1.0; 64],
/// };
/// let mut levels = [0; 64];
/// levels[1] = 1;
///
/// let before = input_cost(&book, &block, &levels)?;
/// // the count's token and the level's; the decoder restores exactly the source
/// assert_eq!((before.cost, before.count), (1.0, 1));
/// let after = rdoq_block(Search::Trellis, &book, &block, &mut levels, &mut Room::new())?;
/// // the count's token, and a distortion of a quarter
/// assert_eq!((after.cost, after.count), (Some(0.75), 0));
/// # Ok::<(), rdoq::Refusal>(())
/// ```
pub fn input_cost(book: &Book, block: &Block<'_>, levels: &[i32]) -> Result<InputCost, Refusal> {
    let (map, configs, symbols, ready) = (book.map(), book.configs(), book.symbols(), book.ready());
    let Block { shape, settings, bias, scale, scan, source, inv_qm } = *block;
    let (mut cost, mut count) = (f32::NAN, 0);
    // SAFETY: each pointer comes with the length of its slice. What is written are two variables of this function.
    answered(unsafe {
        ffi::rdoq_input_cost(
            book.clusters(),
            map.as_ptr(),
            map.len(),
            configs.as_ptr(),
            configs.len(),
            symbols.as_ptr(),
            symbols.len(),
            ready.as_ptr(),
            ready.len(),
            shape.cx,
            shape.cy,
            shape.strategy,
            shape.channel,
            shape.qf_hi,
            shape.predicted,
            settings.channel_weight,
            settings.lambda,
            settings.penalty,
            settings.distance,
            bias.one,
            bias.numerator,
            scale,
            scan.as_ptr(),
            scan.len(),
            source.as_ptr(),
            source.len(),
            inv_qm.as_ptr(),
            inv_qm.len(),
            levels.as_ptr(),
            levels.len(),
            &mut cost,
            &mut count,
        )
    })?;
    Ok(InputCost { cost, count })
}
