//! The leaf calls: packing, contexts, bias, weights and lengths. Each gives [`Refusal::Domain`] outside its domain.
use crate::ffi;
use crate::refusal::{answered, Refusal};
use crate::search::Bias;
use alloc::{vec, vec::Vec};

/// How a value is split into a symbol and extra bits.
#[derive(Clone, Copy, Debug, PartialEq, Eq, Hash)]
pub struct Config {
    /// Values below 2 to this are their own symbol.
    pub split_exponent: u32,
    /// How many bits under the top one go into the symbol.
    pub msb_in_token: u32,
    /// How many of the lowest bits go into the symbol.
    pub lsb_in_token: u32,
}

/// A value's symbol, how many extra bits it has, and the bits.
#[derive(Clone, Copy, Debug, PartialEq, Eq, Hash)]
pub struct Split {
    /// The symbol, up to 767.
    pub symbol: u32,
    /// How many extra bits.
    pub extra_bits: u32,
    /// The extra bits.
    pub bits: u32,
}

/// How many positions a search covers, and how many of them it may restore.
#[derive(Clone, Copy, Debug, PartialEq, Eq, Hash)]
pub struct Window {
    /// The positions that a search covers.
    pub length: usize,
    /// Those of them, from the first on, at which a level may be restored.
    pub restoring: usize,
}

/// Runs a call that writes its answer behind a pointer.
fn told<T: Default>(call: impl FnOnce(*mut T) -> u32) -> Result<T, Refusal> {
    let mut value = T::default();
    answered(call(&mut value))?;
    Ok(value)
}

/// The packed form of a level within ±32,768.
///
/// # Errors
///
/// [`Refusal::Domain`] for a level outside ±32,768.
///
/// # Examples
///
/// ```
/// assert_eq!(rdoq::pack_signed(-1), Ok(1));
/// assert_eq!(rdoq::pack_signed(32_768), Ok(65_536));
/// ```
pub fn pack_signed(level: i32) -> Result<u32, Refusal> {
    // SAFETY: the pointer is that of `told`'s own variable. So it is below.
    told(|out| unsafe { ffi::rdoq_pack_signed(level, out) })
}

/// The symbol of a value of at most 131,071, under a configuration that passes check 4. Symbols above 127 have no price in a book.
///
/// # Errors
///
/// [`Refusal::Domain`] for a value above 131,071, and where `split_exponent` is above 6 or `msb_in_token + lsb_in_token`
/// above `split_exponent`.
///
/// # Examples
///
/// ```
/// let config = rdoq::Config { split_exponent: 4, msb_in_token: 2, lsb_in_token: 0 };
/// let split = rdoq::uint_encode_with_config(65_536, config)?;
/// assert_eq!((split.symbol, split.extra_bits), (64, 14));
/// # Ok::<(), rdoq::Refusal>(())
/// ```
pub fn uint_encode_with_config(value: u32, config: Config) -> Result<Split, Refusal> {
    let Config { split_exponent, msb_in_token, lsb_in_token } = config;
    let (mut symbol, mut extra_bits, mut bits) = (0, 0, 0);
    // SAFETY: the pointers are those of this function's own variables.
    answered(unsafe {
        ffi::rdoq_uint_encode_with_config(
            value,
            split_exponent,
            msb_in_token,
            lsb_in_token,
            &mut symbol,
            &mut extra_bits,
            &mut bits,
        )
    })?;
    Ok(Split { symbol, extra_bits, bits })
}

/// The block context, below 30, of a channel of at most 2, a strategy code of at most 26 and a quant class.
///
/// # Errors
///
/// [`Refusal::Domain`] for a channel above 2 or a strategy code above 26.
pub fn fine_block_context(channel: u32, strategy: u32, qf_hi: bool) -> Result<u32, Refusal> {
    told(|out| unsafe { ffi::rdoq_fine_block_context(channel, strategy, qf_hi, out) })
}

/// The context of a block's nonzero count, by its predicted count and a block context below 30.
///
/// # Errors
///
/// [`Refusal::Domain`] for a block context above 29. `non_zeros` may be any number.
pub fn fine_non_zero_context(non_zeros: u32, fine_block_ctx: u32) -> Result<u32, Refusal> {
    told(|out| unsafe { ffi::rdoq_fine_non_zero_context(non_zeros, fine_block_ctx, out) })
}

/// The first coefficient context of a block context below 30.
///
/// # Errors
///
/// [`Refusal::Domain`] for a block context above 29.
pub fn fine_zero_density_contexts_offset(fine_block_ctx: u32) -> Result<u32, Refusal> {
    told(|out| unsafe { ffi::rdoq_fine_zero_density_contexts_offset(fine_block_ctx, out) })
}

/// The context, below 458, of the coefficient at scan position `k` within its block context. `nonzeros_left` counts the nonzero levels from `k` on.
///
/// # Errors
///
/// [`Refusal::Domain`] where `covered_blocks`, c, is not a power of two up to 1,024, `k` not c to 64c - 1, `nonzeros_left` not
/// 1 to 64c - `k`, or `prev` not 0 or 1.
///
/// # Examples
///
/// ```
/// assert_eq!(rdoq::zero_density_context(33, 31, 1, 1), Ok(457));
/// ```
pub fn zero_density_context(nonzeros_left: u32, k: u32, covered_blocks: u32, prev: u32) -> Result<u32, Refusal> {
    told(|out| unsafe { ffi::rdoq_zero_density_context(nonzeros_left, k, covered_blocks, prev, out) })
}

/// The same for one covered block.
///
/// # Errors
///
/// [`Refusal::Domain`] where `k` is not 1 to 63, `nonzeros_left` not 1 to 64 - `k`, or `prev` not 0 or 1.
pub fn zero_density_context_8x8(nonzeros_left: u32, k: u32, prev: u32) -> Result<u32, Refusal> {
    told(|out| unsafe { ffi::rdoq_zero_density_context_8x8(nonzeros_left, k, prev, out) })
}

/// The value that a decoder restores from a level within ±32,768.
///
/// # Errors
///
/// [`Refusal::Domain`] for a level outside ±32,768, and for a bias whose `one` is NaN or outside 0 to 2, or whose numerator is
/// not 0.145.
///
/// # Examples
///
/// ```
/// assert_eq!(rdoq::level(rdoq::Bias::new(0.9), -1), Ok(-0.9));
/// ```
pub fn level(bias: Bias, quant: i32) -> Result<f32, Refusal> {
    told(|out| unsafe { ffi::rdoq_level(bias.one, bias.numerator, quant, out) })
}

/// Lambda from two constants of the encoder and the quant field ratio, which is not NaN: ((rd × 0.25) × tuning) × the ratio held within 0.5 to 2.
///
/// # Errors
///
/// [`Refusal::Domain`] where the ratio is NaN.
pub fn lambda(rd: f32, tuning: f32, ratio: f32) -> Result<f32, Refusal> {
    told(|out| unsafe { ffi::rdoq_lambda(rd, tuning, ratio, out) })
}

/// The multiplier of chroma distortion at a distance of 0 to 25: 2 up to 2.25, falling to 1 at 4.
///
/// # Errors
///
/// [`Refusal::Domain`] for a distance that is NaN or outside 0 to 25.
pub fn chroma_weight(distance: f32) -> Result<f32, Refusal> {
    told(|out| unsafe { ffi::rdoq_chroma_rdoq_weight(distance, out) })
}

/// The weight of a position in a window of at most 1,024, at an index of at most the length and a distance of 0 to 25.
///
/// # Errors
///
/// [`Refusal::Domain`] for a window above 1,024, an index above its length, and a distance that is NaN or outside 0 to 25.
pub fn distortion_weight(window_index: u32, window_len: u32, distance: f32) -> Result<f32, Refusal> {
    told(|out| unsafe { ffi::rdoq_distortion_weight(window_index, window_len, distance, out) })
}

/// The levels that may be picked for a coefficient, the current one first. The level and the ideal lie within ±32,767.
///
/// # Errors
///
/// [`Refusal::Domain`] where the level or the ideal lies outside ±32,767, or the ideal is NaN.
///
/// # Examples
///
/// ```
/// // restoring, a 3 whose ideal is 3.25
/// assert_eq!(rdoq::candidates(3.25, 3, true)?, [3, 0, 2, 4]);
/// # Ok::<(), rdoq::Refusal>(())
/// ```
pub fn candidates(ideal: f32, current: i32, restore: bool) -> Result<Vec<i32>, Refusal> {
    let (mut levels, mut count) = (vec![0; 5], 0);
    // SAFETY: the pointer to the levels comes with their length; both are this function's own.
    answered(unsafe { ffi::rdoq_candidates(ideal, current, restore, levels.as_mut_ptr(), levels.len(), &mut count) })?;
    levels.truncate(count as usize);
    Ok(levels)
}

/// The window for a number of covered blocks, a power of two up to 1,024.
///
/// # Errors
///
/// [`Refusal::Domain`] for any other number.
///
/// # Examples
///
/// ```
/// let window = rdoq::window_len(1)?;
/// assert_eq!((window.length, window.restoring), (63, 20));
/// # Ok::<(), rdoq::Refusal>(())
/// ```
pub fn window_len(covered_blocks: u32) -> Result<Window, Refusal> {
    let (mut length, mut restoring) = (0, 0);
    // SAFETY: the pointers are those of this function's own variables.
    answered(unsafe { ffi::rdoq_window_len(covered_blocks, &mut length, &mut restoring) })?;
    Ok(Window { length, restoring })
}
