//! RDOQ, rate-distortion optimised quantisation, for JPEG XL encoders: the level search of a block, and of a whole group of them. It weighs
//! distortion against the price of the tokens that would be written, and re-picks the levels.
//!
//! The work is done by a library in Rattle, a Rust-like language in which every function is proved to meet its contract; this
//! crate is a safe wrapper of its C interface. An encoder keeps its rate control and its bit writing, builds a [`Book`] for its
//! entropy code, and calls [`rdoq_group`] for the blocks of a group, or [`rdoq_block`] for one. [`input_cost`] says what a block cost before,
//! and so what was saved. [`small`] has the searches for blocks of one or two covered blocks over
//! a shorter window, in 672 bytes of room.
//!
//! ```
//! use rdoq::{rdoq_block, Bias, Block, BookBuilder, Refusal, Room, Search, Settings, Shape, CONTEXTS, SYMBOLS};
//!
//! let book = BookBuilder::new(vec![0; CONTEXTS], &[[4, 2, 0]])
//!     .symbol_prices((0..SYMBOLS).map(|s| 1.0 + s as f32 * 0.25).collect())
//!     .fill()?;
//! let scan: Vec<u32> = (0..64).collect();
//! let source: Vec<f32> = (0..64).map(|i| 5.9 / (1.0 + i as f32)).collect();
//! let block = Block {
//!     shape: Shape { cx: 1, cy: 1, strategy: 0, channel: 1, qf_hi: false, predicted: 4 },
//!     settings: Settings { lambda: 0.1, ..Settings::default() },
//!     bias: Bias::default(),
//!     scale: 1.0,
//!     scan: &scan,
//!     source: &source,
//!     inv_qm: &[1.0; 64],
//! };
//! let quantised: Vec<i32> = source.iter().map(|x| x.round() as i32).collect();
//! let mut room = Room::new();
//!
//! for search in [Search::Greedy, Search::Beam, Search::Trellis] {
//!     let mut levels = quantised.clone();
//!     match rdoq_block(search, &book, &block, &mut levels, &mut room) {
//!         Ok(answer) => println!("{search:?}: {} nonzero levels, cost {:?}", answer.count, answer.cost),
//!         Err(refusal) => println!("{search:?}: {refusal}"),
//!     }
//! }
//! # Ok::<(), Refusal>(())
//! ```
//!
//! # Proved, tested, assumed
//!
//! - Proved of the library: each call answers what its definition says, a refusal exactly outside its domain, on every input.
//! - Tested: this wrapper, and that the searches choose the levels of jixel, the Rust crate that the library ports.
//! - Assumed: Rattle's checker and compiler, and a caller's duties.
//!
//! # Duties
//!
//! Nothing panics on bad input: what can't be used is refused by a [`Refusal`], and a refused block keeps every level. The
//! types see to pointers and lengths. What is left:
//!
//! - **Stack.** A call into the library takes at most [`STACK_BYTES`] (20 KB) of its thread's stack.
//! - **Floating point** is as a program starts: rounding to nearest, subnormal numbers kept. Where a C library built with
//!   `-ffast-math` flushes them to zero, or the rounding was changed, a rightly filled book may get
//!   [`Refusal::ReadyPrice`], and answers are not the defined ones.
//! - **Threads.** Calls touch only what is lent to them, so any number may run at once and share a book; each thread needs
//!   a [`Room`] of its own.
//! - **Linking** needs `librdoq_c.a`, x86-64 Linux: from `make library`, in the `lib` of an unpacked release, or in the
//!   folder that `RDOQ_LIB_DIR` names. `cargo check` and `cargo doc` do not need it. [`version()`] is the linked library's.
//!
//! # Coming from jixel
//!
//! What jixel's `rdoq_block` takes, in its order:
//!
//! | jixel | Here |
//! |---|---|
//! | `channel_weight` | [`Settings::channel_weight`] |
//! | `prices: &FrozenTokenPrices` | `&`[`Book`]; from [`BookBuilder::prefix_clusters`] (its `prefix_codes`) or [`BookBuilder::ans_clusters`] |
//! | `scan` | [`Block::scan`]: 64 indices for each covered block, each index once |
//! | `source` | [`Block::source`] |
//! | `inv_qm` | [`Block::inv_qm`] |
//! | `q_scaled` | [`Block::scale`] |
//! | `block` | the argument `levels` of [`rdoq_block`] |
//! | `raw_strategy` | none: no answer depends on it |
//! | `strategy_code` | [`Shape::strategy`]; it must cover `cx` × `cy` |
//! | `c` | [`Shape::channel`] |
//! | `bias: DequantBias` | [`Block::bias`]; `DequantBias::DEFAULT` is [`Bias::DEFAULT`] |
//! | `predicted` | [`Shape::predicted`] |
//! | `cx`, `cy` | [`Shape::cx`], [`Shape::cy`] |
//! | `distance` | [`Settings::distance`] |
//! | `qf_hi` | [`Shape::qf_hi`] |
//! | `lambda` | [`Settings::lambda`]; `rdoq_lambda` is [`lambda()`] |
//! | `restore_penalty` | [`Settings::penalty`] |
//! | `search: RdoqSearch` | [`Search`] |
//! | `scratch: &mut RdoqScratch` | `&mut` [`Room`] |
//! | (no result) | [`Answer`], or a [`Refusal`] in place of a panic |
//!
//! The half-width of the trellis's band, a constant of 6 there, is [`Settings::half_width`]. Its `window_cap`, an argument of the
//! single searches, is 32 in [`small`] and elsewhere what its `rdoq_block` passes.
//!
//! The explicit biases of `DequantBias::channels` have a numerator other than 0.145 and are refused
//! ([`Refusal::Settings`]).
//!
//! Its encoder predicts a block's count with `predict_from_top_and_left` and calls `rdoq_block` block by block: [`rdoq_group`] does both.
//!
//! Of its other functions `pack_signed`, `uint_encode_with_config`, `fine_block_context`, `fine_non_zero_context`,
//! `fine_zero_density_contexts_offset`, `zero_density_context` and `zero_density_context_8x8` have their names here;
//! `FrozenTokenPrices::token_bits` and `token_bits_pair` are [`Book`]'s; `DequantBias::level` is [`level`]; `rdoq_candidates`,
//! `rdoq_distortion_weight` and `rdoq_window_len` go without `rdoq_`; `chroma_rdoq_weight` is [`chroma_weight`].
//!
//! # Features
//!
//! `std`, on by default: [`Refusal`] is a `std::error::Error`. Without it the crate needs `core` and `alloc` alone.
#![no_std]
#![warn(missing_docs, rust_2018_idioms, clippy::missing_errors_doc, clippy::incompatible_msrv)]

extern crate alloc;
#[cfg(feature = "std")]
extern crate std;

mod book;
mod ffi;
mod group;
mod input;
mod leaves;
mod refusal;
mod search;
mod short;
pub mod small;
mod store;
mod tally;
mod tokens;

pub use book::{Book, BookBuilder, PrefixCode, Pricing, CONTEXTS, READY, SYMBOLS};
pub use group::{rdoq_group, GroupBlock, Stopped};
pub use input::{input_cost, InputCost};
pub use leaves::{
    candidates, chroma_weight, distortion_weight, fine_block_context, fine_non_zero_context, fine_zero_density_contexts_offset,
    lambda, level, pack_signed, uint_encode_with_config, window_len, zero_density_context, zero_density_context_8x8, Config, Split,
    Window,
};
pub use refusal::Refusal;
pub use search::{rdoq_block, Answer, Bias, Block, Room, Search, Settings, Shape, STACK_BYTES};
pub use store::{TokenStore, STORE_RECORD, STORE_RUNS};
pub use tally::Tally;
pub use tokens::{read_lists, read_tokens, write_tokens, Token, TokenBuffer};

/// The version of the library that was linked: major, minor, patch. It is this crate's own where both are of one release; elsewhere a
/// call may be declared otherwise than it is defined, so a program that picks its library up at run time should compare.
///
/// ```
/// let (major, minor, patch) = rdoq::version();
/// println!("rdoq {major}.{minor}.{patch}");
/// ```
pub fn version() -> (u32, u32, u32) {
    // SAFETY: the call takes nothing and touches nothing.
    let number = unsafe { ffi::rdoq_version() };
    (number / 1_000_000, number / 1_000 % 1_000, number % 1_000)
}
