use crate::book::{Book, SYMBOLS};
use crate::ffi;
use crate::refusal::{answered, Refusal};
use crate::short::Short;
use alloc::{vec, vec::Vec};
use core::fmt;

/// How often a batch uses each symbol of each cluster, and how many extra bits in all: what a code for the batch is made from.
///
/// A block's tokens are added, and taken out again when the block is searched anew. Tokens come as two lists, the context and the value of each; the book says
/// which cluster a context has and how a value is split. A symbol above 127 is counted as 127. A call that is refused leaves the tally as it was.
///
/// ```no_run
/// # fn tokens_of_a_block() -> (Vec<u32>, Vec<u32>) { (vec![0], vec![3]) }
/// # fn main() -> Result<(), rdoq::Refusal> {
/// # let book = rdoq::BookBuilder::new(vec![0; rdoq::CONTEXTS], &[[4, 2, 0]]).symbol_prices(vec![1.0; rdoq::SYMBOLS]).fill()?;
/// let mut tally = rdoq::Tally::new(1);
/// let (contexts, values) = tokens_of_a_block();
/// tally.add(&book, &contexts, &values)?;
/// assert_eq!(tally.count(0, 3), 1);
/// tally.remove(&book, &contexts, &values)?;
/// # Ok(())
/// # }
/// ```
#[derive(Clone, PartialEq, Eq)]
pub struct Tally {
    counts: Vec<u32>,
    extra: u64,
}

impl Tally {
    /// A tally for this many clusters, all 0.
    pub fn new(clusters: usize) -> Tally {
        Tally { counts: vec![0; SYMBOLS * clusters], extra: 0 }
    }

    /// A tally that somebody else kept: 128 counts a cluster, and the total of extra bits.
    pub fn from_parts(counts: Vec<u32>, extra: u64) -> Tally {
        Tally { counts, extra }
    }

    /// The counts, 128 a cluster.
    pub fn counts(&self) -> &[u32] {
        &self.counts
    }

    /// How often a symbol of a cluster was used; 0 where there is no such cluster or symbol.
    pub fn count(&self, cluster: usize, symbol: usize) -> u32 {
        if symbol >= SYMBOLS {
            return 0;
        }
        self.counts.get(SYMBOLS * cluster + symbol).copied().unwrap_or(0)
    }

    /// The total of extra bits.
    pub fn extra_bits(&self) -> u64 {
        self.extra
    }

    /// Adds tokens.
    ///
    /// # Errors
    ///
    /// In this order: [`MapLength`](Refusal::MapLength); [`BookLength`](Refusal::BookLength), also where the tally has not 128
    /// counts for each cluster of the book; [`MapEntry`](Refusal::MapEntry); [`Configuration`](Refusal::Configuration);
    /// [`Domain`](Refusal::Domain) where the lists differ in length, a context is above 14,849 or a value above 131,071;
    /// [`TallyFull`](Refusal::TallyFull) where a count would pass 2^32 - 1 or the total 2^64 - 1.
    pub fn add(&mut self, book: &Book, contexts: &[u32], values: &[u32]) -> Result<(), Refusal> {
        self.count_tokens(ffi::rdoq_tally_add, book, contexts, values)
    }

    /// Takes tokens out. It does not matter which call added them.
    ///
    /// # Errors
    ///
    /// As [`add`](Tally::add), with [`TallyEmpty`](Refusal::TallyEmpty) in place of the last: a count or the total would fall
    /// below 0.
    pub fn remove(&mut self, book: &Book, contexts: &[u32], values: &[u32]) -> Result<(), Refusal> {
        self.count_tokens(ffi::rdoq_tally_remove, book, contexts, values)
    }

    fn count_tokens(&mut self, call: ffi::TallyCall, book: &Book, contexts: &[u32], values: &[u32]) -> Result<(), Refusal> {
        let (clusters, map, configs) = book.code();
        // SAFETY: each pointer comes with the length of its slice; the counts and the total are this tally's own.
        answered(unsafe {
            call(
                clusters,
                map.as_ptr(),
                map.len(),
                configs.as_ptr(),
                configs.len(),
                contexts.as_ptr(),
                contexts.len(),
                values.as_ptr(),
                values.len(),
                self.counts.as_mut_ptr(),
                self.counts.len(),
                &mut self.extra,
            )
        })
    }
}

impl fmt::Debug for Tally {
    fn fmt(&self, f: &mut fmt::Formatter<'_>) -> fmt::Result {
        f.debug_struct("Tally").field("counts", &Short(self.counts.len())).field("extra", &self.extra).finish()
    }
}
