use crate::ffi;
use crate::refusal::{answered, Refusal};
use crate::short::Short;
use alloc::{vec, vec::Vec};
use core::fmt;

/// The contexts of a map.
pub const CONTEXTS: usize = 14_850;
/// The symbol prices of a cluster.
pub const SYMBOLS: usize = 128;
/// The ready prices of a cluster.
pub const READY: usize = 256;

/// What each token costs, in bits. Made by [`BookBuilder`].
///
/// A book may be shared by any number of searches at once.
#[derive(Clone, PartialEq)]
pub struct Book {
    clusters: u32,
    map: Vec<u8>,
    configs: Vec<u8>,
    symbols: Vec<f32>,
    ready: Vec<f32>,
}

impl Book {
    /// A book from parts that somebody else filled. Nothing is checked here: [`check`](Book::check) does, and so does each search.
    pub fn from_parts(clusters: u32, map: Vec<u8>, configs: Vec<u8>, symbols: Vec<f32>, ready: Vec<f32>) -> Book {
        Book { clusters, map, configs, symbols, ready }
    }

    /// The code without its prices: the number of clusters, the map and the configurations.
    pub(crate) fn code(&self) -> (u32, &[u8], &[u8]) {
        (self.clusters, &self.map, &self.configs)
    }

    /// Checks 1 to 6. A book from [`BookBuilder::fill`] passes.
    ///
    /// # Errors
    ///
    /// The first of [`MapLength`](Refusal::MapLength), [`BookLength`](Refusal::BookLength), [`MapEntry`](Refusal::MapEntry),
    /// [`Configuration`](Refusal::Configuration), [`SymbolPrice`](Refusal::SymbolPrice), [`ReadyPrice`](Refusal::ReadyPrice).
    pub fn check(&self) -> Result<(), Refusal> {
        let (map, configs, symbols, ready) = (&self.map, &self.configs, &self.symbols, &self.ready);
        // SAFETY: each pointer comes with the length of its slice, and the call reads within it.
        answered(unsafe {
            ffi::rdoq_check_book(
                self.clusters,
                map.as_ptr(),
                map.len(),
                configs.as_ptr(),
                configs.len(),
                symbols.as_ptr(),
                symbols.len(),
                ready.as_ptr(),
                ready.len(),
            )
        })
    }

    /// The price of a value of at most 131,071 in a context below 14,850. A value whose symbol is above 127 has no word and costs +infinity: with 5,2,2 from
    /// 2,048 on, with 6,3,0 from 16,384 on. So does a block's count of nonzero levels: large dense blocks can meet refusals 15 and 16.
    ///
    /// # Errors
    ///
    /// [`Refusal::Domain`] where the context, the value or a length of the book is wrong, or an entry that the price is made of.
    pub fn token_bits(&self, context: u32, value: u32) -> Result<f32, Refusal> {
        let (map, configs, symbols, ready) = (&self.map, &self.configs, &self.symbols, &self.ready);
        let mut bits = 0.0;
        // SAFETY: as in `check`; `bits` is this function's own.
        answered(unsafe {
            ffi::rdoq_token_bits(
                self.clusters,
                map.as_ptr(),
                map.len(),
                configs.as_ptr(),
                configs.len(),
                symbols.as_ptr(),
                symbols.len(),
                ready.as_ptr(),
                ready.len(),
                context,
                value,
                &mut bits,
            )
        })?;
        Ok(bits)
    }

    /// The prices of a value in a context and the next one.
    ///
    /// # Errors
    ///
    /// [`Refusal::Domain`] where [`token_bits`](Book::token_bits) gives it in either context.
    pub fn token_bits_pair(&self, context: u32, value: u32) -> Result<(f32, f32), Refusal> {
        let (map, configs, symbols, ready) = (&self.map, &self.configs, &self.symbols, &self.ready);
        let (mut first, mut second) = (0.0, 0.0);
        // SAFETY: as in `check`; `first` and `second` are this function's own.
        answered(unsafe {
            ffi::rdoq_token_bits_pair(
                self.clusters,
                map.as_ptr(),
                map.len(),
                configs.as_ptr(),
                configs.len(),
                symbols.as_ptr(),
                symbols.len(),
                ready.as_ptr(),
                ready.len(),
                context,
                value,
                &mut first,
                &mut second,
            )
        })?;
        Ok((first, second))
    }

    /// How many clusters there are.
    pub fn clusters(&self) -> u32 {
        self.clusters
    }

    /// The cluster of each context.
    pub fn map(&self) -> &[u8] {
        &self.map
    }

    /// Three bytes a cluster: split exponent, msb in token, lsb in token.
    pub fn configs(&self) -> &[u8] {
        &self.configs
    }

    /// 128 prices a cluster.
    pub fn symbols(&self) -> &[f32] {
        &self.symbols
    }

    /// 256 prices a cluster: those of the values 0 to 255.
    pub fn ready(&self) -> &[f32] {
        &self.ready
    }
}

impl fmt::Debug for Book {
    fn fmt(&self, f: &mut fmt::Formatter<'_>) -> fmt::Result {
        f.debug_struct("Book")
            .field("clusters", &self.clusters)
            .field("map", &Short(self.map.len()))
            .field("configs", &Short(self.configs.len()))
            .field("symbols", &Short(self.symbols.len()))
            .field("ready", &Short(self.ready.len()))
            .finish()
    }
}

/// How a prefix code prices a symbol that it lacks.
#[derive(Clone, Copy, Debug, PartialEq, Eq, Hash)]
pub enum Pricing {
    /// 15 bits.
    Lenient,
    /// +infinity: such a symbol can't be written. A cluster with no word at all was merely absent where the code was trained; its symbols cost 15 bits.
    Strict,
}

/// The prefix code of one cluster.
#[derive(Clone, Copy, Debug, PartialEq, Eq, Hash)]
pub struct PrefixCode<'a> {
    /// How long the word of each symbol is; 0 for a symbol without one. At most 128; symbols past the end have no word.
    pub depths: &'a [u8],
    /// The code has one symbol, whose word takes no bits.
    pub single_symbol: bool,
}

/// Lists of at most 128 numbers, one for each cluster, filled up with 0 and put together; none where they are not that.
fn put_together<'a, T: Copy + Default + 'a>(clusters: u32, lists: impl ExactSizeIterator<Item = &'a [T]>) -> Vec<T> {
    let mut all = Vec::with_capacity(SYMBOLS * lists.len());
    if u32::try_from(lists.len()) != Ok(clusters) {
        return all;
    }
    for list in lists {
        if list.len() > SYMBOLS {
            return Vec::new();
        }
        all.extend_from_slice(list);
        all.resize(all.len() + SYMBOLS - list.len(), T::default());
    }
    all
}

/// Makes a [`Book`] from a context map, configurations and prices.
///
/// From symbol prices:
///
/// ```
/// use rdoq::{BookBuilder, CONTEXTS, SYMBOLS};
///
/// // one cluster, split 4,2,0, and one bit for every symbol
/// let book = BookBuilder::new(vec![0; CONTEXTS], &[[4, 2, 0]])
///     .symbol_prices(vec![1.0; SYMBOLS])
///     .fill()?;
/// // 255 is symbol 31 with 5 extra bits
/// assert_eq!(book.token_bits(0, 255)?, 6.0);
/// # Ok::<(), rdoq::Refusal>(())
/// ```
///
/// From a prefix code:
///
/// ```
/// use rdoq::{BookBuilder, PrefixCode, Pricing, CONTEXTS};
///
/// let code = PrefixCode { depths: &[1, 2, 2], single_symbol: false };
/// let book = BookBuilder::new(vec![0; CONTEXTS], &[[4, 2, 0]])
///     .prefix_clusters(&[code], Pricing::Strict)?
///     .fill()?;
/// assert_eq!(book.token_bits(0, 2)?, 2.0);
/// assert_eq!(book.token_bits(0, 3)?, f32::INFINITY);
/// # Ok::<(), rdoq::Refusal>(())
/// ```
///
/// From an ANS code:
///
/// ```
/// use rdoq::{BookBuilder, CONTEXTS};
///
/// let book = BookBuilder::new(vec![0; CONTEXTS], &[[4, 2, 0]]).ans_clusters(&[&[2048, 1024, 1024]])?.fill()?;
/// assert_eq!([book.token_bits(0, 0)?, book.token_bits(0, 2)?, book.token_bits(0, 3)?], [1.0, 2.0, 15.0]);
/// # Ok::<(), rdoq::Refusal>(())
/// ```
#[derive(Clone)]
pub struct BookBuilder {
    clusters: u32,
    map: Vec<u8>,
    configs: Vec<u8>,
    symbols: Vec<f32>,
}

impl BookBuilder {
    /// `map` has the cluster of each of the 14,850 contexts. There is a cluster for each configuration: split exponent, msb in token, lsb in token.
    pub fn new(map: Vec<u8>, configs: &[[u8; 3]]) -> BookBuilder {
        let clusters = u32::try_from(configs.len()).unwrap_or(u32::MAX);
        BookBuilder { clusters, map, configs: configs.concat(), symbols: Vec::new() }
    }

    /// Prices the symbols: 128 for each cluster. +infinity is for a symbol that can't be written.
    pub fn symbol_prices(mut self, prices: Vec<f32>) -> BookBuilder {
        self.symbols = prices;
        self
    }

    /// Prices the symbols by a prefix code: 128 depths for each cluster, and a byte for each cluster that is not 0 where its code has a single symbol.
    /// A depth costs itself, or 0.0 where it is the only one; [`Pricing`] says what a depth of 0 costs. A cluster whose depths are all 0 costs 15 bits throughout.
    ///
    /// # Errors
    ///
    /// [`MapLength`](Refusal::MapLength) where the clusters are not 1 to 256, then [`BookLength`](Refusal::BookLength) where
    /// the depths are not 128 or the flags not 1 for each of them.
    pub fn prefix_code(mut self, depths: &[u8], singles: &[u8], pricing: Pricing) -> Result<BookBuilder, Refusal> {
        let mut symbols = vec![0.0; SYMBOLS * self.configs.len() / 3];
        // SAFETY: each pointer comes with the length of its slice; only `symbols` is written.
        answered(unsafe {
            ffi::rdoq_prefix_symbol_bits(
                self.clusters,
                depths.as_ptr(),
                depths.len(),
                singles.as_ptr(),
                singles.len(),
                pricing == Pricing::Strict,
                symbols.as_mut_ptr(),
                symbols.len(),
            )
        })?;
        self.symbols = symbols;
        Ok(self)
    }

    /// The same with one code for each cluster, its list of depths as long as it is.
    ///
    /// # Errors
    ///
    /// [`MapLength`](Refusal::MapLength) where the clusters are not 1 to 256, then [`BookLength`](Refusal::BookLength) where
    /// there is not one code for each, or one has more than 128 depths.
    pub fn prefix_clusters(self, codes: &[PrefixCode<'_>], pricing: Pricing) -> Result<BookBuilder, Refusal> {
        let depths = put_together(self.clusters, codes.iter().map(|code| code.depths));
        let singles: Vec<u8> = codes.iter().map(|code| u8::from(code.single_symbol)).collect();
        self.prefix_code(&depths, &singles, pricing)
    }

    /// Prices the symbols by an ANS code: 128 frequencies for each cluster, 4,096 being the whole. Frequency 0 costs 15 bits, any other 12 less its logarithm,
    /// by the original's routine on a float's bits. They need not add up to 4,096.
    ///
    /// # Errors
    ///
    /// [`MapLength`](Refusal::MapLength) where the clusters are not 1 to 256, then [`BookLength`](Refusal::BookLength) where
    /// the frequencies are not 128 for each of them, then [`Frequency`](Refusal::Frequency) where one is above 4,096.
    pub fn ans_code(mut self, freqs: &[u16]) -> Result<BookBuilder, Refusal> {
        let mut symbols = vec![0.0; SYMBOLS * self.configs.len() / 3];
        // SAFETY: each pointer comes with the length of its slice; only `symbols` is written.
        answered(unsafe {
            ffi::rdoq_ans_symbol_bits(self.clusters, freqs.as_ptr(), freqs.len(), symbols.as_mut_ptr(), symbols.len())
        })?;
        self.symbols = symbols;
        Ok(self)
    }

    /// The same with one list for each cluster, as long as it is: symbols past its end have frequency 0.
    ///
    /// # Errors
    ///
    /// [`MapLength`](Refusal::MapLength) where the clusters are not 1 to 256, then [`BookLength`](Refusal::BookLength) where
    /// there is not one list for each, or one has more than 128 frequencies, then [`Frequency`](Refusal::Frequency).
    pub fn ans_clusters(self, freqs: &[&[u16]]) -> Result<BookBuilder, Refusal> {
        let freqs = put_together(self.clusters, freqs.iter().copied());
        self.ans_code(&freqs)
    }

    /// Fills the ready prices. The book passes [`Book::check`].
    ///
    /// # Errors
    ///
    /// The first of [`MapLength`](Refusal::MapLength), [`BookLength`](Refusal::BookLength), [`MapEntry`](Refusal::MapEntry),
    /// [`Configuration`](Refusal::Configuration), [`SymbolPrice`](Refusal::SymbolPrice).
    pub fn fill(self) -> Result<Book, Refusal> {
        let BookBuilder { clusters, map, configs, symbols } = self;
        let mut ready = vec![0.0; READY * configs.len() / 3];
        // SAFETY: each pointer comes with the length of its slice; only `ready` is written.
        answered(unsafe {
            ffi::rdoq_fill_ready(
                clusters,
                map.as_ptr(),
                map.len(),
                configs.as_ptr(),
                configs.len(),
                symbols.as_ptr(),
                symbols.len(),
                ready.as_mut_ptr(),
                ready.len(),
            )
        })?;
        Ok(Book { clusters, map, configs, symbols, ready })
    }
}

impl fmt::Debug for BookBuilder {
    fn fmt(&self, f: &mut fmt::Formatter<'_>) -> fmt::Result {
        f.debug_struct("BookBuilder")
            .field("clusters", &self.clusters)
            .field("map", &Short(self.map.len()))
            .field("configs", &Short(self.configs.len()))
            .field("symbols", &Short(self.symbols.len()))
            .finish()
    }
}
