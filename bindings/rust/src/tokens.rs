use crate::book::Book;
use crate::ffi;
use crate::refusal::{answered, Refusal};
use crate::search::Shape;
use crate::short::Short;
use alloc::vec::Vec;
use core::fmt;

/// A token as an entropy coder takes it.
#[derive(Clone, Copy, Debug, Default, PartialEq, Eq, Hash)]
pub struct Token {
    /// The context, below 14,850; the book's map gives its cluster.
    pub context: u32,
    /// The symbol, at most 127, to be coded in that cluster.
    pub symbol: u32,
    /// How many extra bits follow the symbol.
    pub extra_bits: u32,
    /// The extra bits, as a number.
    pub bits: u32,
}

/// The tokens of a block: the count of nonzero levels from scan position c on, then each level from there until nothing remains.
///
/// Of the book only the map and the configurations matter. [`read_tokens`] turns the tokens back into the levels.
///
/// ```no_run
/// # fn main() -> Result<(), rdoq::Refusal> {
/// use rdoq::{read_tokens, write_tokens, BookBuilder, Shape, CONTEXTS, SYMBOLS};
/// let book = BookBuilder::new(vec![0; CONTEXTS], &[[4, 2, 0]]).symbol_prices(vec![1.0; SYMBOLS]).fill()?;
/// let shape = Shape { cx: 1, cy: 1, strategy: 0, channel: 1, qf_hi: false, predicted: 0 };
/// let scan: Vec<u32> = (0..64).collect();
/// let mut levels = [0; 64];
/// levels[3] = -2;
/// let tokens = write_tokens(&book, shape, &scan, &levels)?;
/// assert_eq!(tokens.iter().map(|token| token.symbol).collect::<Vec<_>>(), [1, 0, 0, 3]);
/// let mut restored = [7; 64];
/// assert_eq!(read_tokens(&book, shape, &scan, &tokens, &mut restored)?, 4);
/// assert_eq!(restored[1..], levels[1..]);
/// # Ok(())
/// # }
/// ```
///
/// # Errors
///
/// As [`TokenBuffer::write`].
pub fn write_tokens(book: &Book, shape: Shape, scan: &[u32], levels: &[i32]) -> Result<Vec<Token>, Refusal> {
    let mut buffer = TokenBuffer::new();
    buffer.write(book, shape, scan, levels)?;
    Ok(buffer.tokens().collect())
}

/// Restores the levels of a block from its tokens: those from scan position c on, 0 past the last token; the first c stay. Answers the number of tokens. Symbols and extra
/// bits alone are read. What is accepted, [`write_tokens`] gives again.
///
/// # Errors
///
/// As [`TokenBuffer::read`]. No level changes then.
pub fn read_tokens(book: &Book, shape: Shape, scan: &[u32], tokens: &[Token], levels: &mut [i32]) -> Result<usize, Refusal> {
    let symbols: Vec<u32> = tokens.iter().map(|token| token.symbol).collect();
    let bits: Vec<u32> = tokens.iter().map(|token| token.bits).collect();
    read_lists(book, shape, scan, &symbols, &bits, levels)
}

/// Room for a block's tokens, used again by each writing: it allocates only where a block is larger than those before it.
#[derive(Clone, Default, PartialEq, Eq)]
pub struct TokenBuffer {
    contexts: Vec<u32>,
    symbols: Vec<u32>,
    extra_bits: Vec<u32>,
    bits: Vec<u32>,
    count: usize,
}

impl TokenBuffer {
    /// Room for nothing yet.
    pub fn new() -> TokenBuffer {
        TokenBuffer::default()
    }

    /// How many tokens it holds.
    pub fn len(&self) -> usize {
        self.count
    }

    /// Whether it holds none. A block has at least one: its count.
    pub fn is_empty(&self) -> bool {
        self.count == 0
    }

    /// The context of each token.
    pub fn contexts(&self) -> &[u32] {
        &self.contexts[..self.count]
    }

    /// The symbol of each token.
    pub fn symbols(&self) -> &[u32] {
        &self.symbols[..self.count]
    }

    /// The number of extra bits of each token.
    pub fn extra_bits(&self) -> &[u32] {
        &self.extra_bits[..self.count]
    }

    /// The extra bits of each token.
    pub fn bits(&self) -> &[u32] {
        &self.bits[..self.count]
    }

    /// The tokens.
    pub fn tokens(&self) -> impl ExactSizeIterator<Item = Token> + '_ {
        (0..self.count).map(|i| Token { context: self.contexts[i], symbol: self.symbols[i], extra_bits: self.extra_bits[i], bits: self.bits[i] })
    }

    /// Writes the tokens of a block in place of those that it holds, and answers their number, at most 63c + 1. A refusal leaves it empty.
    ///
    /// # Errors
    ///
    /// In this order: refusals of the book's code, [`MapLength`](Refusal::MapLength) to [`Configuration`](Refusal::Configuration), which a filled [`Book`] never
    /// gets; [`BlockSide`](Refusal::BlockSide); [`BlockLength`](Refusal::BlockLength) of levels and scan; [`Strategy`](Refusal::Strategy);
    /// [`Sides`](Refusal::Sides); [`Scan`](Refusal::Scan); [`TokenLevel`](Refusal::TokenLevel) where a level from scan position c on lies beyond ±32,768;
    /// [`TokenSplit`](Refusal::TokenSplit) where a value has no symbol up to 127 in its cluster.
    pub fn write(&mut self, book: &Book, shape: Shape, scan: &[u32], levels: &[i32]) -> Result<usize, Refusal> {
        self.count = 0;
        // The levels that a block of the right length has, and the count. Another length is refused before the room is asked for.
        let most = levels.len() + 1;
        for list in [&mut self.contexts, &mut self.symbols, &mut self.extra_bits, &mut self.bits] {
            if list.len() < most {
                list.resize(most, 0);
            }
        }
        let (clusters, map, configs) = book.code();
        let mut count = 0;
        // SAFETY: each pointer comes with the length of its slice; the outputs are this buffer's own.
        answered(unsafe {
            ffi::rdoq_write_tokens(
                clusters,
                map.as_ptr(),
                map.len(),
                configs.as_ptr(),
                configs.len(),
                shape.cx,
                shape.cy,
                shape.strategy,
                shape.channel,
                shape.qf_hi,
                shape.predicted,
                scan.as_ptr(),
                scan.len(),
                levels.as_ptr(),
                levels.len(),
                self.contexts.as_mut_ptr(),
                self.contexts.len(),
                self.symbols.as_mut_ptr(),
                self.symbols.len(),
                self.extra_bits.as_mut_ptr(),
                self.extra_bits.len(),
                self.bits.as_mut_ptr(),
                self.bits.len(),
                &mut count,
            )
        })?;
        self.count = count as usize;
        Ok(self.count)
    }

    /// Restores the levels of a block from the tokens that it holds, as [`read_tokens`] does.
    ///
    /// # Errors
    ///
    /// In this order: as [`write`](TokenBuffer::write) up to [`Scan`](Refusal::Scan); [`TokenLists`](Refusal::TokenLists) where there is no count,
    /// [`TokenSplit`](Refusal::TokenSplit) where it is no value's pair, [`TokenCount`](Refusal::TokenCount) where it is above 63c; while levels are owed
    /// [`LevelsOwed`](Refusal::LevelsOwed), [`TokenLists`](Refusal::TokenLists), [`TokenSplit`](Refusal::TokenSplit), [`TokenLevel`](Refusal::TokenLevel);
    /// [`TokenLists`](Refusal::TokenLists) where tokens are left over. No level changes then.
    pub fn read(&self, book: &Book, shape: Shape, scan: &[u32], levels: &mut [i32]) -> Result<usize, Refusal> {
        read_lists(book, shape, scan, self.symbols(), self.bits(), levels)
    }
}

impl fmt::Debug for TokenBuffer {
    fn fmt(&self, f: &mut fmt::Formatter<'_>) -> fmt::Result {
        f.debug_struct("TokenBuffer").field("tokens", &Short(self.count)).finish()
    }
}

/// Restores the levels of a block from two lists, symbols and extra bits, as [`read_tokens`] does.
///
/// # Errors
///
/// As [`TokenBuffer::read`], and [`TokenLists`](Refusal::TokenLists) before the count where the lists differ in length.
pub fn read_lists(book: &Book, shape: Shape, scan: &[u32], symbols: &[u32], bits: &[u32], levels: &mut [i32]) -> Result<usize, Refusal> {
    let (clusters, map, configs) = book.code();
    let mut count = 0;
    // SAFETY: each pointer comes with the length of its slice, and the levels are borrowed for this call alone.
    answered(unsafe {
        ffi::rdoq_read_tokens(
            clusters,
            map.as_ptr(),
            map.len(),
            configs.as_ptr(),
            configs.len(),
            shape.cx,
            shape.cy,
            shape.strategy,
            shape.channel,
            shape.qf_hi,
            shape.predicted,
            scan.as_ptr(),
            scan.len(),
            symbols.as_ptr(),
            symbols.len(),
            bits.as_ptr(),
            bits.len(),
            levels.as_mut_ptr(),
            levels.len(),
            &mut count,
        )
    })?;
    Ok(count as usize)
}
