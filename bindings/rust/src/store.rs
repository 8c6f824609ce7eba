use crate::ffi;
use crate::refusal::{answered, Refusal};
use crate::short::Short;
use alloc::{vec, vec::Vec};
use core::fmt;

/// The block numbers of a store: 0 to 1,023.
pub const STORE_RUNS: usize = 1_024;
/// The numbers of a store's record.
pub const STORE_RECORD: usize = 3_073;

/// A store of token runs, each under a block number below 1,024, in a room of fixed size.
///
/// It answers as a plain map from block number to tokens would: that is proved of the library, for any run of calls from an empty store. A token is one `u64`, kept as
/// it comes. Room of dropped and replaced runs is used again, with the live runs moved together where that is needed, so a put is refused only where the live tokens would
/// not fit. A refusal changes nothing.
///
/// ```
/// use rdoq::{Refusal, TokenStore};
///
/// let mut store = TokenStore::new(5);
/// store.put(7, &[1, 2, 3])?;
/// store.put(900, &[4, 5])?;
/// assert_eq!(store.put(8, &[6]), Err(Refusal::StoreFull));
/// store.put(7, &[9, 9, 9])?; // in place of the run there
/// store.drop(900)?;
/// store.put(8, &[6])?;
/// assert_eq!(store.get(7)?, [9, 9, 9]);
/// assert_eq!(store.get(900), Err(Refusal::NotHeld));
/// # Ok::<(), Refusal>(())
/// ```
#[derive(Clone, PartialEq, Eq)]
pub struct TokenStore {
    room: Vec<u64>,
    record: Vec<u64>,
}

impl TokenStore {
    /// An empty store for at most `tokens` live tokens.
    pub fn new(tokens: usize) -> TokenStore {
        TokenStore { room: vec![0; tokens], record: vec![0; STORE_RECORD] }
    }

    /// A store from room and record that somebody else kept. Nothing is checked here: each call does, and refuses a wrong record with [`Refusal::StoreRecord`].
    pub fn from_parts(room: Vec<u64>, record: Vec<u64>) -> TokenStore {
        TokenStore { room, record }
    }

    /// Holds the tokens under a block number, in place of a run already there.
    ///
    /// # Errors
    ///
    /// [`StoreRecord`](Refusal::StoreRecord) where the parts are no store's, [`BlockNumber`](Refusal::BlockNumber), then
    /// [`StoreFull`](Refusal::StoreFull) where the tokens of the other runs and these exceed the room.
    pub fn put(&mut self, block: u32, tokens: &[u64]) -> Result<(), Refusal> {
        let (room, record) = (&mut self.room, &mut self.record);
        // SAFETY: each pointer comes with the length of its slice, and the call stays within it; what it writes overlaps nothing else.
        answered(unsafe {
            ffi::rdoq_store_put(
                room.as_mut_ptr(),
                room.len(),
                record.as_mut_ptr(),
                record.len(),
                block,
                tokens.as_ptr(),
                tokens.len(),
            )
        })
    }

    /// Gives the room of a run back.
    ///
    /// # Errors
    ///
    /// The first of [`StoreRecord`](Refusal::StoreRecord), [`BlockNumber`](Refusal::BlockNumber), [`NotHeld`](Refusal::NotHeld).
    pub fn drop(&mut self, block: u32) -> Result<(), Refusal> {
        let (room, record) = (&self.room, &mut self.record);
        // SAFETY: as in `put`.
        answered(unsafe { ffi::rdoq_store_drop(room.as_ptr(), room.len(), record.as_mut_ptr(), record.len(), block) })
    }

    /// Copies a run to the front of `tokens`, changes nothing past it, and answers its length.
    ///
    /// # Errors
    ///
    /// The first of [`StoreRecord`](Refusal::StoreRecord), [`BlockNumber`](Refusal::BlockNumber), [`NotHeld`](Refusal::NotHeld),
    /// [`BufferShort`](Refusal::BufferShort).
    pub fn read(&self, block: u32, tokens: &mut [u64]) -> Result<usize, Refusal> {
        let (room, record) = (&self.room, &self.record);
        let mut length = 0;
        // SAFETY: as in `put`; `length` is this function's own.
        answered(unsafe {
            ffi::rdoq_store_read(
                room.as_ptr(),
                room.len(),
                record.as_ptr(),
                record.len(),
                block,
                tokens.as_mut_ptr(),
                tokens.len(),
                &mut length,
            )
        })?;
        Ok(length)
    }

    /// A run as a vector.
    ///
    /// # Errors
    ///
    /// The first of [`StoreRecord`](Refusal::StoreRecord), [`BlockNumber`](Refusal::BlockNumber), [`NotHeld`](Refusal::NotHeld).
    pub fn get(&self, block: u32) -> Result<Vec<u64>, Refusal> {
        let mut tokens = vec![0; self.run_len(block).unwrap_or(0)];
        let length = self.read(block, &mut tokens)?;
        tokens.truncate(length);
        Ok(tokens)
    }

    /// The length of the run under a block number, as the record says; `None` where there is none.
    pub fn run_len(&self, block: u32) -> Option<usize> {
        self.runs().find(|run| run[0] == u64::from(block)).map(|run| run[2].min(self.room.len() as u64) as usize)
    }

    /// The block numbers that are held, in the order in which their runs stand in the room.
    pub fn blocks(&self) -> Vec<u32> {
        self.runs().map(|run| run[0] as u32).collect()
    }

    /// The room: what it holds outside the runs is the store's affair.
    pub fn room(&self) -> &[u64] {
        &self.room
    }

    /// The record: the number of runs, then block number, start and length of each.
    pub fn record(&self) -> &[u64] {
        &self.record
    }

    /// Number, start and length of each run that the record says.
    fn runs(&self) -> impl Iterator<Item = &[u64]> {
        let count = self.record.first().copied().unwrap_or(0).min(STORE_RUNS as u64) as usize;
        self.record.get(1..).unwrap_or(&[]).chunks_exact(3).take(count)
    }
}

impl fmt::Debug for TokenStore {
    fn fmt(&self, f: &mut fmt::Formatter<'_>) -> fmt::Result {
        f.debug_struct("TokenStore")
            .field("runs", &self.runs().count())
            .field("room", &Short(self.room.len()))
            .field("record", &Short(self.record.len()))
            .finish()
    }
}
