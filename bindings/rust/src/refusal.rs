use core::fmt;

/// Why a call did not answer. Each refusal has the number that the library returns; [`Display`](fmt::Display) says what to mend.
///
/// ```
/// use rdoq::{pack_signed, Refusal};
///
/// let refusal = pack_signed(40_000).unwrap_err();
/// assert_eq!(refusal, Refusal::Domain);
/// assert_eq!(refusal.number(), 17);
/// println!("{refusal}");
/// ```
// refusals: rust, written by tools/refusals.py from docs/refusals.txt
#[derive(Clone, Copy, Debug, PartialEq, Eq, Hash)]
#[non_exhaustive]
#[repr(u8)]
pub enum Refusal {
    /// The map is not 14,850 bytes, or the clusters are not 1 to 256.
    MapLength = 1,
    /// Configurations are not 3 bytes a cluster, symbol prices not 128, ready prices not 256; of a prefix code: depths
    /// not 128, flags not 1; of an ANS code: frequencies not 128; of a tally: counts not 128.
    BookLength = 2,
    /// An entry of the map is not below the number of clusters.
    MapEntry = 3,
    /// A configuration (s, m, l) has s > 6 or m + l > s.
    Configuration = 4,
    /// A symbol price is NaN, below 0, or finite and above 1,024.
    SymbolPrice = 5,
    /// A ready price differs in its bits from symbol price plus extra bits.
    ReadyPrice = 6,
    /// A side of the block is not 1, 2, 4, 8, 16 or 32.
    BlockSide = 7,
    /// Levels, scan, source or inverse weights do not hold 64 numbers for each covered block; in a group's list: too
    /// few are left for the block.
    BlockLength = 8,
    /// The strategy code is above 26, or the channel above 2.
    Strategy = 9,
    /// Lambda lies outside 2^-20 to 2^20, penalty or channel weight outside 2^-10 to 2^10, distance outside 0 to 25,
    /// the bias `one` outside 0 to 2, one of these is NaN, or the bias numerator is not the f32 0.145.
    Settings = 10,
    /// The scan does not hold each index of the block once.
    Scan = 11,
    /// A level at scan position c or later, c being the covered blocks, lies outside -32,767 to 32,767.
    Level = 12,
    /// An ideal (source * inverse weight * scale) in the window is NaN or outside -32,767 to 32,767.
    Ideal = 13,
    /// The room is too small for the search.
    Room = 14,
    /// Every choice in the trellis's band needs a token of infinite price, or one for which there is no word for want
    /// of symbols.
    BandInfinite = 15,
    /// Every path that the beam kept ended at an infinite cost.
    PathsInfinite = 16,
    /// An argument lies outside the call's domain, no search has the number, or a group's list is not eight words and
    /// seven floats a block.
    Domain = 17,
    /// The product of the sides is not what ISO/IEC 18181-1 gives for the strategy code (1 for 0 to 3 and 12 to 17; 2
    /// for 6, 7; 4 for 4, 8, 9; 8 for 10, 11; 16 for 5; 32 for 19, 20; 64 for 18; 128 for 22, 23; 256 for 21; 512 for
    /// 25, 26; 1,024 for 24).
    Sides = 18,
    /// A frequency of an ANS code is above 4,096.
    Frequency = 19,
    /// A token's symbol is above 127, or in reading no value up to 131,071 splits into the symbol and the extra bits.
    TokenSplit = 20,
    /// The count of nonzero levels that is read is above 63 for each covered block.
    TokenCount = 21,
    /// The lists of symbols and extra bits differ in length, end early, or have tokens left over.
    TokenLists = 22,
    /// An output is shorter than the block's tokens.
    OutputShort = 23,
    /// A level at scan position c or later lies outside -32,768 to 32,768.
    TokenLevel = 24,
    /// More nonzero levels are owed than positions are left.
    LevelsOwed = 25,
    /// The half-width of the band is not 1 to 12.
    HalfWidth = 26,
    /// A count of a tally would pass 2^32 - 1, or its total of extra bits 2^64 - 1.
    TallyFull = 27,
    /// A count of a tally, or its total of extra bits, would fall below 0.
    TallyEmpty = 28,
    /// A listed block leaves the group of 32 by 32 cells.
    OutsideGroup = 29,
    /// Two listed blocks of a channel share a cell.
    Overlap = 30,
    /// A listed block comes before the cell left of its top left cell, or the one above, in its channel.
    NeighbourMissing = 31,
    /// More than two covered blocks are asked of the small product.
    NotSmall = 32,
    /// The block number of a store is not below 1,024.
    BlockNumber = 33,
    /// The live tokens of a store would exceed its room; a run that is replaced is not counted.
    StoreFull = 34,
    /// A store holds no run under the block number.
    NotHeld = 35,
    /// The reader's buffer is shorter than the run.
    BufferShort = 36,
    /// The record of a store is not 3,073 numbers, or says more than 1,024 runs, a run that starts before the one
    /// before it ends or ends past the room, or a number that is not below 1,024 or stands there twice.
    StoreRecord = 37,
    /// The library returned a code that this crate does not know: the two are not of one version. What the call wrote is not
    /// known either. No check has this number, so [`from_number`](Refusal::from_number) does not answer it.
    Unknown = 255,
}

const ALL: &[Refusal] = &[
    Refusal::MapLength,
    Refusal::BookLength,
    Refusal::MapEntry,
    Refusal::Configuration,
    Refusal::SymbolPrice,
    Refusal::ReadyPrice,
    Refusal::BlockSide,
    Refusal::BlockLength,
    Refusal::Strategy,
    Refusal::Settings,
    Refusal::Scan,
    Refusal::Level,
    Refusal::Ideal,
    Refusal::Room,
    Refusal::BandInfinite,
    Refusal::PathsInfinite,
    Refusal::Domain,
    Refusal::Sides,
    Refusal::Frequency,
    Refusal::TokenSplit,
    Refusal::TokenCount,
    Refusal::TokenLists,
    Refusal::OutputShort,
    Refusal::TokenLevel,
    Refusal::LevelsOwed,
    Refusal::HalfWidth,
    Refusal::TallyFull,
    Refusal::TallyEmpty,
    Refusal::OutsideGroup,
    Refusal::Overlap,
    Refusal::NeighbourMissing,
    Refusal::NotSmall,
    Refusal::BlockNumber,
    Refusal::StoreFull,
    Refusal::NotHeld,
    Refusal::BufferShort,
    Refusal::StoreRecord,
];

/// What is wrong, and what to mend.
fn text(refusal: Refusal) -> &'static str {
    match refusal {
        Refusal::MapLength => "the map is not 14,850 bytes, or the clusters are not 1 to 256: lend a byte for each context; name 1 to 256 clusters",
        Refusal::BookLength => "configurations are not 3 bytes a cluster, symbol prices not 128, ready prices not 256; of a prefix code: depths not 128, flags not 1; of an ANS code: frequencies not 128; of a tally: counts not 128: lend the exact lengths; surplus is refused too",
        Refusal::MapEntry => "an entry of the map is not below the number of clusters: mend the map, or name more clusters",
        Refusal::Configuration => "a configuration (s, m, l) has s > 6 or m + l > s: use a smaller one; 4,2,0 and 5,2,2 and 6,3,0 pass",
        Refusal::SymbolPrice => "a symbol price is NaN, below 0, or finite and above 1,024: use +infinity for a symbol that can't be written; -0.0 passes",
        Refusal::ReadyPrice => "a ready price differs in its bits from symbol price plus extra bits: fill the ready prices again after each change of a configuration or a symbol price; see to the floating-point mode",
        Refusal::BlockSide => "a side of the block is not 1, 2, 4, 8, 16 or 32: pass the sides in units of 8 samples",
        Refusal::BlockLength => "levels, scan, source or inverse weights do not hold 64 numbers for each covered block; in a group's list: too few are left for the block: lend the exact lengths",
        Refusal::Strategy => "the strategy code is above 26, or the channel above 2: pass the code of ISO/IEC 18181-1; channels are X = 0, Y = 1, B = 2",
        Refusal::Settings => "lambda lies outside 2^-20 to 2^20, penalty or channel weight outside 2^-10 to 2^10, distance outside 0 to 25, the bias `one` outside 0 to 2, one of these is NaN, or the bias numerator is not the f32 0.145: hold the settings within these bounds; explicit biases with another numerator are not covered",
        Refusal::Scan => "the scan does not hold each index of the block once: pass the scan order of this strategy",
        Refusal::Level => "a level at scan position c or later, c being the covered blocks, lies outside -32,767 to 32,767: quantise more coarsely",
        Refusal::Ideal => "an ideal (source * inverse weight * scale) in the window is NaN or outside -32,767 to 32,767: look for a failed transform or a wrong scale; keep the block as it is, or mend its coefficients",
        Refusal::Room => "the room is too small for the search: `Room::new` serves every block and half-width",
        Refusal::BandInfinite => "every choice in the trellis's band needs a token of infinite price, or one for which there is no word for want of symbols: give finite prices to the symbols that the block needs, use a configuration with symbols for its values and its count, or keep the block as it is",
        Refusal::PathsInfinite => "every path that the beam kept ended at an infinite cost: give finite prices to the symbols that the block needs, or try the trellis, which may still find a choice",
        Refusal::Domain => "an argument lies outside the call's domain, no search has the number, or a group's list is not eight words and seven floats a block: see what is said over the call; of a price call also a length, or an entry that it reads",
        Refusal::Sides => "the product of the sides is not what ISO/IEC 18181-1 gives for the strategy code (1 for 0 to 3 and 12 to 17; 2 for 6, 7; 4 for 4, 8, 9; 8 for 10, 11; 16 for 5; 32 for 19, 20; 64 for 18; 128 for 22, 23; 256 for 21; 512 for 25, 26; 1,024 for 24): pass the strategy and the sides of one block; which side is the longer does not matter",
        Refusal::Frequency => "a frequency of an ANS code is above 4,096: scale the frequencies so that 4,096 is the whole",
        Refusal::TokenSplit => "a token's symbol is above 127, or in reading no value up to 131,071 splits into the symbol and the extra bits: use a configuration with symbols for the block's values",
        Refusal::TokenCount => "the count of nonzero levels that is read is above 63 for each covered block: look for damaged tokens, or for those of another block",
        Refusal::TokenLists => "the lists of symbols and extra bits differ in length, end early, or have tokens left over: lend the tokens of exactly one block",
        Refusal::OutputShort => "an output is shorter than the block's tokens: lend 63 for each covered block and one",
        Refusal::TokenLevel => "a level at scan position c or later lies outside -32,768 to 32,768: quantise more coarsely; in reading, look for damaged tokens",
        Refusal::LevelsOwed => "more nonzero levels are owed than positions are left: look for damaged tokens, or for those of another block",
        Refusal::HalfWidth => "the half-width of the band is not 1 to 12: use 6 where nothing else is known",
        Refusal::TallyFull => "a count of a tally would pass 2^32 - 1, or its total of extra bits 2^64 - 1: begin a new tally",
        Refusal::TallyEmpty => "a count of a tally, or its total of extra bits, would fall below 0: take out only tokens that were added, under the same map and configurations",
        Refusal::OutsideGroup => "a listed block leaves the group of 32 by 32 cells: list blocks that lie in the group",
        Refusal::Overlap => "two listed blocks of a channel share a cell: list each cell of a channel once",
        Refusal::NeighbourMissing => "a listed block comes before the cell left of its top left cell, or the one above, in its channel: list the blocks of a channel from the top left on",
        Refusal::NotSmall => "more than two covered blocks are asked of the small product: call `rdoq_block`",
        Refusal::BlockNumber => "the block number of a store is not below 1,024: number the blocks of a store from 0",
        Refusal::StoreFull => "the live tokens of a store would exceed its room; a run that is replaced is not counted: drop runs, or start a store with more room",
        Refusal::NotHeld => "a store holds no run under the block number: put one first",
        Refusal::BufferShort => "the reader's buffer is shorter than the run: lend as many tokens as `TokenStore::run_len` says",
        Refusal::StoreRecord => "the record of a store is not 3,073 numbers, or says more than 1,024 runs, a run that starts before the one before it ends or ends past the room, or a number that is not below 1,024 or stands there twice: hand room and record on as the last call left them; all 0 is an empty store",
        Refusal::Unknown => {
            "the library returned a code that this crate does not know: take librdoq_c.a and the crate from one version"
        }
    }
}
// refusals: end

impl Refusal {
    /// The number that the library returns for it; 255 for [`Unknown`](Refusal::Unknown).
    pub fn number(self) -> u8 {
        self as u8
    }

    /// The refusal with this number, if there is one.
    pub fn from_number(number: u8) -> Option<Refusal> {
        ALL.iter().copied().find(|r| r.number() == number)
    }
}

impl fmt::Display for Refusal {
    fn fmt(&self, f: &mut fmt::Formatter<'_>) -> fmt::Result {
        write!(f, "refusal {}: {}", self.number(), text(*self))
    }
}

#[cfg(feature = "std")]
impl std::error::Error for Refusal {}

/// A code of the library as a result.
pub(crate) fn answered(code: u32) -> Result<(), Refusal> {
    match code {
        0 => Ok(()),
        _ => Err(u8::try_from(code).ok().and_then(Refusal::from_number).unwrap_or(Refusal::Unknown)),
    }
}

#[cfg(test)]
mod tests {
    use super::{answered, Refusal, ALL};
    use alloc::string::ToString;

    #[test]
    fn a_code_that_is_not_known_is_an_error() {
        assert_eq!(answered(0), Ok(()));
        for &refusal in ALL {
            assert_eq!(answered(u32::from(refusal.number())), Err(refusal));
        }
        // 257 and 274 are those whose lowest byte is a refusal's
        for code in [38, 254, 255, 256, 257, 274, u32::MAX] {
            assert_eq!(answered(code), Err(Refusal::Unknown), "{code}");
        }
        assert!(Refusal::Unknown.to_string().starts_with("refusal 255: "));
    }
}
