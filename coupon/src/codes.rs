//! Books: clusters of contexts, a static book for the first pass, and prefix and ANS codes made from a tally.
use crate::huffman;
use rdoq::{
    fine_block_context, fine_non_zero_context, fine_zero_density_contexts_offset, Book, BookBuilder, Config, PrefixCode, Pricing, Refusal, Tally,
    CONTEXTS, SYMBOLS,
};

/// Clusters of counts: two classes of channels by four ranges of the predicted count.
const COUNT_RANGES: usize = 4;
/// Clusters of levels: two classes of channels by the level before, by eight ranges of the context.
const LEVEL_RANGES: usize = 8;
/// All of them.
pub const CLUSTERS: usize = 2 * COUNT_RANGES + 2 * 2 * LEVEL_RANGES;
/// The coefficient contexts of a block context.
const LEVEL_CONTEXTS: usize = 458;

/// How values are split in every cluster.
pub const CONFIG: Config = Config { split_exponent: 4, msb_in_token: 2, lsb_in_token: 0 };
const CONFIGS: [[u8; 3]; CLUSTERS] = [[4, 2, 0]; CLUSTERS];

/// The cluster of each context. Contexts that this program never meets stay in cluster 0.
fn cluster_map() -> Result<Vec<u8>, Refusal> {
    let mut map = vec![0; CONTEXTS];
    for channel in 0..3 {
        let class = usize::from(channel != 1);
        for strategy in [0, 4, 5] {
            let block = fine_block_context(channel, strategy, false)?;
            for predicted in 0..64 {
                let range = [4, 12, 28].iter().filter(|&&from| predicted >= from).count();
                map[fine_non_zero_context(predicted, block)? as usize] = (COUNT_RANGES * class + range) as u8;
            }
            let offset = fine_zero_density_contexts_offset(block)? as usize;
            for context in 0..LEVEL_CONTEXTS {
                let (before, range) = (context % 2, context * LEVEL_RANGES / LEVEL_CONTEXTS);
                map[offset + context] = (2 * COUNT_RANGES + (2 * class + before) * LEVEL_RANGES + range) as u8;
            }
        }
    }
    Ok(map)
}

/// A book for a picture of which nothing is known: a symbol costs more the larger it is.
pub fn static_book() -> Result<Book, Refusal> {
    let prices = (0..CLUSTERS * SYMBOLS).map(|at| 1.0 + ((at % SYMBOLS + 1) as f32).log2()).collect();
    BookBuilder::new(cluster_map()?, &CONFIGS).symbol_prices(prices).fill()
}

/// The counts of one cluster of a tally.
fn uses(tally: &Tally, cluster: usize) -> &[u32] {
    &tally.counts()[SYMBOLS * cluster..SYMBOLS * (cluster + 1)]
}

/// The book of the prefix code that a tally asks for. A symbol that was not met costs 15 bits.
pub fn prefix_book(tally: &Tally) -> Result<Book, Refusal> {
    let depths: Vec<Vec<u8>> = (0..CLUSTERS).map(|cluster| huffman::lengths(uses(tally, cluster), 15)).collect();
    let codes: Vec<PrefixCode<'_>> = depths
        .iter()
        .map(|depths| PrefixCode { depths, single_symbol: depths.iter().filter(|&&depth| depth > 0).count() == 1 })
        .collect();
    BookBuilder::new(cluster_map()?, &CONFIGS).prefix_clusters(&codes, Pricing::Lenient)?.fill()
}

/// The book of the ANS code that a tally asks for.
pub fn ans_book(tally: &Tally) -> Result<Book, Refusal> {
    let freqs: Vec<Vec<u16>> = (0..CLUSTERS).map(|cluster| huffman::frequencies(uses(tally, cluster))).collect();
    let freqs: Vec<&[u16]> = freqs.iter().map(Vec::as_slice).collect();
    BookBuilder::new(cluster_map()?, &CONFIGS).ans_clusters(&freqs)?.fill()
}
