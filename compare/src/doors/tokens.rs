// A block's tokens as the Rust writes them, and their splits by the book's configurations.

use super::{fine_block_context, num_nonzero_except_dc, num_nonzero_except_llf, token_loop, Token};
use crate::data::{Block, Book};
use crate::entropy::token::{uint_encode_with_config, HybridUintConfig};

/// The tokens of a block, given its count of nonzero levels from scan position c on.
#[allow(dead_code)]
pub(crate) fn tokens(block: &Block, count: usize, out: &mut Vec<Token>) {
    let (c, size) = (block.covered(), block.levels.len());
    let context = fine_block_context(block.channel.into(), block.strategy, block.quant_class);
    out.clear();
    token_loop(context, block.predicted, count as i32, size, c, c.trailing_zeros() as usize, &block.scan, &block.levels, out);
}

/// The count as the Rust takes it, where the scan begins with the lowest frequencies.
#[allow(dead_code)]
pub(crate) fn count(block: &Block) -> usize {
    let (x, y) = (block.cx.max(block.cy) as usize, block.cx.min(block.cy) as usize);
    (if x * y == 1 { num_nonzero_except_dc(block.levels.first_chunk::<64>().unwrap()) } else { num_nonzero_except_llf(&block.levels, x, y) }) as usize
}

/// The configuration of each context's cluster.
#[allow(dead_code)]
pub(crate) fn configs(book: &Book) -> Vec<HybridUintConfig> {
    book.configs.chunks_exact(3).map(|x| HybridUintConfig { s: x[0].into(), m: x[1].into(), l: x[2].into() }).collect()
}

/// Symbol, number of extra bits, and extra bits.
#[allow(dead_code)]
pub(crate) fn split(map: &[u8], configs: &[HybridUintConfig], token: &Token) -> (u32, u32, u32) {
    uint_encode_with_config(token.value, configs[map[token.context as usize] as usize])
}
