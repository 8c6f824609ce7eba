// The searches of trellis.rs, as `rdoq_block` dispatches them; and the unfactored walk, which the Rust keeps for its tests, called as it calls the other.

use crate::data::{Block, Search};

#[derive(Default)]
pub(crate) struct Scratch(super::RdoqScratch);

impl Scratch {
    /// True where nothing of a search is left in it.
    pub(crate) fn is_clear(&self) -> bool {
        let costs = self.0.costs.iter().flat_map(|rows| rows.iter().flatten());
        self.0.choices.iter().all(|&x| x == u8::MAX) && costs.into_iter().all(|&x| x == f32::INFINITY)
    }
}

/// Runs one search on `levels`, which starts as the block's own.
pub(crate) fn run(
    search: Search,
    block: &Block,
    prices: &super::FrozenTokenPrices,
    levels: &mut [i32],
    scratch: &mut Scratch,
) {
    let search = match search {
        Search::Greedy => super::RdoqSearch::Greedy,
        Search::Beam => super::RdoqSearch::Beam,
        Search::Trellis => super::RdoqSearch::Trellis,
        Search::Unfactored => return unfactored(block, prices, levels, &mut scratch.0),
    };
    super::rdoq_block(
        block.channel_weight,
        prices,
        &block.scan,
        &block.source,
        &block.inverse,
        block.scale,
        levels,
        block.strategy,
        block.strategy,
        block.channel as usize,
        super::super::door::bias(block.one),
        block.predicted,
        block.cx as usize,
        block.cy as usize,
        block.distance,
        block.quant_class,
        block.lambda,
        block.penalty,
        search,
        &mut scratch.0,
    );
}

fn unfactored(block: &Block, prices: &super::FrozenTokenPrices, levels: &mut [i32], scratch: &mut super::RdoqScratch) {
    let (window_cap, _) = super::rdoq_window_len(block.covered());
    banded(false, window_cap, block, prices, levels, scratch);
}

/// The trellis by either walk, called as `rdoq_block` calls the factored one.
fn banded(
    factored: bool,
    window_cap: usize,
    block: &Block,
    prices: &super::FrozenTokenPrices,
    levels: &mut [i32],
    scratch: &mut super::RdoqScratch,
) {
    let (_, restore_len) = super::rdoq_window_len(block.covered());
    let walk = match (factored, block.covered() == 1) {
        (true, true) => super::rdoq_block_banded::<true, true>,
        (true, false) => super::rdoq_block_banded::<true, false>,
        (false, true) => super::rdoq_block_banded::<false, true>,
        (false, false) => super::rdoq_block_banded::<false, false>,
    };
    let (choices, costs) = scratch.trellis(window_cap);
    walk(
        block.channel_weight,
        window_cap,
        restore_len,
        window_cap <= 64 && !crate::dc_group_data::is_128_strategy(block.strategy),
        prices,
        &block.scan,
        &block.source,
        &block.inverse,
        block.scale,
        levels,
        block.strategy,
        block.channel as usize,
        super::super::door::bias(block.one),
        block.predicted,
        block.cx as usize,
        block.cy as usize,
        block.distance,
        block.quant_class,
        block.lambda,
        block.penalty,
        choices,
        costs,
    );
}

/// One search with this `window_cap`, called as `rdoq_block` calls it with its own.
fn run_under(
    window_cap: usize,
    search: Search,
    block: &Block,
    prices: &super::FrozenTokenPrices,
    levels: &mut [i32],
    scratch: &mut Scratch,
) {
    let (_, restore_len) = super::rdoq_window_len(block.covered());
    let (channel, bias) = (block.channel as usize, super::super::door::bias(block.one));
    let (cx, cy) = (block.cx as usize, block.cy as usize);
    match search {
        Search::Greedy => super::rdoq_block_greedy(
            block.channel_weight,
            window_cap,
            restore_len,
            prices,
            &block.scan,
            &block.source,
            &block.inverse,
            block.scale,
            levels,
            block.strategy,
            channel,
            bias,
            block.predicted,
            cx,
            cy,
            block.distance,
            block.quant_class,
            block.lambda,
            block.penalty,
        ),
        Search::Beam => super::rdoq_block_beam::<{ super::RDOQ_BEAM_WIDTH }>(
            block.channel_weight,
            window_cap,
            restore_len,
            prices,
            &block.scan,
            &block.source,
            &block.inverse,
            block.scale,
            levels,
            block.strategy,
            channel,
            bias,
            block.predicted,
            cx,
            cy,
            block.distance,
            block.quant_class,
            block.lambda,
            block.penalty,
            scratch.0.choices(window_cap * (2 * super::RDOQ_BEAM_WIDTH)),
        ),
        Search::Trellis => banded(true, window_cap, block, prices, levels, &mut scratch.0),
        Search::Unfactored => banded(false, window_cap, block, prices, levels, &mut scratch.0),
    }
}

/// The searches with a scratch of their own, which each leaves to the next.
pub(crate) type Runner = Box<dyn FnMut(Search, &Block, &super::FrozenTokenPrices, &mut [i32])>;

/// With the Rust's own window where the cap cuts nothing of it.
pub(crate) fn runner(cap: usize) -> Runner {
    let mut scratch = Scratch::default();
    Box::new(move |search, block, prices, levels| {
        if cap < super::rdoq_window_len(block.covered()).0 {
            run_under(cap, search, block, prices, levels, &mut scratch)
        } else {
            run(search, block, prices, levels, &mut scratch)
        }
    })
}

/// The leaves of trellis.rs.
pub(crate) fn candidates(ideal: f32, current: i32, restore: bool) -> ([i32; 5], usize) {
    super::rdoq_candidates(ideal, current, restore)
}

pub(crate) fn distortion_weight(index: usize, length: usize, distance: f32) -> f32 {
    super::rdoq_distortion_weight(index, length, distance)
}

pub(crate) fn window_len(covered: usize) -> (usize, usize) {
    super::rdoq_window_len(covered)
}
