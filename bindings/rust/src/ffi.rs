//! The functions of `include/rdoq.h`. A slice goes over as a pointer and a length.
use core::ffi::c_float;

extern "C" {
    pub fn rdoq_version() -> u32;
    pub fn rdoq_check_book(
        clusters: u32, map: *const u8, map_len: usize, configs: *const u8, configs_len: usize, symbols: *const c_float,
        symbols_len: usize, ready: *const c_float, ready_len: usize,
    ) -> u32;
    pub fn rdoq_fill_ready(
        clusters: u32, map: *const u8, map_len: usize, configs: *const u8, configs_len: usize, symbols: *const c_float,
        symbols_len: usize, ready: *mut c_float, ready_len: usize,
    ) -> u32;
    pub fn rdoq_prefix_symbol_bits(
        clusters: u32, depths: *const u8, depths_len: usize, singles: *const u8, singles_len: usize, strict: bool,
        symbols: *mut c_float, symbols_len: usize,
    ) -> u32;
    pub fn rdoq_ans_symbol_bits(
        clusters: u32, freqs: *const u16, freqs_len: usize, symbols: *mut c_float, symbols_len: usize,
    ) -> u32;
    pub fn rdoq_token_bits(
        clusters: u32, map: *const u8, map_len: usize, configs: *const u8, configs_len: usize, symbols: *const c_float,
        symbols_len: usize, ready: *const c_float, ready_len: usize, context: u32, value: u32, bits: *mut c_float,
    ) -> u32;
    pub fn rdoq_token_bits_pair(
        clusters: u32, map: *const u8, map_len: usize, configs: *const u8, configs_len: usize, symbols: *const c_float,
        symbols_len: usize, ready: *const c_float, ready_len: usize, context: u32, value: u32, first: *mut c_float,
        second: *mut c_float,
    ) -> u32;
    pub fn rdoq_block(
        search: u32, clusters: u32, map: *const u8, map_len: usize, configs: *const u8, configs_len: usize,
        symbols: *const c_float, symbols_len: usize, ready: *const c_float, ready_len: usize, cx: u32, cy: u32, strategy: u8,
        channel: u8, qf_hi: bool, predicted: u8, channel_weight: c_float, lambda: c_float, penalty: c_float, distance: c_float,
        half_width: u32, one: c_float, numerator: c_float, scale: c_float, scan: *const u32, scan_len: usize,
        source: *const c_float, source_len: usize, inv_qm: *const c_float, inv_qm_len: usize, levels: *mut i32, levels_len: usize,
        choices: *mut u8, choices_len: usize, row_a: *mut c_float, row_a_len: usize, row_b: *mut c_float, row_b_len: usize,
        cost: *mut c_float, count: *mut u32,
    ) -> u32;
    pub fn rdoq_input_cost(
        clusters: u32, map: *const u8, map_len: usize, configs: *const u8, configs_len: usize, symbols: *const c_float,
        symbols_len: usize, ready: *const c_float, ready_len: usize, cx: u32, cy: u32, strategy: u8, channel: u8, qf_hi: bool,
        predicted: u8, channel_weight: c_float, lambda: c_float, penalty: c_float, distance: c_float, one: c_float,
        numerator: c_float, scale: c_float, scan: *const u32, scan_len: usize, source: *const c_float, source_len: usize,
        inv_qm: *const c_float, inv_qm_len: usize, levels: *const i32, levels_len: usize, cost: *mut c_float, count: *mut u32,
    ) -> u32;
    pub fn rdoq_small_block(
        search: u32, clusters: u32, map: *const u8, map_len: usize, configs: *const u8, configs_len: usize,
        symbols: *const c_float, symbols_len: usize, ready: *const c_float, ready_len: usize, cx: u32, cy: u32, strategy: u8,
        channel: u8, qf_hi: bool, predicted: u8, channel_weight: c_float, lambda: c_float, penalty: c_float, distance: c_float,
        one: c_float, numerator: c_float, scale: c_float, scan: *const u32, scan_len: usize, source: *const c_float,
        source_len: usize, inv_qm: *const c_float, inv_qm_len: usize, levels: *mut i32, levels_len: usize, choices: *mut u8,
        choices_len: usize, row_a: *mut c_float, row_a_len: usize, row_b: *mut c_float, row_b_len: usize, cost: *mut c_float,
        count: *mut u32,
    ) -> u32;
    pub fn rdoq_group(
        search: u32, clusters: u32, map: *const u8, map_len: usize, configs: *const u8, configs_len: usize,
        symbols: *const c_float, symbols_len: usize, ready: *const c_float, ready_len: usize, blocks: *const u32,
        blocks_len: usize, settings: *const c_float, settings_len: usize, scans: *const u32, scans_len: usize,
        sources: *const c_float, sources_len: usize, inv_qms: *const c_float, inv_qms_len: usize, levels: *mut i32,
        levels_len: usize, choices: *mut u8, choices_len: usize, row_a: *mut c_float, row_a_len: usize, row_b: *mut c_float,
        row_b_len: usize, settled: *mut u32,
    ) -> u32;
    pub fn rdoq_store_put(
        room: *mut u64, room_len: usize, record: *mut u64, record_len: usize, block: u32, tokens: *const u64, tokens_len: usize,
    ) -> u32;
    pub fn rdoq_store_drop(room: *const u64, room_len: usize, record: *mut u64, record_len: usize, block: u32) -> u32;
    pub fn rdoq_store_read(
        room: *const u64, room_len: usize, record: *const u64, record_len: usize, block: u32, tokens: *mut u64, tokens_len: usize,
        length: *mut usize,
    ) -> u32;
    pub fn rdoq_pack_signed(level: i32, packed: *mut u32) -> u32;
    pub fn rdoq_uint_encode_with_config(
        value: u32, split_exponent: u32, msb_in_token: u32, lsb_in_token: u32, symbol: *mut u32, extra_bits: *mut u32,
        bits: *mut u32,
    ) -> u32;
    pub fn rdoq_fine_block_context(channel: u32, strategy: u32, qf_hi: bool, context: *mut u32) -> u32;
    pub fn rdoq_fine_non_zero_context(non_zeros: u32, fine_block_ctx: u32, context: *mut u32) -> u32;
    pub fn rdoq_fine_zero_density_contexts_offset(fine_block_ctx: u32, offset: *mut u32) -> u32;
    pub fn rdoq_zero_density_context(nonzeros_left: u32, k: u32, covered_blocks: u32, prev: u32, context: *mut u32) -> u32;
    pub fn rdoq_zero_density_context_8x8(nonzeros_left: u32, k: u32, prev: u32, context: *mut u32) -> u32;
    pub fn rdoq_level(one: c_float, numerator: c_float, quant: i32, level: *mut c_float) -> u32;
    pub fn rdoq_lambda(rd: c_float, tuning: c_float, ratio: c_float, lambda: *mut c_float) -> u32;
    pub fn rdoq_chroma_rdoq_weight(distance: c_float, weight: *mut c_float) -> u32;
    pub fn rdoq_distortion_weight(window_index: u32, window_len: u32, distance: c_float, weight: *mut c_float) -> u32;
    pub fn rdoq_candidates(
        ideal: c_float, current: i32, restore: bool, levels: *mut i32, levels_len: usize, count: *mut u32,
    ) -> u32;
    pub fn rdoq_window_len(covered_blocks: u32, length: *mut usize, restoring: *mut usize) -> u32;
    pub fn rdoq_write_tokens(
        clusters: u32, map: *const u8, map_len: usize, configs: *const u8, configs_len: usize, cx: u32, cy: u32, strategy: u8,
        channel: u8, qf_hi: bool, predicted: u8, scan: *const u32, scan_len: usize, levels: *const i32, levels_len: usize,
        contexts: *mut u32, contexts_len: usize, symbols: *mut u32, symbols_len: usize, extra_bits: *mut u32,
        extra_bits_len: usize, bits: *mut u32, bits_len: usize, count: *mut u32,
    ) -> u32;
    pub fn rdoq_read_tokens(
        clusters: u32, map: *const u8, map_len: usize, configs: *const u8, configs_len: usize, cx: u32, cy: u32, strategy: u8,
        channel: u8, qf_hi: bool, predicted: u8, scan: *const u32, scan_len: usize, symbols: *const u32, symbols_len: usize,
        bits: *const u32, bits_len: usize, levels: *mut i32, levels_len: usize, count: *mut u32,
    ) -> u32;
    pub fn rdoq_tally_add(
        clusters: u32, map: *const u8, map_len: usize, configs: *const u8, configs_len: usize, contexts: *const u32,
        contexts_len: usize, values: *const u32, values_len: usize, counts: *mut u32, counts_len: usize, extra: *mut u64,
    ) -> u32;
    pub fn rdoq_tally_remove(
        clusters: u32, map: *const u8, map_len: usize, configs: *const u8, configs_len: usize, contexts: *const u32,
        contexts_len: usize, values: *const u32, values_len: usize, counts: *mut u32, counts_len: usize, extra: *mut u64,
    ) -> u32;
}

/// `rdoq_tally_add` and `rdoq_tally_remove`.
pub type TallyCall = unsafe extern "C" fn(
    u32,
    *const u8,
    usize,
    *const u8,
    usize,
    *const u32,
    usize,
    *const u32,
    usize,
    *mut u32,
    usize,
    *mut u64,
) -> u32;
