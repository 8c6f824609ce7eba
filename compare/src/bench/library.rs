//! The calls of the static library that are measured.

use crate::data::{Block, Book, Search};

#[link(name = "rdoq_c", kind = "static")]
extern "C" {
    fn rdoq_check_book(
        clusters: u32, map: *const u8, map_len: usize, configs: *const u8, configs_len: usize, symbols: *const f32, symbols_len: usize,
        ready: *const f32, ready_len: usize,
    ) -> u32;
    fn rdoq_block(
        search: u32, clusters: u32, map: *const u8, map_len: usize, configs: *const u8, configs_len: usize, symbols: *const f32,
        symbols_len: usize, ready: *const f32, ready_len: usize, cx: u32, cy: u32, strategy: u8, channel: u8, qf_hi: bool, predicted: u8,
        channel_weight: f32, lambda: f32, penalty: f32, distance: f32, half_width: u32, one: f32, numerator: f32, scale: f32,
        scan: *const u32, scan_len: usize, source: *const f32, source_len: usize, inv_qm: *const f32, inv_qm_len: usize, levels: *mut i32, levels_len: usize,
        choices: *mut u8, choices_len: usize, row_a: *mut f32, row_a_len: usize, row_b: *mut f32, row_b_len: usize, cost: *mut f32,
        count: *mut u32,
    ) -> u32;
    fn rdoq_small_block(
        search: u32, clusters: u32, map: *const u8, map_len: usize, configs: *const u8, configs_len: usize, symbols: *const f32,
        symbols_len: usize, ready: *const f32, ready_len: usize, cx: u32, cy: u32, strategy: u8, channel: u8, qf_hi: bool, predicted: u8,
        channel_weight: f32, lambda: f32, penalty: f32, distance: f32, one: f32, numerator: f32, scale: f32, scan: *const u32,
        scan_len: usize, source: *const f32, source_len: usize, inv_qm: *const f32, inv_qm_len: usize, levels: *mut i32, levels_len: usize,
        choices: *mut u8, choices_len: usize, row_a: *mut f32, row_a_len: usize, row_b: *mut f32, row_b_len: usize, cost: *mut f32,
        count: *mut u32,
    ) -> u32;
    fn rdoq_group(
        search: u32, clusters: u32, map: *const u8, map_len: usize, configs: *const u8, configs_len: usize, symbols: *const f32,
        symbols_len: usize, ready: *const f32, ready_len: usize, blocks: *const u32, blocks_len: usize, settings: *const f32,
        settings_len: usize, scans: *const u32, scans_len: usize, sources: *const f32, sources_len: usize, inv_qms: *const f32,
        inv_qms_len: usize, levels: *mut i32, levels_len: usize, choices: *mut u8, choices_len: usize, row_a: *mut f32, row_a_len: usize,
        row_b: *mut f32, row_b_len: usize, settled: *mut u32,
    ) -> u32;
    fn rdoq_ans_symbol_bits(clusters: u32, freqs: *const u16, freqs_len: usize, symbols: *mut f32, symbols_len: usize) -> u32;
    fn rdoq_store_put(
        room: *mut u64, room_len: usize, record: *mut u64, record_len: usize, block: u32, tokens: *const u64, tokens_len: usize,
    ) -> u32;
    fn rdoq_store_drop(room: *const u64, room_len: usize, record: *mut u64, record_len: usize, block: u32) -> u32;
    fn rdoq_store_read(
        room: *const u64, room_len: usize, record: *const u64, record_len: usize, block: u32, tokens: *mut u64, tokens_len: usize,
        length: *mut usize,
    ) -> u32;
    fn rdoq_write_tokens(
        clusters: u32, map: *const u8, map_len: usize, configs: *const u8, configs_len: usize, cx: u32, cy: u32, strategy: u8, channel: u8,
        qf_hi: bool, predicted: u8, scan: *const u32, scan_len: usize, levels: *const i32, levels_len: usize, contexts: *mut u32,
        contexts_len: usize, symbols: *mut u32, symbols_len: usize, extra_bits: *mut u32, extra_bits_len: usize, bits: *mut u32,
        bits_len: usize, count: *mut u32,
    ) -> u32;
    fn rdoq_read_tokens(
        clusters: u32, map: *const u8, map_len: usize, configs: *const u8, configs_len: usize, cx: u32, cy: u32, strategy: u8, channel: u8,
        qf_hi: bool, predicted: u8, scan: *const u32, scan_len: usize, symbols: *const u32, symbols_len: usize, bits: *const u32,
        bits_len: usize, levels: *mut i32, levels_len: usize, count: *mut u32,
    ) -> u32;
    fn rdoq_tally_add(
        clusters: u32, map: *const u8, map_len: usize, configs: *const u8, configs_len: usize, contexts: *const u32, contexts_len: usize,
        values: *const u32, values_len: usize, counts: *mut u32, counts_len: usize, extra: *mut u64,
    ) -> u32;
}

/// The room that a call is lent.
pub struct Room {
    pub choices: Vec<u8>,
    pub rows: [Vec<f32>; 2],
}

impl Room {
    /// Of so many choice bytes and so many floats in each row, none of them as a call leaves it.
    pub fn of(choices: usize, row: usize) -> Room {
        Room { choices: vec![7; choices], rows: [vec![7.0; row], vec![7.0; row]] }
    }

    /// True where all of it is as trellis and beam leave it.
    pub fn is_clear(&self) -> bool {
        self.choices.iter().all(|&x| x == 255) && self.rows.iter().flatten().all(|&x| x == f32::INFINITY)
    }
}

/// Checks 1 to 6.
pub fn check(book: &Book) -> u32 {
    unsafe {
        rdoq_check_book(
            book.clusters, book.map.as_ptr(), book.map.len(), book.configs.as_ptr(), book.configs.len(), book.symbols.as_ptr(),
            book.symbols.len(), book.ready.as_ptr(), book.ready.len(),
        )
    }
}

/// The whole public call.
pub fn call(search: Search, book: &Book, block: &Block, levels: &mut [i32], room: &mut Room) -> u32 {
    counted(search, book, block, levels, room).0
}

/// The call over a group's list.
pub fn group(search: Search, book: &Book, list: &crate::group_list::List, levels: &mut [i32], room: &mut Room) -> u32 {
    let mut settled = 0u32;
    let [a, b] = &mut room.rows;
    unsafe {
        rdoq_group(
            search as u32, book.clusters, book.map.as_ptr(), book.map.len(), book.configs.as_ptr(), book.configs.len(),
            book.symbols.as_ptr(), book.symbols.len(), book.ready.as_ptr(), book.ready.len(), list.words.as_ptr(), list.words.len(),
            list.floats.as_ptr(), list.floats.len(), list.scans.as_ptr(), list.scans.len(), list.sources.as_ptr(), list.sources.len(),
            list.inverses.as_ptr(), list.inverses.len(), levels.as_mut_ptr(), levels.len(), room.choices.as_mut_ptr(), room.choices.len(),
            a.as_mut_ptr(), a.len(), b.as_mut_ptr(), b.len(), &mut settled,
        )
    }
}

/// The whole public call: code and count.
pub fn counted(search: Search, book: &Book, block: &Block, levels: &mut [i32], room: &mut Room) -> (u32, u32) {
    let (mut cost, mut count) = (0.0f32, 0u32);
    let [a, b] = &mut room.rows;
    let code = unsafe {
        rdoq_block(
            search as u32, book.clusters, book.map.as_ptr(), book.map.len(), book.configs.as_ptr(), book.configs.len(),
            book.symbols.as_ptr(), book.symbols.len(), book.ready.as_ptr(), book.ready.len(), block.cx, block.cy, block.strategy,
            block.channel, block.quant_class, block.predicted, block.channel_weight, block.lambda, block.penalty, block.distance,
            block.half_width, block.one, block.numerator, block.scale, block.scan.as_ptr(), block.scan.len(), block.source.as_ptr(), block.source.len(),
            block.inverse.as_ptr(), block.inverse.len(), levels.as_mut_ptr(), levels.len(), room.choices.as_mut_ptr(), room.choices.len(),
            a.as_mut_ptr(), a.len(), b.as_mut_ptr(), b.len(), &mut cost, &mut count,
        )
    };
    (code, count)
}

/// The small product's.
pub fn small(search: Search, book: &Book, block: &Block, levels: &mut [i32], room: &mut Room) -> u32 {
    let (mut cost, mut count) = (0.0f32, 0u32);
    let [a, b] = &mut room.rows;
    unsafe {
        rdoq_small_block(
            search as u32, book.clusters, book.map.as_ptr(), book.map.len(), book.configs.as_ptr(), book.configs.len(),
            book.symbols.as_ptr(), book.symbols.len(), book.ready.as_ptr(), book.ready.len(), block.cx, block.cy, block.strategy,
            block.channel, block.quant_class, block.predicted, block.channel_weight, block.lambda, block.penalty, block.distance,
            block.one, block.numerator, block.scale, block.scan.as_ptr(), block.scan.len(), block.source.as_ptr(), block.source.len(),
            block.inverse.as_ptr(), block.inverse.len(), levels.as_mut_ptr(), levels.len(), room.choices.as_mut_ptr(), room.choices.len(),
            a.as_mut_ptr(), a.len(), b.as_mut_ptr(), b.len(), &mut cost, &mut count,
        )
    }
}

/// The symbol prices of an ANS code.
pub fn ans(clusters: u32, freqs: &[u16], symbols: &mut [f32]) -> u32 {
    unsafe { rdoq_ans_symbol_bits(clusters, freqs.as_ptr(), freqs.len(), symbols.as_mut_ptr(), symbols.len()) }
}

/// Puts a run into a store.
pub fn put(room: &mut [u64], record: &mut [u64], block: u32, tokens: &[u64]) -> u32 {
    unsafe {
        rdoq_store_put(
            room.as_mut_ptr(), room.len(), record.as_mut_ptr(), record.len(), block, tokens.as_ptr(), tokens.len(),
        )
    }
}

/// Drops a run.
pub fn drop(room: &[u64], record: &mut [u64], block: u32) -> u32 {
    unsafe { rdoq_store_drop(room.as_ptr(), room.len(), record.as_mut_ptr(), record.len(), block) }
}

/// Reads a run.
pub fn read(room: &[u64], record: &[u64], block: u32, tokens: &mut [u64]) -> u32 {
    let mut length = 0;
    unsafe {
        rdoq_store_read(
            room.as_ptr(), room.len(), record.as_ptr(), record.len(), block, tokens.as_mut_ptr(), tokens.len(), &mut length,
        )
    }
}

/// Adds tokens to a tally.
pub fn tally_add(book: &Book, contexts: &[u32], values: &[u32], counts: &mut [u32], extra: &mut u64) -> u32 {
    unsafe {
        rdoq_tally_add(
            book.clusters, book.map.as_ptr(), book.map.len(), book.configs.as_ptr(), book.configs.len(), contexts.as_ptr(), contexts.len(),
            values.as_ptr(), values.len(), counts.as_mut_ptr(), counts.len(), extra,
        )
    }
}

/// Writes a block's tokens: the code, and their number.
pub fn write_tokens(book: &Book, block: &Block, outputs: &mut [Vec<u32>; 4]) -> (u32, u32) {
    let [contexts, symbols, extra_bits, bits] = outputs;
    let mut count = 0;
    let code = unsafe {
        rdoq_write_tokens(
            book.clusters, book.map.as_ptr(), book.map.len(), book.configs.as_ptr(), book.configs.len(), block.cx, block.cy, block.strategy,
            block.channel, block.quant_class, block.predicted, block.scan.as_ptr(), block.scan.len(), block.levels.as_ptr(),
            block.levels.len(), contexts.as_mut_ptr(), contexts.len(), symbols.as_mut_ptr(), symbols.len(), extra_bits.as_mut_ptr(),
            extra_bits.len(), bits.as_mut_ptr(), bits.len(), &mut count,
        )
    };
    (code, count)
}

/// Reads a block's tokens.
pub fn read_tokens(book: &Book, block: &Block, symbols: &[u32], bits: &[u32], levels: &mut [i32]) -> u32 {
    let mut count = 0;
    unsafe {
        rdoq_read_tokens(
            book.clusters, book.map.as_ptr(), book.map.len(), book.configs.as_ptr(), book.configs.len(), block.cx, block.cy, block.strategy,
            block.channel, block.quant_class, block.predicted, block.scan.as_ptr(), block.scan.len(), symbols.as_ptr(), symbols.len(),
            bits.as_ptr(), bits.len(), levels.as_mut_ptr(), levels.len(), &mut count,
        )
    }
}
