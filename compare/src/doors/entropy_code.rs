// Price books: handed over as they are, or made from a prefix code or an ANS code by the Rust.

use super::{AdaptiveRate, AnsHistogram, FrozenTokenPrices, HybridUintConfig, OwnedEntropyCode, PrefixCode, Token, TokenSlice, ALPHABET_SIZE};
use crate::data::Book;

fn configs(book: &Book) -> Vec<HybridUintConfig> {
    let of = |c: &[u8]| HybridUintConfig { s: c[0].into(), m: c[1].into(), l: c[2].into() };
    book.configs.chunks_exact(3).map(of).collect()
}

/// The book's own prices, none worked out anew.
pub(crate) fn lent(book: &Book) -> FrozenTokenPrices {
    FrozenTokenPrices {
        context_map: book.map.clone(),
        configs: configs(book),
        symbol_bits: book.symbols.chunks_exact(ALPHABET_SIZE).map(|row| row.try_into().unwrap()).collect(),
        small_value_bits: book.ready.clone(),
    }
}

/// Writes the symbol prices and the ready prices that the Rust makes from prefix codes.
pub(crate) fn from_prefix(book: &mut Book, prefix_codes: Vec<PrefixCode>) {
    priced(book, true, prefix_codes, Vec::new());
}

/// The same from ANS frequencies, 128 a cluster.
pub(crate) fn from_ans(book: &mut Book, freqs: &[u16]) {
    let of = |row: &[u16]| AnsHistogram { freqs: row.try_into().unwrap() };
    priced(book, false, Vec::new(), freqs.chunks_exact(ALPHABET_SIZE).map(of).collect());
}

fn priced(book: &mut Book, use_prefix_code: bool, prefix_codes: Vec<PrefixCode>, ans_histograms: Vec<AnsHistogram>) {
    let code = OwnedEntropyCode {
        context_map: book.map.clone(),
        prefix_codes,
        hybrid_uint_configs: configs(book),
        orig_context_map: None,
        orig_num_contexts: 0,
        use_prefix_code,
        ans_histograms,
        ans_pricing_freqs: Vec::new(),
        ans_symbols: Vec::new(),
        ans_reverse_maps: Vec::new(),
    };
    let made = FrozenTokenPrices::new(&code);
    book.symbols = made.symbol_bits.concat();
    book.ready = made.small_value_bits;
}

pub(crate) fn token_bits(prices: &FrozenTokenPrices, context: u32, value: u32) -> f32 {
    prices.token_bits(super::Token::new(context, value))
}

pub(crate) fn token_bits_pair(prices: &FrozenTokenPrices, context: u32, value: u32) -> [f32; 2] {
    prices.token_bits_pair(context, value)
}

/// The counts and the extra bits of a stream, as the Rust adds them to none.
#[allow(dead_code)]
pub(crate) fn uses(prices: &FrozenTokenPrices, tokens: &[(u32, u32)]) -> (Vec<u32>, u64) {
    let stream: Vec<Token> = tokens.iter().map(|&(context, value)| Token::new(context, value)).collect();
    let mut rate = prices.adaptive_rate();
    rate.add(TokenSlice(&stream));
    (rate.counts, rate.extra)
}

/// A stream added to counts and extra bits that are there.
#[allow(dead_code)]
pub(crate) fn added(prices: &FrozenTokenPrices, counts: Vec<u32>, extra: u64, tokens: &[Token]) -> (Vec<u32>, u64) {
    let mut rate = AdaptiveRate { prices, counts, extra };
    rate.add(TokenSlice(tokens));
    (rate.counts, rate.extra)
}
