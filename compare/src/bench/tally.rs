//! A stream of tokens added to a tally at 64 clusters, by the port and by the Rust's `AdaptiveRate`.

use crate::data::Book;
use crate::entropy::entropy_code::door::{added, lent};
use crate::entropy::token::Token;
use crate::entropy::FrozenTokenPrices;
use crate::inputs::{self, CONFIGS};
use crate::library;
use crate::random::Random;

/// The tokens of the stream that is measured; an empty one costs the checks alone.
pub const TOKENS: usize = 4_096;
/// A token of the port over one of the Rust's, and checks 1 to 4 in nanoseconds.
pub const TOKEN_GOAL: f64 = 1.3;
pub const CHECKS_GOAL: f64 = 1_000.0;

const CLUSTERS: usize = 64;

pub struct Tally {
    /// The Rust's prices where it is the Rust that adds.
    rust: Option<FrozenTokenPrices>,
    book: Book,
    contexts: Vec<u32>,
    values: Vec<u32>,
    tokens: Vec<Token>,
    counts: Vec<u32>,
    extra: u64,
}

impl Tally {
    pub fn of(tokens: usize, rust: bool) -> Tally {
        let book = inputs::book(CLUSTERS, CONFIGS[0]);
        let mut random = Random::of(&[29]);
        let contexts: Vec<u32> = (0..tokens).map(|_| random.below(14850) as u32).collect();
        let values: Vec<u32> = (0..tokens).map(|_| if random.once_in(4) { random.below(2000) as u32 } else { random.below(12) as u32 }).collect();
        let tokens = contexts.iter().zip(&values).map(|(&context, &value)| Token::new(context, value)).collect();
        Tally { rust: rust.then(|| lent(&book)), book, contexts, values, tokens, counts: vec![0; 128 * CLUSTERS], extra: 0 }
    }

    pub fn reset(&mut self) {
        self.counts.fill(0);
        self.extra = 0;
    }

    pub fn round(&mut self) -> u32 {
        match &self.rust {
            Some(prices) => {
                (self.counts, self.extra) = added(prices, std::mem::take(&mut self.counts), self.extra, &self.tokens);
                0
            }
            None => library::tally_add(&self.book, &self.contexts, &self.values, &mut self.counts, &mut self.extra),
        }
    }
}
