//! The tokens of blocks, written and read by the port, and written by the Rust's loop with its splits, at 64 clusters.

use crate::data::{Block, Book};
use crate::entropy::token::HybridUintConfig;
use crate::entropy::Token;
use crate::group::tokens::door as rust;
use crate::inputs::{self, CONFIGS};
use crate::library;
use std::hint::black_box;

/// Writing over the Rust's loop with splits, and reading over writing, both less the checks.
pub const GOAL: f64 = 1.5;

/// What is done with each block. The checks are those of a reader that is lent no token, which refuses it by 22.
#[derive(Clone, Copy, PartialEq, Debug)]
pub enum Way {
    Checks,
    Write,
    Read,
    Rust,
}

pub const WAYS: [Way; 4] = [Way::Checks, Way::Write, Way::Read, Way::Rust];

pub struct Tokens {
    way: Way,
    book: Book,
    configs: Vec<HybridUintConfig>,
    /// Each block with its symbols and extra bits.
    blocks: Vec<(Block, Vec<u32>, Vec<u32>)>,
    stream: Vec<Token>,
    outputs: [Vec<u32>; 4],
    levels: Vec<i32>,
}

impl Tokens {
    pub fn of(c: usize, density: usize, way: Way) -> Tokens {
        let book = inputs::book(64, CONFIGS[0]);
        let mut outputs = [0; 4].map(|_| vec![0; 63 * c + 1]);
        let told = |block: Block| {
            let (code, count) = library::write_tokens(&book, &block, &mut outputs);
            assert_eq!(code, 0);
            let [symbols, bits] = [1, 3].map(|at: usize| outputs[at][..count as usize].to_vec());
            (block, symbols, bits)
        };
        let blocks = inputs::blocks(c, density).into_iter().map(told).collect();
        Tokens { way, configs: rust::configs(&book), book, blocks, stream: Vec::new(), outputs, levels: vec![0; 64 * c] }
    }

    pub fn calls(&self) -> usize {
        self.blocks.len()
    }

    /// Answers 0 where each call answered as it should.
    pub fn round(&mut self) -> u32 {
        let mut reply = 0;
        for (block, symbols, bits) in &self.blocks {
            reply |= match self.way {
                Way::Checks => u32::from(library::read_tokens(&self.book, block, &[], &[], &mut self.levels) != 22),
                Way::Write => library::write_tokens(&self.book, block, &mut self.outputs).0,
                Way::Read => library::read_tokens(&self.book, block, symbols, bits, &mut self.levels),
                Way::Rust => {
                    rust::tokens(block, rust::count(block), &mut self.stream);
                    for (at, token) in self.stream.iter().enumerate() {
                        let (symbol, extra, bits) = rust::split(&self.book.map, &self.configs, token);
                        for (output, part) in self.outputs.iter_mut().zip([token.context, symbol, extra, bits]) {
                            output[at] = part;
                        }
                    }
                    black_box(&self.outputs);
                    0
                }
            };
        }
        reply
    }
}
