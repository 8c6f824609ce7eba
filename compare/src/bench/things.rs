//! What is measured, and how it is run.

use crate::data::{Block, Book, Search, SEARCHES};
use crate::entropy::entropy_code::door::lent;
use crate::entropy::FrozenTokenPrices;
use crate::group::trellis::door::{run, Scratch};
use crate::inputs::{self, CONFIGS, SEARCHED};
use crate::library::{self, Room};
use crate::group_list::{self, Group};
use crate::store::Store;
use crate::tally::Tally;
use crate::tokens::{Tokens, Way, WAYS};
use std::hint::black_box;

/// One thing that is measured. `density` and `config` are places in the lists of `inputs`.
#[derive(Clone, Copy, PartialEq)]
pub enum Thing {
    /// The whole public call, with exactly the room that it needs.
    Call { search: Search, c: usize, density: usize },
    /// The trellis with a half-width of the band, on the first density, with exactly the room that it needs.
    Wide { half_width: usize, c: usize },
    /// The small product's call, with exactly the room that it needs.
    Small { search: Search, c: usize, density: usize },
    /// The Rust's search of the same blocks.
    Original { search: Search, c: usize, density: usize },
    /// Checks 1 to 6.
    Checks { clusters: usize, config: usize },
    /// Check 6 as a plain loop that splits every value.
    PlainLoop { clusters: usize, config: usize },
    /// A call that is lent no room: 14 refuses it, so that it makes checks 1 to 14 and no more. Its book has one cluster.
    Refused { c: usize, density: usize },
    /// A call on a settled block of c = 1, with a room of so many choice bytes and floats in a row. Its book has one cluster.
    Settled { search: Search, choices: usize, row: usize },
    /// Symbol prices of an ANS code.
    Ans { clusters: usize },
    /// A call on a full store, by its place in the list of `store`.
    Store { call: usize },
    /// A stream of so many tokens added to a tally, by the Rust or by the port.
    Tally { tokens: usize, rust: bool },
    /// The tokens of blocks.
    Tokens { c: usize, density: usize, way: Way },
    /// A group's list of a kind.
    Group { way: group_list::Way, kind: usize, search: Search, clusters: usize },
}

impl Thing {
    /// As numbers, to name it to a child process.
    pub fn numbers(self) -> [usize; 4] {
        match self {
            Thing::Call { search, c, density } => [0, search as usize, c, density],
            Thing::Original { search, c, density } => [1, search as usize, c, density],
            Thing::Checks { clusters, config } => [2, clusters, config, 0],
            Thing::PlainLoop { clusters, config } => [3, clusters, config, 0],
            Thing::Refused { c, density } => [4, c, density, 0],
            Thing::Settled { search, choices, row } => [5, search as usize, choices, row],
            Thing::Store { call } => [6, call, 0, 0],
            Thing::Tally { tokens, rust } => [7, tokens, usize::from(rust), 0],
            Thing::Ans { clusters } => [8, clusters, 0, 0],
            Thing::Wide { half_width, c } => [9, half_width, c, 0],
            Thing::Tokens { c, density, way } => [10, c, density, way as usize],
            Thing::Small { search, c, density } => [11, search as usize, c, density],
            Thing::Group { way, kind, search, clusters } => [12, 3 * kind + way as usize, search as usize, clusters],
        }
    }

    pub fn of(numbers: [usize; 4]) -> Thing {
        match numbers {
            [0, search, c, density] => Thing::Call { search: SEARCHES[search], c, density },
            [1, search, c, density] => Thing::Original { search: SEARCHES[search], c, density },
            [2, clusters, config, ..] => Thing::Checks { clusters, config },
            [3, clusters, config, ..] => Thing::PlainLoop { clusters, config },
            [4, c, density, ..] => Thing::Refused { c, density },
            [6, call, ..] => Thing::Store { call },
            [7, tokens, rust, ..] => Thing::Tally { tokens, rust: rust != 0 },
            [10, c, density, way] => Thing::Tokens { c, density, way: WAYS[way] },
            [12, what, search, clusters] => Thing::Group { way: group_list::WAYS[what % 3], kind: what / 3, search: SEARCHES[search], clusters },
            [11, search, c, density] => Thing::Small { search: SEARCHES[search], c, density },
            [8, clusters, ..] => Thing::Ans { clusters },
            [9, half_width, c, ..] => Thing::Wide { half_width, c },
            [_, search, choices, row] => Thing::Settled { search: SEARCHES[search], choices, row },
        }
    }
}

/// A block, and the levels that a search is lent.
struct Lent {
    block: Block,
    levels: Vec<i32>,
}

enum Task {
    Port { small: bool, search: Search, book: Book, lent: Vec<Lent>, room: Room },
    Rust { search: Search, prices: FrozenTokenPrices, lent: Vec<Lent>, scratch: Scratch },
    Checks(Book),
    PlainLoop(Book),
    Store(Store),
    Tally(Tally),
    Tokens(Tokens),
    Group(Box<Group>),
    Ans { freqs: Vec<u16>, symbols: Vec<f32> },
}

/// A thing made ready to be run in rounds.
pub struct Work {
    task: Task,
    /// How often a round runs it: more than once where it is short and changes nothing.
    repeat: usize,
}

impl Work {
    /// Ready, and run once.
    pub fn of(thing: Thing) -> Work {
        let mut work = Work::made(thing);
        let due = if let Thing::Refused { .. } = thing { 14 } else { 0 };
        assert_eq!(work.round(), due);
        work.reset();
        work
    }

    fn made(thing: Thing) -> Work {
        let once = |task| Work { task, repeat: 1 };
        match thing {
            Thing::Call { search, c, density } => {
                let (choices, row) = inputs::needed(search, c);
                once(port(search, SEARCHED, inputs::blocks(c, density), Room::of(choices, row)))
            }
            Thing::Wide { half_width, c } => {
                let half_width = half_width as u32;
                let (choices, row) = inputs::needed_with(Search::Trellis, c, half_width);
                let blocks = inputs::blocks(c, 0).into_iter().map(|block| Block { half_width, ..block }).collect();
                once(port(Search::Trellis, SEARCHED, blocks, Room::of(choices, row)))
            }
            Thing::Small { search, c, density } => {
                let (choices, row) = inputs::needed_small(search);
                let (book, lent) = (inputs::book(SEARCHED, CONFIGS[0]), lend(inputs::blocks(c, density)));
                once(Task::Port { small: true, search, book, lent, room: Room::of(choices, row) })
            }
            Thing::Original { search, c, density } => {
                let prices = lent(&inputs::book(SEARCHED, CONFIGS[0]));
                once(Task::Rust { search, prices, lent: lend(inputs::blocks(c, density)), scratch: Scratch::default() })
            }
            Thing::Checks { clusters, config } => {
                Work { task: Task::Checks(inputs::book(clusters, CONFIGS[config])), repeat: 512 / clusters }
            }
            Thing::PlainLoop { clusters, config } => {
                Work { task: Task::PlainLoop(inputs::book(clusters, CONFIGS[config])), repeat: 512 / clusters }
            }
            Thing::Refused { c, density } => once(port(Search::Trellis, 1, inputs::blocks(c, density), Room::of(0, 0))),
            Thing::Settled { search, choices, row } => {
                Work { task: port(search, 1, vec![inputs::settled()], Room::of(choices, row)), repeat: 64 }
            }
            Thing::Store { call } => once(Task::Store(Store::of(call))),
            Thing::Tally { tokens, rust } => once(Task::Tally(Tally::of(tokens, rust))),
            Thing::Tokens { c, density, way } => once(Task::Tokens(Tokens::of(c, density, way))),
            Thing::Group { way, kind, search, clusters } => once(Task::Group(Box::new(Group::of(way, kind, search as usize, clusters)))),
            Thing::Ans { clusters } => {
                let freqs: Vec<u16> = (0..128 * clusters).map(|at| (at * 2657 % 4097) as u16).collect();
                let symbols = vec![0.0; freqs.len()];
                Work { task: Task::Ans { freqs, symbols }, repeat: 512 / clusters }
            }
        }
    }

    /// The calls of a round.
    pub fn calls(&self) -> usize {
        match &self.task {
            Task::Port { lent, .. } | Task::Rust { lent, .. } => self.repeat * lent.len(),
            Task::Checks(_) | Task::PlainLoop(_) => self.repeat,
            Task::Store(store) => store.calls(),
            Task::Tally(_) => self.repeat,
            Task::Tokens(tokens) => tokens.calls(),
            Task::Group(_) => self.repeat,
            Task::Ans { .. } => self.repeat,
        }
    }

    /// Puts every level, or the store, back. No part of what is measured.
    pub fn reset(&mut self) {
        match &mut self.task {
            Task::Port { lent, .. } | Task::Rust { lent, .. } => {
                for Lent { block, levels } in lent {
                    levels.copy_from_slice(&block.levels);
                }
            }
            Task::Checks(_) | Task::PlainLoop(_) | Task::Ans { .. } | Task::Tokens(_) => {}
            Task::Store(store) => store.reset(),
            Task::Tally(tally) => tally.reset(),
            Task::Group(group) => group.reset(),
        }
    }

    /// What is measured; answers the last reply. Never inlined: callgrind counts within this function alone.
    #[inline(never)]
    pub fn round(&mut self) -> u32 {
        let mut reply = 0;
        for _ in 0..self.repeat {
            match &mut self.task {
                Task::Port { small, search, book, lent, room } => {
                    for Lent { block, levels } in lent {
                        reply = if *small {
                            library::small(*search, book, block, levels, room)
                        } else {
                            library::call(*search, book, block, levels, room)
                        };
                    }
                }
                Task::Rust { search, prices, lent, scratch } => {
                    for Lent { block, levels } in lent.iter_mut() {
                        run(*search, block, prices, levels, scratch);
                    }
                    black_box(lent);
                }
                Task::Checks(book) => reply = library::check(black_box(book)),
                Task::PlainLoop(book) => reply = plain_loop(black_box(book)),
                Task::Store(store) => reply = black_box(store).round(),
                Task::Tally(tally) => reply = black_box(tally).round(),
                Task::Tokens(tokens) => reply = black_box(tokens).round(),
                Task::Group(group) => reply = black_box(group).round(),
                Task::Ans { freqs, symbols } => reply = library::ans((freqs.len() / 128) as u32, black_box(freqs), symbols),
            }
        }
        reply
    }

    /// The levels after a round.
    pub fn levels(&self) -> Vec<&[i32]> {
        match &self.task {
            Task::Port { lent, .. } | Task::Rust { lent, .. } => lent.iter().map(|lent| &lent.levels[..]).collect(),
            Task::Checks(_) | Task::PlainLoop(_) | Task::Store(_) | Task::Tally(_) | Task::Tokens(_) | Task::Group(_) | Task::Ans { .. } => Vec::new(),
        }
    }

    /// True where the room is clear after a round.
    pub fn is_clear(&self) -> bool {
        match &self.task {
            Task::Port { room, .. } => room.is_clear(),
            Task::Rust { scratch, .. } => scratch.is_clear(),
            Task::Checks(_) | Task::PlainLoop(_) | Task::Store(_) | Task::Tally(_) | Task::Tokens(_) | Task::Group(_) | Task::Ans { .. } => false,
        }
    }
}

fn lend(blocks: Vec<Block>) -> Vec<Lent> {
    blocks.into_iter().map(|block| Lent { levels: block.levels.clone(), block }).collect()
}

fn port(search: Search, clusters: usize, blocks: Vec<Block>, room: Room) -> Task {
    Task::Port { small: false, search, book: inputs::book(clusters, CONFIGS[0]), lent: lend(blocks), room }
}

/// Check 6, each value split: the loop that the checks are held to.
fn plain_loop(book: &Book) -> u32 {
    for cluster in 0..book.clusters as usize {
        let config = &book.configs[3 * cluster..3 * cluster + 3];
        for value in 0..256 {
            let price = inputs::price(&book.symbols[128 * cluster..], value as u32, config);
            if price.to_bits() != book.ready[256 * cluster + value].to_bits() {
                return 6;
            }
        }
    }
    0
}
