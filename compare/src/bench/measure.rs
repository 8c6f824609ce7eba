//! All that is measured, in the order of the tables. A meter is the clock or callgrind.

use crate::count::Counter;
use crate::data::{trellis_bytes, Search, SEARCHES, WIDEST};
use crate::group_list;
use crate::inputs::{needed, CLUSTERS, CONFIGS, DENSITIES, SEARCHED, SIZES, SMALL_SIZES, WIDE_SIZES, WIDTHS};
use crate::store;
use crate::tally::TOKENS;
use crate::things::{Thing, Work};
use crate::tokens::WAYS;
use std::time::{Duration, Instant};

/// A pass of a thing lasts about this long, and at least a round.
const PASS: Duration = Duration::from_millis(4);

/// Clearing is measured on so many times the room that a search needs, besides that room.
pub const SURPLUS: usize = 16;

/// A search of blocks of one size and density: the port's whole call, checks 1 to 6 of its book, and the Rust's search.
pub struct SearchCosts {
    pub search: Search,
    pub c: usize,
    pub density: usize,
    pub call: f64,
    pub checks: f64,
    pub rust: f64,
}

impl SearchCosts {
    /// The whole call less checks 1 to 6.
    pub fn part(&self) -> f64 {
        self.call - self.checks
    }

    pub fn ratio(&self) -> f64 {
        self.part() / self.rust
    }
}

/// The trellis with a half-width of its band, less checks 1 to 6.
pub struct WidthCosts {
    pub half_width: u32,
    pub c: usize,
    pub part: f64,
}

/// The small product beside the first, on the same blocks, both less checks 1 to 6.
pub struct SmallCosts {
    pub search: Search,
    pub c: usize,
    pub density: usize,
    pub first: f64,
    pub small: f64,
}

/// A group's list: the whole call, its blocks one by one, the Rust's searches with its prediction, and one check of the book.
pub struct GroupCosts {
    pub kind: usize,
    pub search: Search,
    pub clusters: usize,
    pub whole: f64,
    pub each: f64,
    pub rust: f64,
    pub checks: f64,
}

impl GroupCosts {
    fn blocks(&self) -> f64 {
        group_list::Group::blocks(self.kind) as f64
    }

    /// A block's, besides the searches and one check of the book.
    pub fn besides(&self) -> f64 {
        (self.whole - self.each + (self.blocks() - 1.0) * self.checks) / self.blocks()
    }

    /// The whole call, a block.
    pub fn block(&self) -> f64 {
        self.whole / self.blocks()
    }

    pub fn ratio(&self) -> f64 {
        self.whole / self.rust
    }
}

/// Checks 1 to 6, and the plain loop of check 6.
pub struct BookCosts {
    pub clusters: usize,
    pub config: usize,
    pub checks: f64,
    pub plain: f64,
}

/// Checks 7 to 14.
pub struct BlockCosts {
    pub c: usize,
    pub density: usize,
    pub checks: f64,
}

/// Clearing the room that a search needs.
pub struct ClearCosts {
    pub search: Search,
    pub c: usize,
    pub clearing: f64,
}

/// A call with surplus room, all of it in the choices or all of it in the rows.
pub struct LentCosts {
    pub surplus: usize,
    pub choices: f64,
    pub rows: f64,
}

/// A stream added to a tally, at 64 clusters: none (checks 1 to 4 and 17), then each token by the port and by the Rust.
pub struct TallyCosts {
    pub checks: f64,
    pub token: f64,
    pub rust: f64,
}

/// The tokens of a block: the checks, then writing and reading by the port, and writing by the Rust.
pub struct TokenCosts {
    pub c: usize,
    pub density: usize,
    pub checks: f64,
    pub write: f64,
    pub read: f64,
    pub rust: f64,
}

impl TokenCosts {
    /// Writing less the checks, over the Rust's.
    pub fn writing(&self) -> f64 {
        (self.write - self.checks) / self.rust
    }

    /// Reading over writing, both less the checks.
    pub fn reading(&self) -> f64 {
        (self.read - self.checks) / (self.write - self.checks)
    }
}

pub struct Results {
    pub searches: Vec<SearchCosts>,
    pub widths: Vec<WidthCosts>,
    pub books: Vec<BookCosts>,
    pub blocks: Vec<BlockCosts>,
    pub clearing: Vec<ClearCosts>,
    pub lent: Vec<LentCosts>,
    /// Symbol prices of an ANS code, by the clusters of `inputs`.
    pub ans: Vec<f64>,
    /// A call on a store, in the order of the list in `store`.
    pub store: Vec<f64>,
    pub tally: TallyCosts,
    pub tokens: Vec<TokenCosts>,
    pub small: Vec<SmallCosts>,
    pub groups: Vec<GroupCosts>,
}

pub enum Meter {
    Clock { passes: usize },
    Callgrind(Counter),
}

impl Meter {
    /// What a call of each thing costs, the things measured by turns.
    fn by_turns<const N: usize>(&mut self, things: [Thing; N]) -> [f64; N] {
        match self {
            Meter::Clock { passes } => timed(*passes, things),
            Meter::Callgrind(counter) => things.map(|thing| counter.count(thing)),
        }
    }

    pub fn all(&mut self) -> Results {
        Results {
            searches: self.searches(),
            widths: self.widths(),
            books: self.books(),
            blocks: self.blocks(),
            clearing: self.clearing(),
            lent: self.lent(),
            ans: self.ans(),
            store: self.store(),
            tally: self.tally(),
            tokens: self.tokens(),
            small: self.small(),
            groups: self.groups(),
        }
    }

    fn searches(&mut self) -> Vec<SearchCosts> {
        let mut rows = Vec::new();
        for (density, (name, _)) in DENSITIES.into_iter().enumerate() {
            eprintln!("searches, {name}");
            for (c, _) in SIZES {
                for search in SEARCHES {
                    let book = Thing::Checks { clusters: SEARCHED, config: 0 };
                    let things = [Thing::Call { search, c, density }, book, Thing::Original { search, c, density }];
                    let [call, checks, rust] = self.by_turns(things);
                    rows.push(SearchCosts { search, c, density, call, checks, rust });
                }
            }
        }
        rows
    }

    fn small(&mut self) -> Vec<SmallCosts> {
        eprintln!("the small product");
        let mut rows = Vec::new();
        for density in 0..DENSITIES.len() {
            for (c, _) in SMALL_SIZES {
                for search in SEARCHES {
                    let book = Thing::Checks { clusters: SEARCHED, config: 0 };
                    let things = [Thing::Call { search, c, density }, Thing::Small { search, c, density }, book];
                    let [first, small, checks] = self.by_turns(things);
                    rows.push(SmallCosts { search, c, density, first: first - checks, small: small - checks });
                }
            }
        }
        rows
    }

    fn groups(&mut self) -> Vec<GroupCosts> {
        eprintln!("groups");
        let mut rows = Vec::new();
        for kind in 0..group_list::KINDS.len() {
            for clusters in group_list::CLUSTERS {
                for search in [Search::Greedy, Search::Beam, Search::Trellis] {
                    let of = |way| Thing::Group { way, kind, search, clusters };
                    let [whole, each, rust] = group_list::WAYS.map(of);
                    let [whole, each, rust, checks] = self.by_turns([whole, each, rust, Thing::Checks { clusters, config: 0 }]);
                    rows.push(GroupCosts { kind, search, clusters, whole, each, rust, checks });
                }
            }
        }
        rows
    }

    fn widths(&mut self) -> Vec<WidthCosts> {
        eprintln!("half-widths");
        let mut rows = Vec::new();
        for half_width in WIDTHS {
            for c in WIDE_SIZES {
                let book = Thing::Checks { clusters: SEARCHED, config: 0 };
                let [call, checks] = self.by_turns([Thing::Wide { half_width: half_width as usize, c }, book]);
                rows.push(WidthCosts { half_width, c, part: call - checks });
            }
        }
        rows
    }

    fn books(&mut self) -> Vec<BookCosts> {
        eprintln!("checks 1 to 6");
        let mut rows = Vec::new();
        for clusters in CLUSTERS {
            for config in 0..CONFIGS.len() {
                let [checks, plain] = self.by_turns([Thing::Checks { clusters, config }, Thing::PlainLoop { clusters, config }]);
                rows.push(BookCosts { clusters, config, checks, plain });
            }
        }
        rows
    }

    fn blocks(&mut self) -> Vec<BlockCosts> {
        eprintln!("checks 7 to 14");
        let mut rows = Vec::new();
        for density in 0..DENSITIES.len() {
            for (c, _) in SIZES {
                let [refused, book] = self.by_turns([Thing::Refused { c, density }, Thing::Checks { clusters: 1, config: 0 }]);
                rows.push(BlockCosts { c, density, checks: refused - book });
            }
        }
        rows
    }

    /// No call clears alone. So: how much longer a call takes that is lent surplus room, divided down to the room that is needed.
    fn clearing(&mut self) -> Vec<ClearCosts> {
        eprintln!("clearing");
        let mut rows = Vec::new();
        // The window, and so the room, is no longer at c = 1,024 than at 64.
        for (c, _) in &SIZES[..4] {
            for search in [Search::Beam, Search::Trellis] {
                let (choices, row) = needed(search, *c);
                let with = |times: usize| Thing::Settled { search, choices: times * choices, row: times * row };
                let [exact, more] = self.by_turns([with(1), with(1 + SURPLUS)]);
                rows.push(ClearCosts { search, c: *c, clearing: (more - exact) / SURPLUS as f64 });
            }
        }
        rows
    }

    fn ans(&mut self) -> Vec<f64> {
        eprintln!("ANS prices");
        CLUSTERS.iter().map(|&clusters| self.by_turns([Thing::Ans { clusters }])[0]).collect()
    }

    fn store(&mut self) -> Vec<f64> {
        eprintln!("store");
        (0..store::CALLS.len()).map(|call| self.by_turns([Thing::Store { call }])[0]).collect()
    }

    fn tally(&mut self) -> TallyCosts {
        eprintln!("tally");
        let of = |tokens, rust| Thing::Tally { tokens, rust };
        let [checks, port, rust] = self.by_turns([of(0, false), of(TOKENS, false), of(TOKENS, true)]);
        TallyCosts { checks, token: (port - checks) / TOKENS as f64, rust: rust / TOKENS as f64 }
    }

    fn tokens(&mut self) -> Vec<TokenCosts> {
        eprintln!("tokens");
        let mut rows = Vec::new();
        for density in 0..DENSITIES.len() {
            // The Rust's loop goes up to c = 256.
            for (c, _) in &SIZES[..4] {
                let [checks, write, read, rust] = self.by_turns(WAYS.map(|way| Thing::Tokens { c: *c, density, way }));
                rows.push(TokenCosts { c: *c, density, checks, write, read, rust });
            }
        }
        rows
    }

    fn lent(&mut self) -> Vec<LentCosts> {
        let (choices, row) = needed(Search::Trellis, 1);
        let with = |choices, row| Thing::Settled { search: Search::Trellis, choices, row };
        // The second makes the choices as many as serve every block and half-width.
        let most = trellis_bytes(WIDEST) as usize * 1024;
        [0, most - choices, 1 << 20, 4 << 20]
            .map(|surplus| {
                // Of four bytes a float, in two rows.
                let [choices, rows] = self.by_turns([with(choices + surplus, row), with(choices, row + surplus / 8)]);
                LentCosts { surplus, choices, rows }
            })
            .into()
    }
}

/// Nanoseconds, the median of the passes.
fn timed<const N: usize>(passes: usize, things: [Thing; N]) -> [f64; N] {
    let mut works = things.map(Work::of);
    let rounds = works.each_mut().map(rounds_in_a_pass);
    let mut times = [(); N].map(|_| Vec::new());
    for _ in 0..passes {
        for at in 0..N {
            times[at].push(pass(&mut works[at], rounds[at]) / works[at].calls() as f64);
        }
    }
    times.map(median)
}

/// Nanoseconds of a round: the median of so many, so that an interruption does not count. What resets the levels is outside.
fn pass(work: &mut Work, rounds: usize) -> f64 {
    let mut times = Vec::new();
    for _ in 0..rounds {
        work.reset();
        let start = Instant::now();
        work.round();
        times.push(start.elapsed().as_nanos() as f64);
    }
    median(times)
}

/// Found by a pass that warms the buffers too.
fn rounds_in_a_pass(work: &mut Work) -> usize {
    ((PASS.as_nanos() as f64 / pass(work, 5)) as usize).max(1)
}

fn median(mut times: Vec<f64>) -> f64 {
    times.sort_by(f64::total_cmp);
    times[times.len() / 2]
}
