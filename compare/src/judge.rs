//! What is due for a block: by the checks, by the Rust, and by the plain definitions.

use crate::checks::{all_words, refusal_under};
use crate::data::{Block, Book, Outcome, Reply, Search, HALF_WIDTH, WHOLE, WIDEST};
use crate::entropy::entropy_code::door::lent;
use crate::entropy::FrozenTokenPrices;
use crate::group::runner;
use crate::group::trellis::door::Runner;
use crate::plain::{Problem, Rule};
use std::cell::Cell;
use std::panic::{catch_unwind, set_hook, take_hook, AssertUnwindSafe};

thread_local! {
    /// A panic of the Rust is told as a difference, and not printed besides.
    static IN_THE_RUST: Cell<bool> = const { Cell::new(false) };
}

/// Leaves the Rust's panics unprinted.
pub fn quiet_panics() {
    let usual = take_hook();
    set_hook(Box::new(move |story| {
        if !IN_THE_RUST.get() {
            usual(story);
        }
    }));
}

/// What a search owes, and on whose word.
pub struct Due {
    pub outcome: Outcome,
    pub source: Source,
    /// Where the Rust and the plain definitions part: the story.
    pub fault: Option<String>,
    /// The plain search met an equal finite cost.
    pub tie: bool,
    /// One that rounding alone made equal, with the later level the cheaper before the tail: a factored walk has to look again there.
    pub rounded: bool,
}

#[derive(Clone, Copy, PartialEq, Eq, PartialOrd, Ord, Debug)]
pub enum Source {
    /// The levels are the Rust's; cost and count are the definition's for them.
    Rust,
    /// The checks, 15 and 16 apart.
    Checks,
    /// 15: nothing of the Rust is compared.
    NoChoice,
    /// 16: the Rust left the block as it was.
    NoPath,
    /// The Rust indexed past symbol 127 and panicked: the plain definitions alone.
    NoSymbol,
}

/// Whose text answers for a block: greedy and beam have no band, and either trellis has the Rust's own half-width or another.
pub fn width_asked(search: Search, block: &Block) -> u32 {
    if search.in_band() { block.half_width } else { HALF_WIDTH }
}

/// Prices of the Rust for one book, and its searches by half-width, with a cap on the window.
pub struct Original {
    prices: Option<FrozenTokenPrices>,
    cap: usize,
    runners: Vec<Runner>,
}

impl Original {
    pub fn new() -> Self {
        Original::under(WHOLE)
    }

    pub fn under(cap: usize) -> Self {
        Original { prices: None, cap, runners: (1..=WIDEST).map(|width| runner(width, cap)).collect() }
    }

    /// Takes another book; one that the checks refuse is never handed to the Rust.
    pub fn take(&mut self, book: &Book) {
        self.prices = (crate::checks::book_refusal(book) == 0).then(|| lent(book));
    }

    fn levels(&mut self, search: Search, block: &Block) -> Result<Vec<i32>, String> {
        let prices = self.prices.as_ref().expect("a book that passed");
        let mut levels = block.levels.clone();
        let width = width_asked(search, block);
        let run = &mut self.runners[width as usize - 1];
        IN_THE_RUST.set(true);
        let ended = catch_unwind(AssertUnwindSafe(|| run(search, block, prices, &mut levels)));
        IN_THE_RUST.set(false);
        if ended.is_err() {
            // What it left half done is not used again.
            *run = runner(width, self.cap);
        }
        ended.map(|()| levels).map_err(|_| "the Rust panicked".to_string())
    }
}

/// Holds the levels that the trellis wrote to the bound on exact sums, beside the input's levels and greedy's and the beam's where they lie in the band.
fn far_from_exact(problem: &mut Problem, block: &Block, written: &[i32]) -> Option<String> {
    let Some(terms) = problem.terms(written) else {
        return Some("the levels written have an infinite term".to_string());
    };
    let others = [block.levels.clone(), problem.run(Search::Greedy).levels, problem.run(Search::Beam).levels];
    others.iter().filter(|levels| problem.in_band(levels)).find_map(|levels| {
        let far = problem.terms(levels).is_some_and(|others| !crate::exact::near(&terms, &others, problem.w));
        far.then(|| "an exact sum in the band is less than the bound of ticket 13 allows".to_string())
    })
}

pub fn due(original: &mut Original, search: Search, book: &Book, block: &Block) -> Due {
    let untouched = |number: u32| Outcome { reply: Reply::Refused(number), levels: block.levels.clone() };
    let number = refusal_under(original.cap, search, book, block);
    if number != 0 {
        return Due { outcome: untouched(number), source: Source::Checks, fault: None, tie: false, rounded: false };
    }
    let mut problem = Problem::under(original.cap, book, block, Rule::Kept);
    let plain = problem.run(search);
    let (tie, rounded) = (problem.ties > 0, problem.rounded > 0);
    if plain.reply == Reply::Refused(15) {
        return Due { outcome: plain, source: Source::NoChoice, fault: None, tie, rounded };
    }
    let levels = match original.levels(search, block) {
        Ok(levels) => levels,
        Err(_) if !all_words(book) => return Due { outcome: plain, source: Source::NoSymbol, fault: None, tie, rounded },
        Err(fault) => return Due { outcome: plain, source: Source::Rust, fault: Some(fault), tie, rounded },
    };
    if plain.reply == Reply::Refused(16) {
        let fault = (levels != block.levels).then(|| "16 is due and the Rust changed the block".to_string());
        return Due { outcome: plain, source: Source::NoPath, fault, tie, rounded };
    }
    let (cost, count) = problem.cost(&levels);
    let count = count as u32;
    let reply = match search {
        Search::Greedy => Reply::Count(count),
        _ => Reply::Cost { bits: cost.to_bits(), count },
    };
    let outcome = Outcome { reply, levels };
    if search.in_band() {
        if let Some(fault) = far_from_exact(&mut problem, block, &outcome.levels) {
            return Due { outcome, source: Source::Rust, fault: Some(fault), tie, rounded };
        }
    }
    let fault = (outcome != plain).then(|| {
        let told = |it: &Outcome| format!("{}{}", it.reply, crate::report::changes(block, &it.levels));
        format!("the plain definitions give\n    {}\n  the Rust\n    {}", told(&plain), told(&outcome))
    });
    Due { outcome, source: Source::Rust, fault, tie, rounded }
}
