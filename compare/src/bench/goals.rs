//! The goals, and whether they are met.

use crate::data::Search;
use crate::inputs::CLUSTERS;
use crate::measure::{BookCosts, Results, SearchCosts, TokenCosts};
use crate::show::{cells, table, Unit};
use crate::store::CALLS;
use crate::tally;
use crate::tables::{config, share_of};
use crate::tokens;

/// The searches that have goals: the unfactored walk is a check on the other, and has none.
pub const HELD: [Search; 3] = [Search::Greedy, Search::Beam, Search::Trellis];
/// The search part over the Rust's search.
pub const SEARCH_GOAL: f64 = 1.1;
/// The same where most of the block lies past the window.
const TAIL_GOAL: f64 = 0.55;
/// The block's checks and clearing at c = 1 over the Rust's search.
const SHARE_GOAL: f64 = 0.25;
/// Checks 1 to 6 at 64 clusters, where the plain loop takes about 44 µs.
const CHECKS_GOAL: f64 = 12_000.0;
const PLAIN: f64 = 44_000.0;

pub fn all(results: &Results, unit: Unit) -> String {
    let mut rows = Vec::new();
    for search in HELD {
        let of: Vec<_> = results.searches.iter().filter(|costs| costs.search == search).collect();
        let ratios: Vec<f64> = of.iter().map(|costs| costs.ratio()).collect();
        let goal = format!("{search:?}: search part at most {SEARCH_GOAL} of the Rust's search, at every size and density");
        rows.push(row(&goal, &ratios, SEARCH_GOAL));
    }
    for search in [Search::Beam, Search::Trellis] {
        let largest = |costs: &&SearchCosts| costs.search == search && costs.c == 1024;
        let ratios: Vec<f64> = results.searches.iter().filter(largest).map(|costs| costs.ratio()).collect();
        let goal = format!("{search:?} at c = 1,024: search part at most {TAIL_GOAL} of the Rust's search");
        rows.push(row(&goal, &ratios, TAIL_GOAL));
    }
    for search in HELD {
        let at_one = |costs: &&SearchCosts| costs.search == search && costs.c == 1;
        let shares: Vec<f64> = results.searches.iter().filter(at_one).map(|costs| share_of(results, costs).2).collect();
        let goal = format!("{search:?} at c = 1: checks 7 to 14 and clearing at most a quarter of the Rust's search");
        rows.push(row(&goal, &shares, SHARE_GOAL));
    }
    rows.extend(results.books.iter().filter(|costs| costs.clusters == 64).map(|costs| checks(costs, unit)));
    if unit == Unit::Nanoseconds {
        rows.extend(CLUSTERS.iter().zip(&results.ans).filter(|(&clusters, _)| clusters == 64).map(|(_, &cost)| ans(cost)));
        rows.extend(CALLS.iter().zip(&results.store).map(store));
        let checks = results.tally.checks;
        rows.push(vec![
            format!("A tally: checks 1 to 4 at 64 clusters, at most {:.0} ns", tally::CHECKS_GOAL),
            format!("{checks:.0} ns"),
            met(checks <= tally::CHECKS_GOAL),
        ]);
    }
    let ratio = results.tally.token / results.tally.rust;
    rows.push(row(&format!("A tally: a token at most {} of the Rust's", tally::TOKEN_GOAL), &[ratio], tally::TOKEN_GOAL));
    let ratios = |of: fn(&TokenCosts) -> f64| results.tokens.iter().map(of).collect::<Vec<f64>>();
    rows.push(row(&format!("A block's tokens: writing at most {} of the Rust's loop with splits", tokens::GOAL), &ratios(TokenCosts::writing), tokens::GOAL));
    rows.push(row(&format!("A block's tokens: reading at most {} of writing", tokens::GOAL), &ratios(TokenCosts::reading), tokens::GOAL));
    table("Goals", "", &cells(&["Goal", "Measured", "Met"]), &rows)
}

fn met(yes: bool) -> String {
    (if yes { "yes" } else { "no" }).to_string()
}

fn row(goal: &str, ratios: &[f64], most: f64) -> Vec<String> {
    let least = ratios.iter().copied().fold(f64::INFINITY, f64::min);
    let worst = ratios.iter().copied().fold(0.0, f64::max);
    let within = ratios.iter().filter(|&&ratio| ratio <= most).count();
    vec![goal.to_string(), format!("{least:.3} to {worst:.3}; {within} of {} within", ratios.len()), met(within == ratios.len())]
}

/// In instructions the goal is the share of the plain loop that it had as a time.
fn checks(costs: &BookCosts, unit: Unit) -> Vec<String> {
    let share = costs.checks / costs.plain;
    let goal = match unit {
        Unit::Nanoseconds => "12 µs, where the plain loop takes about 44".to_string(),
        Unit::Instructions => format!("{:.3} of the plain loop", CHECKS_GOAL / PLAIN),
    };
    let within = match unit {
        Unit::Nanoseconds => costs.checks <= CHECKS_GOAL,
        Unit::Instructions => share <= CHECKS_GOAL / PLAIN,
    };
    vec![
        format!("Checks 1 to 6 at 64 clusters, {}: at most {goal}", config(costs.config)),
        format!("{}; plain loop {}; {share:.3} of it", unit.checks(costs.checks), unit.checks(costs.plain)),
        met(within),
    ]
}

/// The builder from an ANS code; its goal is a time.
fn ans(cost: f64) -> Vec<String> {
    const MOST: f64 = 12_000.0;
    let goal = format!("Symbol prices from an ANS code at 64 clusters: at most {:.0} µs", MOST / 1000.0);
    vec![goal, format!("{:.2} µs", cost / 1000.0), met(cost <= MOST)]
}

/// A call on a store; its goal is a time.
fn store(((call, most), &cost): (&(&str, f64), &f64)) -> Vec<String> {
    let micros = |x: f64| format!("{:.1} µs", x / 1000.0);
    vec![format!("A store of 1,024 runs of 30, {call}: at most {}", micros(*most)), micros(cost), met(cost <= *most)]
}
