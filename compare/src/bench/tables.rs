//! The tables of what was measured.

use crate::data::{window, Search};
use crate::goals::HELD;
use crate::inputs::{needed, needed_small, CLUSTERS, CONFIGS, DENSITIES, SEARCHED};
use crate::measure::{Results, SearchCosts, GroupCosts, SmallCosts, TokenCosts, SURPLUS};
use crate::show::{cells, table, whole, Unit};
use crate::store::CALLS;

/// A configuration's name: 4,2,0.
pub fn config(at: usize) -> String {
    CONFIGS[at].map(|part| part.to_string()).join(",")
}

/// `rooms` says which side clears.
pub fn all(results: &Results, unit: Unit, rooms: &str) -> String {
    let searches: String = (0..DENSITIES.len()).map(|density| searches(results, unit, density, rooms)).collect();
    searches + &books(results, unit) + &blocks(results, unit) + &clearing(results, unit) + &share(results, unit) + &ans(results, unit) + &store(results, unit) + &tally(results, unit) + &tokens(results, unit) + &small(results, unit) + &groups(results, unit)
}

fn searches(results: &Results, unit: Unit, density: usize, rooms: &str) -> String {
    let text = if density == 0 {
        format!(
            "Search part: the whole call less checks 1 to 6 of its book ({SEARCHED} clusters, {}). The port is lent exactly the room \
             that the search needs; greedy needs none. Unfactored stands beside the Rust's own unfactored walk.",
            config(0)
        )
    } else {
        String::new()
    };
    let head = ["c", "Search", "Port, whole call", "Port, search part", "Rust", "Search part / Rust", "Whole call / Rust"];
    let row = |costs: &SearchCosts| {
        vec![
            whole(costs.c as f64),
            format!("{:?}", costs.search),
            unit.call(costs.call),
            unit.call(costs.part()),
            unit.call(costs.rust),
            format!("{:.2}", costs.ratio()),
            format!("{:.2}", costs.call / costs.rust),
        ]
    };
    let rows: Vec<_> = results.searches.iter().filter(|costs| costs.density == density).map(row).collect();
    table(&format!("Searches, {}; {rooms}", DENSITIES[density].0), unit.told(&text), &cells(&head), &rows)
}

fn books(results: &Results, unit: Unit) -> String {
    let text = "By the configuration of all clusters. The plain loop is in Rust, splits each of the 256 values of every cluster, and makes \
                check 6 alone.";
    let mut head = cells(&["Clusters", "What"]);
    head.extend((0..CONFIGS.len()).map(config));
    let mut rows = Vec::new();
    for clusters in CLUSTERS {
        let of: Vec<_> = results.books.iter().filter(|costs| costs.clusters == clusters).collect();
        let mut checks = vec![clusters.to_string(), "checks 1 to 6".to_string()];
        checks.extend(of.iter().map(|costs| unit.checks(costs.checks)));
        let mut plain = vec![clusters.to_string(), "plain loop of check 6".to_string()];
        plain.extend(of.iter().map(|costs| unit.checks(costs.plain)));
        rows.extend([checks, plain]);
    }
    table("Checks 1 to 6 alone", unit.told(text), &head, &rows)
}

fn blocks(results: &Results, unit: Unit) -> String {
    let text = "A call that is lent no room is refused by 14, after all other checks. What it takes, less checks 1 to 6.";
    let mut head = cells(&["c"]);
    head.extend(DENSITIES.map(|density| density.0.to_string()));
    let of = |density| results.blocks.iter().filter(move |costs| costs.density == density);
    let rows: Vec<_> = (of(0).zip(of(1)).zip(of(2)))
        .map(|((third, sparse), dense)| {
            let mut row = vec![whole(third.c as f64)];
            row.extend([third, sparse, dense].map(|costs| unit.call(costs.checks)));
            row
        })
        .collect();
    table("Checks 7 to 14 alone", unit.told(text), &head, &rows)
}

fn clearing(results: &Results, unit: Unit) -> String {
    let text = format!(
        "No call clears alone, and a call clears all the room that it is lent. So: what a call takes with {} times the room that a search \
         at c needs, less what it takes with that room, divided by {SURPLUS}. The call is on a block of c = 1 with one candidate at each \
         position, whose search is short. What a clearing takes to begin is not in it. Above c = 16 the window stays 1,024, so that c = 64 \
         stands for 1,024 too.",
        1 + SURPLUS
    );
    let rows: Vec<_> = results
        .clearing
        .iter()
        .map(|costs| {
            let (choices, row) = needed(costs.search, costs.c);
            vec![
                costs.c.to_string(),
                whole(window(costs.c).0 as f64),
                format!("{:?}", costs.search),
                whole(choices as f64),
                whole(2.0 * row as f64),
                unit.each(costs.clearing),
            ]
        })
        .collect();
    let head = cells(&["c", "Window", "Search", "Choice bytes", "Floats in rows", "Clearing"]);
    table("Clearing alone", unit.told(&text), &head, &rows)
}

/// Checks 7 to 14 and clearing at c = 1, over the Rust's search.
pub fn share_of(results: &Results, costs: &SearchCosts) -> (f64, f64, f64) {
    let checks = results.blocks.iter().find(|block| block.c == 1 && block.density == costs.density).map_or(0.0, |block| block.checks);
    let clearing = results.clearing.iter().find(|clear| clear.c == 1 && clear.search == costs.search).map_or(0.0, |clear| clear.clearing);
    (checks, clearing, (checks + clearing) / costs.rust)
}

fn share(results: &Results, unit: Unit) -> String {
    let row = |costs: &SearchCosts| {
        let (checks, clearing, share) = share_of(results, costs);
        vec![
            DENSITIES[costs.density].0.to_string(),
            format!("{:?}", costs.search),
            unit.call(checks),
            if costs.search == Search::Greedy { "none".to_string() } else { unit.call(clearing) },
            unit.call(costs.rust),
            format!("{share:.2}"),
        ]
    };
    let at_one = |costs: &&SearchCosts| costs.c == 1 && HELD.contains(&costs.search);
    let rows: Vec<_> = results.searches.iter().filter(at_one).map(row).collect();
    let head = cells(&["Levels", "Search", "Checks 7 to 14", "Clearing", "Rust's search", "Share"]);
    table("The block's checks and clearing at c = 1, beside the Rust's search", "", &head, &rows)
}

fn ans(results: &Results, unit: Unit) -> String {
    let text = "Symbol prices of an ANS code: 128 frequencies a cluster, each looked at for 19 and looked up. The table is laid down once a call.";
    let rows: Vec<_> = CLUSTERS.iter().zip(&results.ans).map(|(clusters, &cost)| vec![clusters.to_string(), unit.checks(cost)]).collect();
    table("Symbol prices from an ANS code", unit.told(text), &cells(&["Clusters", "Cost"]), &rows)
}

fn store(results: &Results, unit: Unit) -> String {
    let text = "1,024 runs of 30 tokens; each call checks the record (37). Where runs are moved, the room is just large enough for them.";
    let rows: Vec<_> = CALLS.iter().zip(&results.store).map(|((call, _), &cost)| vec![call.to_string(), unit.call(cost)]).collect();
    table("A store of token runs", unit.told(text), &cells(&["Call", "Cost"]), &rows)
}

fn tally(results: &Results, unit: Unit) -> String {
    let costs = &results.tally;
    let text = "4,096 tokens added at 64 clusters, a quarter of their values up to 2,000, the others below 12. The checks are those of a call without tokens.";
    let row = vec![unit.call(costs.checks), format!("{:.2}", costs.token), format!("{:.2}", costs.rust), format!("{:.2}", costs.token / costs.rust)];
    table("A tally", unit.told(text), &cells(&["Checks 1 to 4", "A token", "A token of the Rust's", "Ratio"]), &[row])
}

fn tokens(results: &Results, unit: Unit) -> String {
    let text = "At 64 clusters of 4,2,0. The Rust counts the nonzero levels, pushes its tokens and splits each. The checks are those of a reader that is lent no token; both ratios are less them.";
    let row = |costs: &TokenCosts| {
        let mut row = vec![DENSITIES[costs.density].0.to_string(), whole(costs.c as f64)];
        row.extend([costs.checks, costs.write, costs.read, costs.rust].map(|cost| unit.call(cost)));
        row.extend([costs.writing(), costs.reading()].map(|ratio| format!("{ratio:.2}")));
        row
    };
    let rows: Vec<_> = results.tokens.iter().map(row).collect();
    let head = cells(&["Levels", "c", "Checks", "Writing", "Reading", "Rust", "Writing / Rust", "Reading / writing"]);
    table("A block's tokens", unit.told(text), &head, &rows)
}

fn small(results: &Results, unit: Unit) -> String {
    let text = "Both on the same blocks, less checks 1 to 6, with exactly the room that each needs. The small product searches 32 positions where the first has \
                63 for c = 1 and 126 for c = 2; what checks look at besides (scan and levels) is the same.";
    let row = |costs: &SmallCosts| {
        let ((first, _), (small, _)) = (needed(costs.search, costs.c), needed_small(costs.search));
        vec![
            DENSITIES[costs.density].0.to_string(),
            costs.c.to_string(),
            format!("{:?}", costs.search),
            whole(first as f64),
            whole(small as f64),
            unit.call(costs.first),
            unit.call(costs.small),
            format!("{:.2}", costs.small / costs.first),
        ]
    };
    let rows: Vec<_> = results.small.iter().map(row).collect();
    let head = cells(&["Levels", "c", "Search", "Choice bytes, first", "small", "Search part, first product", "small product", "Ratio"]);
    table("The small product beside the first", unit.told(text), &head, &rows)
}

fn groups(results: &Results, unit: Unit) -> String {
    let text = "A list of one channel, a third of the levels nonzero. Besides: the whole call less each block's search (`rdoq_block` less its check of the book) and less one \
                check of the book, a block. The ratio is the whole call, its check of the book and of the blocks included, over the Rust's searches driven with its prediction.";
    let row = |costs: &GroupCosts| {
        vec![
            crate::group_list::KINDS[costs.kind].to_string(),
            costs.clusters.to_string(),
            format!("{:?}", costs.search),
            unit.call(costs.block()),
            unit.call(costs.besides()),
            format!("{:.2}", costs.ratio()),
        ]
    };
    let rows: Vec<_> = results.groups.iter().map(row).collect();
    let head = cells(&["Blocks", "Clusters", "Search", "Whole call, a block", "Besides, a block", "Over the Rust"]);
    table("A whole group", unit.told(text), &head, &rows)
}
