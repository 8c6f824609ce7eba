//! How cost grows.

use crate::data::{trellis_bytes, window, HALF_WIDTH};
use crate::inputs::{CLUSTERS, CONFIGS, SIZES, WIDE_SIZES, WIDTHS};
use crate::measure::{Results, WidthCosts};
use crate::show::{cells, table, whole, Unit};
use crate::tables::config;

const BY_SIZE: &str = "A search takes its window position by position: 63c of them, at most 1,024. So its cost grows with c up to c = 16; \
    per position it depends on how many of them may be restored (20 of 63, 96 of 252, 256 of 1,008), since these have more candidates. \
    Above, the window stays, and what grows with c is what looks at each of the 64c levels: checks 11 and 12, and the count and the \
    prices of the levels past the window. Search part per window position, and checks 7 to 14 per level, a third nonzero:";

const BY_WIDTH: &str = "A row of the trellis has two costs for each of at most 2w + 2 counts, w being the half-width of the band, and every \
    position takes a row. Near the window's end, and where few levels are nonzero, a row has fewer counts than that, so that the cost grows \
    more slowly than w. Search part of the trellis, a third nonzero, and what it is of that with the first half-width:";

const BY_CLUSTERS: &str = "Check 3 reads the 14,850 entries of the map, whatever the clusters; checks 4 to 6 read 3 + 128 + 256 numbers for \
    each cluster. So the cost has a fixed part and a part that grows with the clusters. What one cluster takes, and what each further one \
    adds:";

const BY_ROOM: &str = "Trellis and beam clear all the room that they are lent, so that their cost grows with every lent byte, needed or not; \
    greedy touches none. A trellis call at c = 1, on a block with one candidate at each position, with surplus in the choices or in the \
    rows. With the second surplus the choices serve every block and half-width.";

pub fn all(results: &Results, unit: Unit) -> String {
    with_size(results, unit) + &with_width(results, unit) + &with_clusters(results, unit) + &with_room(results, unit)
}

fn with_size(results: &Results, unit: Unit) -> String {
    let head = ["c", "Window", "Levels", "Greedy", "Rust's", "Beam", "Rust's", "Trellis", "Rust's", "Unfactored", "Rust's", "Checks 7 to 14, per level"];
    let mut rows = Vec::new();
    for (c, _) in SIZES {
        let (positions, levels) = (window(c).0 as f64, 64.0 * c as f64);
        let mut row = vec![whole(c as f64), whole(positions), whole(levels)];
        for costs in results.searches.iter().filter(|costs| costs.c == c && costs.density == 0) {
            row.extend([unit.each(costs.part() / positions), unit.each(costs.rust / positions)]);
        }
        let block = results.blocks.iter().find(|block| block.c == c && block.density == 0);
        row.extend(block.map(|block| unit.each(block.checks / levels)));
        rows.push(row);
    }
    table("How cost grows with c", unit.told(BY_SIZE), &cells(&head), &rows)
}

fn with_width(results: &Results, unit: Unit) -> String {
    let of = |half_width: u32, c: usize| {
        let here = |costs: &&WidthCosts| costs.half_width == half_width && costs.c == c;
        results.widths.iter().find(here).map_or(0.0, |costs| costs.part)
    };
    let mut head = cells(&["Half-width", "Choice bytes a position"]);
    for c in WIDE_SIZES {
        head.extend([format!("c = {c}"), format!("of {HALF_WIDTH}'s")]);
    }
    let rows: Vec<_> = WIDTHS
        .into_iter()
        .map(|half_width| {
            let mut row = vec![half_width.to_string(), trellis_bytes(half_width).to_string()];
            for c in WIDE_SIZES {
                let part = of(half_width, c);
                row.extend([unit.call(part), format!("{:.2}", part / of(HALF_WIDTH, c))]);
            }
            row
        })
        .collect();
    table("How cost grows with the half-width", unit.told(BY_WIDTH), &head, &rows)
}

fn with_clusters(results: &Results, unit: Unit) -> String {
    let mut head = cells(&["Clusters"]);
    head.extend((0..CONFIGS.len()).map(config));
    let one: Vec<f64> = results.books.iter().filter(|costs| costs.clusters == 1).map(|costs| costs.checks).collect();
    let mut rows = Vec::new();
    for clusters in CLUSTERS {
        let mut row = vec![if clusters == 1 { "1, in all".to_string() } else { format!("{clusters}, each further one") }];
        for costs in results.books.iter().filter(|costs| costs.clusters == clusters) {
            let first = one[costs.config];
            row.push(unit.each(if clusters == 1 { first } else { (costs.checks - first) / (clusters - 1) as f64 }));
        }
        rows.push(row);
    }
    table("How cost grows with the clusters", unit.told(BY_CLUSTERS), &head, &rows)
}

fn with_room(results: &Results, unit: Unit) -> String {
    let head = ["Surplus bytes", "Call, surplus in the choices", "Per surplus byte", "Call, surplus in the rows", "Per surplus byte"];
    let rows: Vec<_> = results
        .lent
        .iter()
        .map(|costs| {
            let base = &results.lent[0];
            let per = |with: f64, without: f64| {
                if costs.surplus == 0 { String::new() } else { unit.each((with - without) / costs.surplus as f64) }
            };
            vec![
                whole(costs.surplus as f64),
                unit.call(costs.choices),
                per(costs.choices, base.choices),
                unit.call(costs.rows),
                per(costs.rows, base.rows),
            ]
        })
        .collect();
    table("How cost grows with the lent bytes", unit.told(BY_ROOM), &cells(&head), &rows)
}
