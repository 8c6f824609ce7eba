//! The ratios to the Rust as a chart: a panel for each search that has a goal, a group of bars for each size, a bar for each density.

use crate::goals::{HELD, SEARCH_GOAL};
use crate::inputs::{DENSITIES, SIZES};
use crate::measure::{Results, SearchCosts};
use crate::show::whole;

/// The densities from the least on, each with its colour.
const BARS: [(usize, &str); 3] = [(1, "#9cc3e8"), (0, "#2f74b9"), (2, "#12304f")];
const WIDTH: f64 = 960.0;
const HEIGHT: f64 = 440.0;
/// The plot's edges.
const LEFT: f64 = 64.0;
const RIGHT: f64 = 900.0;
const TOP: f64 = 84.0;
const BOTTOM: f64 = 360.0;
const PANEL: f64 = (RIGHT - LEFT) / 3.0;
const GROUP: f64 = (PANEL - 16.0) / 5.0;
const BAR: f64 = 14.0;

pub fn chart(results: &Results) -> String {
    let held = results.searches.iter().filter(|costs| HELD.contains(&costs.search));
    let most = held.map(|costs| costs.ratio()).fold(1.5, f64::max);
    // Room for the numbers over the highest bar.
    let scale = Scale((2.0 * most + 0.4).ceil() / 2.0);
    let mut out = format!(
        "<svg xmlns=\"http://www.w3.org/2000/svg\" viewBox=\"0 0 {WIDTH} {HEIGHT}\" width=\"{WIDTH}\" height=\"{HEIGHT}\" \
         font-family=\"sans-serif\" font-size=\"12\" fill=\"#222\">\n"
    );
    out += &rect(0.0, 0.0, WIDTH, HEIGHT, "#fff");
    out += &text(LEFT, 26.0, "font-size=\"16\" font-weight=\"bold\"", "Search part of a port call, as a multiple of the Rust's search");
    let note = "The port makes checks 7 to 14 and clears its room; the Rust does neither. Checks 1 to 6 of the book are left out. \
                Shorter is faster.";
    out += &text(LEFT, 44.0, "fill=\"#555\"", note);
    out += &legend();
    out += &scale.axis();
    let (bars, numbers) = bars(results, &scale);
    out += &bars;
    out += &scale.goal();
    out += &numbers;
    out + "</svg>\n"
}

/// The largest ratio that the plot has room for.
struct Scale(f64);

impl Scale {
    fn y(&self, ratio: f64) -> f64 {
        BOTTOM - (BOTTOM - TOP) * ratio / self.0
    }

    /// A line at every half, with its number.
    fn axis(&self) -> String {
        let mut out = String::new();
        for half in 0..=(2.0 * self.0) as usize {
            let ratio = half as f64 / 2.0;
            out += &line(LEFT, self.y(ratio), RIGHT, self.y(ratio), if half == 0 { "stroke=\"#222\"" } else { "stroke=\"#ddd\"" });
            out += &text(LEFT - 8.0, self.y(ratio) + 4.0, "text-anchor=\"end\"", &format!("{ratio:.1}"));
        }
        let (x, y) = (20.0, (TOP + BOTTOM) / 2.0);
        out += &text(x, y, &format!("text-anchor=\"middle\" transform=\"rotate(-90 {x} {y})\""), "port / Rust");
        out + &text((LEFT + RIGHT) / 2.0, BOTTOM + 62.0, "text-anchor=\"middle\"", "covered blocks c, by search")
    }

    fn goal(&self) -> String {
        let y = self.y(SEARCH_GOAL);
        line(LEFT, y, RIGHT, y, "stroke=\"#c22\" stroke-width=\"1.5\" stroke-dasharray=\"6 3\"")
            + &text(RIGHT + 4.0, y + 4.0, "fill=\"#c22\"", &format!("goal {SEARCH_GOAL}"))
    }
}

/// The bars, and the numbers over them, which are drawn after the goal's line.
fn bars(results: &Results, scale: &Scale) -> (String, String) {
    let (mut out, mut numbers) = (String::new(), String::new());
    for (panel, search) in HELD.into_iter().enumerate() {
        let left = LEFT + PANEL * panel as f64;
        out += &text(left + PANEL / 2.0, BOTTOM + 40.0, "text-anchor=\"middle\" font-weight=\"bold\"", &format!("{search:?}").to_lowercase());
        if panel > 0 {
            out += &line(left, TOP, left, BOTTOM + 44.0, "stroke=\"#999\"");
        }
        for (group, (c, _)) in SIZES.into_iter().enumerate() {
            let middle = left + 8.0 + GROUP * (group as f64 + 0.5);
            out += &text(middle, BOTTOM + 18.0, "text-anchor=\"middle\"", &whole(c as f64));
            for (at, (density, colour)) in BARS.into_iter().enumerate() {
                let same = |costs: &&SearchCosts| costs.search == search && costs.c == c && costs.density == density;
                let ratio = results.searches.iter().find(same).map_or(0.0, SearchCosts::ratio);
                let (x, y) = (middle + BAR * (at as f64 - 1.5), scale.y(ratio));
                out += &rect(x, y, BAR - 1.0, BOTTOM - y, colour);
                numbers += &upright(x + BAR / 2.0 + 3.0, y - 4.0, ratio);
            }
        }
    }
    (out, numbers)
}

/// A ratio over its bar, edged in white where it meets a line.
fn upright(x: f64, y: f64, ratio: f64) -> String {
    let edge = "font-size=\"9.5\" stroke=\"#fff\" stroke-width=\"3\" paint-order=\"stroke\"";
    text(x, y, &format!("{edge} transform=\"rotate(-90 {x:.1} {y:.1})\""), &format!("{ratio:.2}"))
}

fn legend() -> String {
    let mut out = String::new();
    for (at, (density, colour)) in BARS.into_iter().enumerate() {
        let x = LEFT + 150.0 * at as f64;
        out += &rect(x, 56.0, 12.0, 12.0, colour);
        out += &text(x + 18.0, 66.0, "", DENSITIES[density].0);
    }
    out
}

fn rect(x: f64, y: f64, width: f64, height: f64, colour: &str) -> String {
    format!("<rect x=\"{x:.1}\" y=\"{y:.1}\" width=\"{width:.1}\" height=\"{height:.1}\" fill=\"{colour}\"/>\n")
}

fn line(x1: f64, y1: f64, x2: f64, y2: f64, style: &str) -> String {
    format!("<line x1=\"{x1:.1}\" y1=\"{y1:.1}\" x2=\"{x2:.1}\" y2=\"{y2:.1}\" {style}/>\n")
}

fn text(x: f64, y: f64, style: &str, words: &str) -> String {
    format!("<text x=\"{x:.1}\" y=\"{y:.1}\" {style}>{words}</text>\n")
}
