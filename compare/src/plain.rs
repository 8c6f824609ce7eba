//! The searches, written from their definitions in plain form: no factored rows, no shared contexts, no scratch.
//! Every float is an f32, every operation is rounded once, sums associate as bracketed.
//!
//! `Rule` names one rule to break. The searches with a broken rule tell how many of the made blocks a rule decides.

use crate::data::{window_under, Block, Book, Outcome, Reply, Search, HALF_WIDTH, WHOLE};

/// A rule of the definitions, broken. `Kept` breaks none.
#[derive(Clone, Copy, PartialEq, Eq, Debug)]
pub enum Rule {
    Kept,
    /// The token's cost is added to the tail before the distortion is.
    SumsFromTheRight,
    /// No penalty on a nonzero level where the input has 0.
    NoPenalty,
    /// A token is charged when nothing remains.
    TokenAtNothing,
    /// The first position's `prev` is 0.
    FirstPrevZero,
    /// 4c + 1 nonzero levels still count as few.
    FewByOne,
    /// Every position may be restored, or none.
    RestoreAll,
    /// The tail is priced for `prev` 0 alone.
    TailForZero,
    /// A later candidate replaces an equal one.
    LaterWins,
    /// Trellis: candidates in the order of their list, zero among them.
    ListOrder,
    /// Trellis: the least local cost is picked before the tail is added.
    LocalFirst,
    /// Trellis: a larger final count replaces an equal one.
    LargerCount,
    /// Trellis: the band holds the whole count.
    BandOnWhole,
    /// Trellis: the band is one narrower.
    NarrowBand,
    /// Trellis: no band.
    NoBand,
    /// Trellis: the half-width of the band is never above its first value.
    AtMostSix,
    /// Beam: three or fewer paths are sorted too.
    AlwaysSorted,
    /// Beam: no destination is named for a path of infinite cost.
    FiniteNamed,
    /// Beam: paths are ranked by the cost for `prev` 0.
    RankedByFirst,
    /// Beam: four paths.
    FourPaths,
    /// Greedy: a nonzero level that ends the block does not pay for the zeros before it.
    NoRun,
    /// Greedy: the count behind the position is the input's.
    CountBehind,
    /// Greedy: a zero with nothing behind it is weighed too.
    NoSkip,
}

pub const RULES: [Rule; 22] = [
    Rule::SumsFromTheRight,
    Rule::NoPenalty,
    Rule::TokenAtNothing,
    Rule::FirstPrevZero,
    Rule::FewByOne,
    Rule::RestoreAll,
    Rule::TailForZero,
    Rule::LaterWins,
    Rule::ListOrder,
    Rule::LocalFirst,
    Rule::LargerCount,
    Rule::BandOnWhole,
    Rule::NarrowBand,
    Rule::NoBand,
    Rule::AtMostSix,
    Rule::AlwaysSorted,
    Rule::FiniteNamed,
    Rule::RankedByFirst,
    Rule::FourPaths,
    Rule::NoRun,
    Rule::CountBehind,
    Rule::NoSkip,
];

const INF: f32 = f32::INFINITY;

fn nz(q: i32) -> usize {
    usize::from(q != 0)
}

/// Level v packs to 2v if v >= 0, else to -2v - 1.
pub fn pack(v: i32) -> u32 {
    (if v >= 0 { 2 * i64::from(v) } else { -2 * i64::from(v) - 1 }) as u32
}

/// Symbol and number of extra bits of a value under a configuration (s, m, l).
pub fn split(value: u32, s: u32, m: u32, l: u32) -> (u32, u32) {
    if value < 2u32.pow(s) {
        return (value, 0);
    }
    let n = value.ilog2();
    let middle = value / 2u32.pow(n - m) % 2u32.pow(m);
    let low = value % 2u32.pow(l);
    (2u32.pow(s) + (n - s) * 2u32.pow(m + l) + middle * 2u32.pow(l) + low, n - m - l)
}

/// The standard's context of the band of frequencies that k belongs to.
fn frequency(k: usize) -> usize {
    match k {
        0..=15 => k - 1,
        16..=31 => 15 + (k - 16) / 2,
        _ => 23 + (k - 32) / 4,
    }
}

/// The standard's context of the number of nonzero levels that remain.
fn remaining(n: usize) -> usize {
    match n {
        1 => 0,
        2 => 31,
        3..=4 => 62,
        5..=8 => 93,
        9..=12 => 123,
        13..=20 => 152,
        21..=32 => 180,
        _ => 206,
    }
}

/// The standard's context of a coefficient: c covered blocks, R remaining at k, `prev`.
pub fn coefficient(c: usize, r: usize, k: usize, prev: usize) -> usize {
    2 * (remaining(r.div_ceil(c)) + frequency(k / c)) + prev
}

/// The standard's default block contexts, by order of the transform: those of Y, then those of X and B.
const BLOCK_CONTEXTS: [[usize; 13]; 2] = [
    [0, 1, 2, 2, 3, 3, 4, 5, 6, 6, 6, 6, 6],
    [7, 8, 9, 9, 10, 11, 12, 13, 14, 14, 14, 14, 14],
];

/// The order of each of the 27 transforms.
const ORDERS: [usize; 27] =
    [0, 1, 1, 1, 2, 3, 4, 4, 5, 5, 6, 6, 1, 1, 1, 1, 1, 1, 7, 8, 8, 9, 10, 10, 11, 12, 12];

pub fn block_context(channel: u8, strategy: u8, quant_class: bool) -> usize {
    2 * BLOCK_CONTEXTS[usize::from(channel != 1)][ORDERS[strategy as usize]] + usize::from(quant_class)
}

pub fn bucket(count: usize) -> usize {
    match count {
        0..=7 => count,
        8..=63 => 4 + count / 2,
        _ => 36,
    }
}

/// The price of a value in a cluster. A symbol above 127 has no word.
pub fn cluster_price(book: &Book, cluster: usize, value: u32) -> f32 {
    let c = &book.configs[3 * cluster..][..3];
    let (symbol, extra) = split(value, c[0].into(), c[1].into(), c[2].into());
    match book.symbols[128 * cluster..][..128].get(symbol as usize) {
        Some(price) => price + extra as f32,
        None => INF,
    }
}

pub fn price(book: &Book, context: usize, value: u32) -> f32 {
    cluster_price(book, book.map[context] as usize, value)
}

pub fn biased(q: i32, one: f32, numerator: f32) -> f32 {
    match q {
        0 => 0.0,
        1 => one,
        -1 => -one,
        _ => q as f32 - numerator / q as f32,
    }
}

fn chroma(distance: f32) -> f32 {
    let t = ((distance - 2.25) / (4.0f32 - 2.25)).clamp(0.0, 1.0);
    2.0 + t * (1.0 - 2.0)
}

fn distortion_weight(i: usize, len: usize, distance: f32) -> f32 {
    let position = i as f32 / len as f32;
    let strength = (distance - 2.0).clamp(0.0, 1.0);
    let back = 1.0 - position;
    1.0 + strength * (back * back)
}

pub fn candidates(level: i32, ideal: f32, restoring: bool) -> Vec<i32> {
    let proposed = if restoring {
        // Halves away from zero; the sum is exact in f64.
        let r = (f64::from(ideal.abs()) + 0.5).floor() as f32;
        let r = if ideal < 0.0 { -r } else { r };
        if ideal.abs() > 2.5 && (ideal - r).abs() < 0.25 {
            return vec![level];
        }
        let r = r as i32;
        vec![level, 0, r, r - 1, r + 1]
    } else {
        vec![level, level - level.signum(), 0]
    };
    let mut list = Vec::new();
    for q in proposed {
        if !list.contains(&q) {
            list.push(q);
        }
    }
    list
}

/// A block that passed its checks, with what the definitions name.
pub struct Problem<'a> {
    book: &'a Book,
    block: &'a Block,
    rule: Rule,
    pub c: usize,
    pub w: usize,
    /// The nonzero levels past the window.
    pub s: usize,
    b: usize,
    /// The input's levels by scan position.
    pub input: Vec<i32>,
    pub ideals: Vec<f32>,
    weights: Vec<f32>,
    pub cand: Vec<Vec<i32>>,
    tail: [f32; 2],
    /// How often a comparison met an equal finite cost.
    pub ties: u64,
    /// Trellis: how often rounding alone made two nonzero levels equal, the later one the cheaper before the tail was added.
    pub rounded: u64,
}

impl<'a> Problem<'a> {
    pub fn new(book: &'a Book, block: &'a Block, rule: Rule) -> Self {
        Problem::under(WHOLE, book, block, rule)
    }

    /// With a cap on the window.
    pub fn under(cap: usize, book: &'a Book, block: &'a Block, rule: Rule) -> Self {
        let c = block.covered();
        let (w, restore) = window_under(cap, c);
        let restore = if rule == Rule::RestoreAll { w } else { restore };
        let base = (24 * c).min(64).min(63 * c);
        let input: Vec<i32> = block.scan.iter().map(|&at| block.levels[at as usize]).collect();
        let ideal = |i: usize| {
            let at = block.scan[c + i] as usize;
            block.source[at] * block.inverse[at] * block.scale
        };
        let scale = if block.channel == 1 { 1.0 } else { chroma(block.distance) };
        let weight = |i: usize| {
            block.channel_weight * scale * distortion_weight(i.min(base), base, block.distance)
        };
        let ideals: Vec<f32> = (0..w).map(ideal).collect();
        let cand = (0..w).map(|i| candidates(input[c + i], ideals[i], i < restore)).collect();
        let mut it = Problem {
            book,
            block,
            rule,
            c,
            w,
            s: input[c + w..].iter().map(|&q| nz(q)).sum(),
            b: block_context(block.channel, block.strategy, block.quant_class),
            weights: (0..w).map(weight).collect(),
            input,
            ideals,
            cand,
            tail: [0.0; 2],
            ties: 0,
            rounded: 0,
        };
        it.tail = [it.tail_cost(0), it.tail_cost(1)];
        if rule == Rule::TailForZero {
            it.tail[1] = it.tail[0];
        }
        it
    }

    fn token(&self, r: usize, k: usize, p: usize, q: i32) -> f32 {
        price(self.book, 1110 + 458 * self.b + coefficient(self.c, r, k, p), pack(q))
    }

    fn tail_cost(&self, first: usize) -> f32 {
        let (mut r, mut p, mut sum) = (self.s, first, 0.0);
        for k in self.c + self.w..self.input.len() {
            if r == 0 {
                break;
            }
            let q = self.input[k];
            sum += self.block.lambda * self.token(r, k, p, q);
            r -= nz(q);
            p = nz(q);
        }
        sum
    }

    fn distortion(&self, i: usize, q: i32) -> f32 {
        let t = self.ideals[i] - biased(q, self.block.one, self.block.numerator);
        self.weights[i] * (t * t)
    }

    fn rate(&self, i: usize, q: i32) -> f32 {
        if self.input[self.c + i] == 0 && q != 0 && self.rule != Rule::NoPenalty {
            self.block.lambda * self.block.penalty
        } else {
            self.block.lambda
        }
    }

    fn charge(&self, i: usize, r: usize, p: usize, q: i32) -> f32 {
        if r == 0 {
            if self.rule == Rule::TokenAtNothing {
                return self.rate(i, q) * self.token(1, self.c + i, p, q);
            }
            return 0.0;
        }
        self.rate(i, q) * self.token(r, self.c + i, p, q)
    }

    fn local(&self, i: usize, r: usize, p: usize, q: i32) -> f32 {
        if r == 0 && self.rule != Rule::TokenAtNothing {
            self.distortion(i, q)
        } else {
            self.distortion(i, q) + self.charge(i, r, p, q)
        }
    }

    fn path(&self, i: usize, r: usize, p: usize, q: i32, rest: f32) -> f32 {
        if self.rule == Rule::SumsFromTheRight {
            self.distortion(i, q) + (self.charge(i, r, p, q) + rest)
        } else {
            self.local(i, r, p, q) + rest
        }
    }

    fn first_prev(&self, count: usize) -> usize {
        match self.rule {
            Rule::FirstPrevZero => 0,
            Rule::FewByOne => usize::from(count <= 4 * self.c + 1),
            _ => usize::from(count <= 4 * self.c),
        }
    }

    fn count_cost(&self, n: usize) -> f32 {
        let context = 30 * bucket(self.block.predicted.into()) + self.b;
        self.block.lambda * price(self.book, context, n as u32)
    }

    /// Whether `x` replaces `best`: it is less, and the first least stays.
    fn better(&mut self, x: f32, best: f32) -> bool {
        if x == best && x < INF {
            self.ties += 1;
            return self.rule == Rule::LaterWins;
        }
        x < best
    }

    /// The block with these levels in the window.
    fn written(&self, levels: &[i32]) -> Vec<i32> {
        let mut all = self.block.levels.clone();
        for (i, &q) in levels.iter().enumerate() {
            all[self.block.scan[self.c + i] as usize] = q;
        }
        all
    }

    /// Cost and count of the block's levels after a search, by the definition of a choice's cost: the tail for the last
    /// `prev`, each local cost from the window's end back, then the count's.
    pub fn cost(&self, levels: &[i32]) -> (f32, usize) {
        let at = |i: usize| levels[self.block.scan[self.c + i] as usize];
        let (mut r, mut v) = (self.s, self.tail[nz(at(self.w - 1))]);
        let n = self.s + (0..self.w).map(|i| nz(at(i))).sum::<usize>();
        for i in (0..self.w).rev() {
            r += nz(at(i));
            let p = if i == 0 { self.first_prev(n) } else { nz(at(i - 1)) };
            v += self.local(i, r, p, at(i));
        }
        (v + self.count_cost(n), n)
    }

    /// The terms of the cost of these levels, each as it was rounded: the tail, the local costs, the count's price. None where a term is infinite.
    pub fn terms(&self, levels: &[i32]) -> Option<Vec<f32>> {
        let at = |i: usize| levels[self.block.scan[self.c + i] as usize];
        let n = self.s + (0..self.w).map(|i| nz(at(i))).sum::<usize>();
        let (mut r, mut terms) = (n, vec![self.tail[nz(at(self.w - 1))], self.count_cost(n)]);
        for i in 0..self.w {
            let p = if i == 0 { self.first_prev(n) } else { nz(at(i - 1)) };
            terms.push(self.local(i, r, p, at(i)));
            r -= nz(at(i));
        }
        terms.iter().all(|x| x.is_finite()).then_some(terms)
    }

    /// Whether these levels are a choice in the band: a candidate at each position, and the count of later nonzero levels near the input's.
    pub fn in_band(&self, levels: &[i32]) -> bool {
        let at = |i: usize| levels[self.block.scan[self.c + i] as usize];
        let mut off = 0i64;
        (0..self.w).rev().all(|i| {
            let allowed = self.cand[i].contains(&at(i)) && off.unsigned_abs() as usize <= self.band();
            off += nz(at(i)) as i64 - nz(self.input[self.c + i]) as i64;
            allowed
        })
    }

    pub fn run(&mut self, search: Search) -> Outcome {
        match search {
            Search::Greedy => self.greedy(),
            Search::Beam => self.beam(),
            // two walks, one definition
            Search::Trellis | Search::Unfactored => self.trellis(),
        }
    }

    fn answered(&self, cost: f32, count: usize, levels: &[i32]) -> Outcome {
        let reply = Reply::Cost { bits: cost.to_bits(), count: count as u32 };
        Outcome { reply, levels: self.written(levels) }
    }

    fn refused(&self, number: u32) -> Outcome {
        Outcome { reply: Reply::Refused(number), levels: self.block.levels.clone() }
    }

    fn band(&self) -> usize {
        match self.rule {
            Rule::NoBand => self.w + 1,
            Rule::NarrowBand => self.block.half_width as usize - 1,
            Rule::AtMostSix => self.block.half_width.min(HALF_WIDTH) as usize,
            _ => self.block.half_width as usize,
        }
    }

    /// Nonzero candidates in their order, then zero if it is listed.
    fn ordered(&self, i: usize) -> Vec<i32> {
        let list = &self.cand[i];
        if self.rule == Rule::ListOrder {
            return list.clone();
        }
        let zero = list.iter().filter(|&&q| q == 0);
        list.iter().filter(|&&q| q != 0).chain(zero).copied().collect()
    }

    fn trellis(&mut self) -> Outcome {
        let (w, s, band) = (self.w, self.s, self.band());
        let whole = s + (0..w).map(|i| nz(self.input[self.c + i])).sum::<usize>();
        // The row of the position after: its least count, and a pair of costs for each count.
        let mut low = s;
        let mut row = vec![self.tail];
        let mut choices: Vec<(usize, Vec<[i32; 2]>)> = vec![(0, Vec::new()); w];
        let mut after = s;
        for i in (0..w).rev() {
            let from = s.max(after.saturating_sub(band));
            let to = (after + band + 1).min(s + w - i);
            let list = self.ordered(i);
            let mut costs = vec![[INF; 2]; to - from + 1];
            let mut picks = vec![[i32::MAX; 2]; to - from + 1];
            for r in from..=to {
                for p in 0..2 {
                    let mut least_local = INF;
                    for &q in &list {
                        if r < nz(q) || (r - nz(q)).abs_diff(after) > band {
                            continue;
                        }
                        let Some(next) = (r - nz(q)).checked_sub(low).and_then(|at| row.get(at)) else {
                            continue;
                        };
                        let x = self.path(i, r, p, q, next[nz(q)]);
                        let local = self.local(i, r, p, q);
                        let best = costs[r - from][p];
                        let taken = picks[r - from][p];
                        if x == best && x < INF && q != 0 && taken != 0 && local < self.local(i, r, p, taken) {
                            self.rounded += 1;
                        }
                        let replaces = if self.rule == Rule::LocalFirst && q != 0 {
                            x < INF && local < least_local
                        } else {
                            self.better(x, best)
                        };
                        if replaces {
                            least_local = local;
                            costs[r - from][p] = x;
                            picks[r - from][p] = q;
                        }
                    }
                }
            }
            choices[i] = (from, picks);
            (low, row) = (from, costs);
            after += nz(self.input[self.c + i]);
        }
        let (mut best, mut count) = (INF, None);
        for (at, costs) in row.iter().enumerate() {
            let n = low + at;
            if self.rule == Rule::BandOnWhole && n.abs_diff(whole) > 6 {
                continue;
            }
            let x = costs[self.first_prev(n)] + self.count_cost(n);
            if x == best && x < INF {
                self.ties += 1;
            }
            if x < best || (self.rule == Rule::LargerCount && x == best && x < INF) {
                (best, count) = (x, Some(n));
            }
        }
        let Some(count) = count else {
            return self.refused(15);
        };
        let (mut r, mut p) = (count, self.first_prev(count));
        let mut levels = Vec::with_capacity(w);
        for (from, picks) in &choices {
            let q = picks[r - from][p];
            levels.push(q);
            r -= nz(q);
            p = nz(q);
        }
        self.answered(best, count, &levels)
    }

    fn beam(&mut self) -> Outcome {
        let width = if self.rule == Rule::FourPaths { 4 } else { 3 };
        let mut paths: Vec<(usize, [f32; 2])> = vec![(self.s, self.tail)];
        // For each position and kept path: the path after it and the level, for each `prev`.
        let mut memory: Vec<Vec<[(usize, i32); 2]>> = vec![Vec::new(); self.w];
        for i in (0..self.w).rev() {
            let list = self.cand[i].clone();
            if let [q] = list[..] {
                for (at, (r, v)) in paths.iter_mut().enumerate() {
                    *r += nz(q);
                    *v = [0, 1].map(|p| self.path(i, *r, p, q, v[nz(q)]));
                    memory[i].push([(at, q); 2]);
                }
                continue;
            }
            let mut dests: Vec<(usize, [f32; 2], [(usize, i32); 2])> = Vec::new();
            for &(r, v) in &paths {
                if self.rule == Rule::FiniteNamed && v[0] == INF && v[1] == INF {
                    continue;
                }
                for count in [r, r + 1] {
                    if dests.iter().all(|d| d.0 != count) {
                        dests.push((count, [INF; 2], [(0, list[0]); 2]));
                    }
                }
            }
            for (at, &(r, v)) in paths.iter().enumerate() {
                for &q in &list {
                    for p in 0..2 {
                        let x = self.path(i, r + nz(q), p, q, v[nz(q)]);
                        let Some(to) = dests.iter().position(|d| d.0 == r + nz(q)) else {
                            continue;
                        };
                        if self.better(x, dests[to].1[p]) {
                            dests[to].1[p] = x;
                            dests[to].2[p] = (at, q);
                        }
                    }
                }
            }
            if dests.len() > width || self.rule == Rule::AlwaysSorted {
                let rule = self.rule;
                let key = |d: &(usize, [f32; 2], [(usize, i32); 2])| {
                    if rule == Rule::RankedByFirst { d.1[0] } else { d.1[0].min(d.1[1]) }
                };
                dests.sort_by(|x, y| key(x).partial_cmp(&key(y)).unwrap());
                dests.truncate(width);
            }
            paths = dests.iter().map(|d| (d.0, d.1)).collect();
            memory[i] = dests.iter().map(|d| d.2).collect();
        }
        let (mut best, mut found) = (INF, None);
        for (at, (r, v)) in paths.iter().enumerate() {
            let x = v[self.first_prev(*r)] + self.count_cost(*r);
            if x == best && x < INF {
                self.ties += 1;
            }
            if x < best {
                (best, found) = (x, Some(at));
            }
        }
        let Some(mut at) = found else {
            return self.refused(16);
        };
        let count = paths[at].0;
        let mut p = self.first_prev(count);
        let mut levels = Vec::with_capacity(self.w);
        for kept in &memory {
            let (before, q) = kept[at][p];
            levels.push(q);
            (at, p) = (before, nz(q));
        }
        self.answered(best, count, &levels)
    }

    fn greedy(&mut self) -> Outcome {
        let (c, w) = (self.c, self.w);
        let mut x: Vec<i32> = self.input[c..c + w].to_vec();
        let mut behind = self.s;
        let mut front: usize = x.iter().map(|&q| nz(q)).sum();
        let mut input_behind = self.s;
        for i in (0..w).rev() {
            let current = x[i];
            front -= nz(current);
            let later = if self.rule == Rule::CountBehind { input_behind } else { behind };
            let others = later + front;
            input_behind += nz(current);
            let nothing = current == 0 && later == 0 && self.rule != Rule::NoSkip;
            if self.cand[i].len() == 1 || nothing {
                behind += nz(current);
                continue;
            }
            let run = if later > 0 || self.rule == Rule::NoRun { 0.0 } else { self.zeros_before(&x, i) };
            let (mut best, mut kept) = (INF, current);
            for q in self.cand[i].clone() {
                let r = later + nz(q);
                let p = if i == 0 { self.first_prev(others + nz(q)) } else { nz(x[i - 1]) };
                let bits = match (r, q) {
                    (0, _) => 0.0,
                    (_, 0) => self.token(r, c + i, p, q),
                    _ => self.token(r, c + i, p, q) + run,
                };
                let cost = (self.distortion(i, q) + self.rate(i, q) * bits) + self.count_cost(others + nz(q));
                if self.better(cost, best) {
                    (best, kept) = (cost, q);
                }
            }
            x[i] = kept;
            behind += nz(kept);
        }
        Outcome { reply: Reply::Count(behind as u32), levels: self.written(&x) }
    }

    /// The price of the zeros that end just before i, back to a nonzero level or the first position.
    fn zeros_before(&self, x: &[i32], i: usize) -> f32 {
        let first = (0..i).rev().find(|&j| x[j] != 0).map_or(0, |j| j + 1);
        (first..i).fold(0.0, |sum, j| sum + self.token(1, self.c + j, usize::from(j == first), 0))
    }
}
