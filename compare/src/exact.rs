//! How far from the exact sum (document 02, ticket 13): the terms of a choice's cost, each as it was rounded, are added up without rounding, as
//! whole multiples of 2^-149. For the levels C that the trellis wrote and any choice D of finite price in the band,
//! C * (2^24 - 1)^(W + 1) <= D * (2^24 + 1)^(W + 1), W being the length of the window.

use crate::data::Search;
use crate::plain::{Problem, Rule};

/// A whole number, least part first.
#[derive(Clone, Default)]
struct Whole(Vec<u32>);

impl Whole {
    fn add_shifted(&mut self, value: u32, shift: usize) {
        let wide = u64::from(value) << (shift % 32);
        self.add_at(shift / 32, wide as u32);
        self.add_at(shift / 32 + 1, (wide >> 32) as u32);
    }

    fn add_at(&mut self, mut at: usize, part: u32) {
        let mut carry = part;
        while carry != 0 {
            if self.0.len() <= at {
                self.0.resize(at + 1, 0);
            }
            let (sum, over) = self.0[at].overflowing_add(carry);
            self.0[at] = sum;
            carry = u32::from(over);
            at += 1;
        }
    }

    fn times(&mut self, factor: u32) {
        let mut carry = 0u64;
        for part in &mut self.0 {
            let wide = u64::from(*part) * u64::from(factor) + carry;
            *part = wide as u32;
            carry = wide >> 32;
        }
        if carry != 0 {
            self.0.push(carry as u32);
        }
    }

    /// No part of it is a leading 0: numbers are made by sums and products alone.
    fn at_most(&self, other: &Whole) -> bool {
        match self.0.len().cmp(&other.0.len()) {
            std::cmp::Ordering::Equal => self.0.iter().rev().le(other.0.iter().rev()),
            order => order.is_lt(),
        }
    }
}

/// The sum of finite floats that are not negative, in units of 2^-149.
fn sum(terms: &[f32]) -> Whole {
    let mut whole = Whole::default();
    for term in terms {
        let bits = term.to_bits();
        let (exponent, fraction) = (bits >> 23, bits & 0x7f_ffff);
        match exponent {
            0 => whole.add_shifted(fraction, 0),
            _ => whole.add_shifted(fraction | 0x80_0000, exponent as usize - 1),
        }
    }
    whole
}

/// Whether the terms that were written are within the bound of the others'; `window` is W.
pub fn near(written: &[f32], other: &[f32], window: usize) -> bool {
    let (mut c, mut d) = (sum(written), sum(other));
    for _ in 0..=window {
        c.times((1 << 24) - 1);
        d.times((1 << 24) + 1);
    }
    c.at_most(&d)
}

/// How much of what is allowed a pair of sums uses, by floats of 64 bits: 1.0 is all of it.
fn used(written: &[f32], other: &[f32], window: usize) -> f64 {
    let total = |terms: &[f32]| terms.iter().map(|&x| f64::from(x)).sum::<f64>();
    let m = f64::from(1 << 24);
    (total(written) / total(other)).ln() / ((window + 1) as f64 * ((m + 1.0) / (m - 1.0)).ln())
}

/// The sums above on numbers that are known, and the block that uses nearly all of what is allowed. (The Rust's text does not compile under `cargo test`.)
pub fn self_check() {
    // the smallest subnormal is 1, 1.0 is 2^149
    assert_eq!(sum(&[f32::from_bits(1)]).0, [1]);
    assert_eq!(sum(&[1.0, f32::from_bits(3)]).0, [3, 0, 0, 0, 1 << (149 - 128)]);
    assert_eq!(sum(&[f32::MAX]).0.len(), 9);
    // 64 roundings of a part in 2^23 each are one part in 2^17; one part in 2^23 more is too much, and so is one rounding less
    let within = 1.0 + 1.0 / 131_072.0;
    assert!(near(&[1.0], &[1.0], 63) && near(&[within], &[1.0], 63));
    assert!(!near(&[within + f32::EPSILON], &[1.0], 63) && !near(&[within], &[1.0], 62));
    let (book, block) = (crate::books::free_of_cost(), crate::blocks::nearly_off());
    let mut problem = Problem::new(&book, &block, Rule::Kept);
    let written = problem.run(Search::Trellis).levels;
    let ones: Vec<i32> = written.iter().map(|&q| q.min(1)).collect();
    assert!(written[1..63].iter().all(|&q| q == 2) && problem.in_band(&ones));
    let (c, d) = (problem.terms(&written).unwrap(), problem.terms(&ones).unwrap());
    let share = used(&c, &d, 63);
    assert!(near(&c, &d, 63) && (0.9674..0.9676).contains(&share), "{share}");
}
