//! A scanned coupon from end to end: what an encoder does around the level search, by the public calls of the crate `rdoq` alone.
//!
//! | Module | |
//! |---|---|
//! | [`paint`] | a picture of a coupon, the same on every run |
//! | [`picture`], [`huffman`] | PPM in, PNG out; prefix codes and ANS frequencies from counts |
//! | [`colour`], [`transform`], [`layout`] | XYB, cosine transforms with scans and weights, groups and blocks |
//! | [`coded`] | coefficients and quantised levels, and the picture that a decoder restores |
//! | [`codes`] | books: a static one, and those of codes made from a tally |
//! | [`passes`] | search, write, count; the second run, which replaces tokens |
//! | [`runs`], [`strip`] | a picture through all of it, with figures; the failed strip |
pub mod coded;
pub mod codes;
pub mod colour;
pub mod huffman;
pub mod layout;
pub mod paint;
pub mod passes;
pub mod picture;
pub mod runs;
pub mod strip;
pub mod transform;
