//! The oracle of document 01: the Rust source with each map lookup replaced by
//! `pack_values` on the same counts, a second judge that knows only the definition
//! of a target, and what holds the two against each other.

// The Rust source names itself so.
extern crate self as xiangting;

// The Rust source. `rustfmt::skip` keeps the unchanged files unchanged.

#[rustfmt::skip]
#[path = "../verbatim/src/tile.rs"]
pub mod tile;

// `new` and what it refuses with are run by the tests alone (see `accepted`).
#[allow(dead_code)]
#[path = "../adapted/bingpai.rs"]
#[rustfmt::skip]
mod bingpai;

#[path = "../adapted/build_map.rs"]
#[rustfmt::skip]
mod build_map;

pub use build_map::searched;

pub mod standard;

pub mod mapped;

// The harness.

pub mod answer;
pub mod hand;
pub mod merged;
pub mod notation;
pub mod record;
pub mod refusal;
pub mod show;
pub mod suit;
pub mod words;

// The second judge and the comparison.

pub mod compare;
pub mod judge;

// The generator.

pub mod make;
pub mod random;

pub mod options;

#[cfg(test)]
mod accepted;
