//! Our search, our entries and our program, proved and compiled, beside the Rust source:
//! compared, and measured.

pub mod aim;
pub mod clock;
pub mod compare;
pub mod fuzz;
pub mod group;
pub mod hands;
pub mod maps;
pub mod ours;
pub mod parts;
pub mod program;
pub mod reply;
pub mod suits;
pub mod times;

/// So many differences are printed.
const PRINTED: usize = 5;
