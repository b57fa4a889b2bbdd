//! How long a record of a file takes. The sides take turns, so that what disturbs one disturbs
//! all.

use std::io;

use super::files::File;
use super::side::{ANSWERS, Sides};
use crate::times::sorted;

/// Odd, so that there is a middle one.
pub const ROUNDS: usize = 5;

/// The order of the columns.
pub const NAMES: [&str; 3] = ["Rust", "search", "fast"];
pub const RUST: usize = 0;
pub const FAST: usize = 2;

pub struct Timed {
    /// Seconds of each side for the file once.
    rounds: Vec<[f64; NAMES.len()]>,
}

impl Timed {
    pub fn measure(file: &File, sides: &Sides) -> io::Result<Self> {
        let (few, many) = file.lay()?;
        let round = |_| {
            let rust = sides.rust.seconds(few, ANSWERS)?;
            let search = sides.search.seconds(few, ANSWERS)?;
            let fast = sides.fast.seconds(many, ANSWERS)? / file.times as f64;
            Ok([rust, search, fast])
        };
        let rounds = (0..ROUNDS).map(round).collect::<io::Result<_>>()?;
        Ok(Timed { rounds })
    }

    pub fn seconds(&self, side: usize) -> f64 {
        sorted(self.rounds.iter().map(|round| round[side]))[ROUNDS / 2]
    }

    pub fn ratio(&self) -> f64 {
        self.ratios()[ROUNDS / 2]
    }

    pub fn spread(&self) -> String {
        let ratios = self.ratios();
        format!("{:.0}-{:.0}", ratios[0], ratios[ROUNDS - 1])
    }

    /// Of the Rust source to the fast form.
    fn ratios(&self) -> Vec<f64> {
        sorted(self.rounds.iter().map(|round| round[RUST] / round[FAST]))
    }
}
