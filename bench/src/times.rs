//! The times of a group over all rounds, and what is told of them.

use std::fmt::Display;

use crate::clock::{ROUNDS, rounds};
use crate::group::Group;

pub struct Times {
    pub name: &'static str,
    pub size: usize,
    rounds: Vec<Vec<f64>>,
}

impl Times {
    pub fn measure(group: &dyn Group) -> Self {
        Times {
            name: group.name(),
            size: group.size(),
            rounds: rounds(group),
        }
    }

    /// Microseconds for one suit or hand: the middle of all rounds.
    pub fn micros(&self, side: usize) -> f64 {
        self.middle(|round| round[side] * 1e6)
    }

    /// The middle of what is found of each round, from the seconds of the sides.
    pub fn middle(&self, of: impl Fn(&[f64]) -> f64) -> f64 {
        self.all(of)[ROUNDS / 2]
    }

    /// The middle of the ratios of the rounds, as a cell of a table.
    pub fn ratio(&self, side: usize, to: usize) -> f64 {
        self.middle(|round| round[side] / round[to])
    }

    /// The lowest and the highest of them, with so many digits.
    pub fn spread(&self, side: usize, to: usize, digits: usize) -> String {
        let ratios = self.all(|round| round[side] / round[to]);
        let (lowest, highest) = (ratios[0], ratios[ROUNDS - 1]);
        format!("{lowest:.digits$}-{highest:.digits$}")
    }

    /// The beginning of its line in a table.
    pub fn print_name(&self) {
        print_start(self.name, self.size);
    }

    /// Its line, with a cell for each side: so wide, and with so many digits.
    pub fn print_line(&self, width: usize, digits: usize, cell: impl Fn(usize) -> f64) {
        self.print_name();
        let cells = (0..self.rounds[0].len()).map(cell);
        cells.for_each(|cell| print!("{cell:>width$.digits$}"));
        println!();
    }

    fn all(&self, of: impl Fn(&[f64]) -> f64) -> Vec<f64> {
        sorted(self.rounds.iter().map(|round| of(round)))
    }
}

/// Measures the groups and prints what each side takes, a line to a group.
pub fn print_micros(
    groups: &[Box<dyn Group>],
    what: &str,
    columns: &[&str],
    width: usize,
) -> Vec<Times> {
    print_head(what, columns, width);
    let measured = groups.iter().map(|group| {
        let times = Times::measure(group.as_ref());
        times.print_line(width, 3, |side| times.micros(side));
        times
    });
    measured.collect()
}

/// The columns are so wide.
pub fn print_head(what: &str, columns: &[&str], width: usize) {
    println!("{what}: the middle of {ROUNDS} rounds");
    print_start("", "hands");
    columns.iter().for_each(|name| print!("{name:>width$}"));
    println!();
}

/// The name of a group, and how many hands it has.
pub fn print_start(name: &str, size: impl Display) {
    print!("{name:34}{size:>6}");
}

pub fn sorted(values: impl Iterator<Item = f64>) -> Vec<f64> {
    let mut values: Vec<f64> = values.collect();
    values.sort_by(f64::total_cmp);
    values
}
