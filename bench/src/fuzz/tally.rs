//! What was asked in a part, what it was answered with, and what was different.

use std::collections::{BTreeMap, BTreeSet};

use crate::PRINTED;

#[derive(Default)]
pub struct Tally {
    asked: usize,
    /// How many inputs of each kind.
    kinds: BTreeMap<&'static str, usize>,
    /// The different lengths and offsets that were met.
    met: BTreeMap<&'static str, BTreeSet<usize>>,
    /// By the code that is expected, 0 for an answer.
    codes: [usize; 9],
    first: Vec<String>,
    different: usize,
}

impl Tally {
    pub fn count(&self) -> usize {
        self.asked
    }

    pub fn asked(&mut self, kind: &'static str) {
        self.asked += 1;
        *self.kinds.entry(kind).or_default() += 1;
    }

    pub fn met(&mut self, what: &'static str, value: usize) {
        self.met.entry(what).or_default().insert(value);
    }

    pub fn code(&mut self, code: u8) {
        self.codes[usize::from(code)] += 1;
    }

    /// The line is made only where it may be printed.
    pub fn hold(&mut self, same: bool, line: impl FnOnce() -> String) {
        if same {
            return;
        }
        self.different += 1;
        if self.first.len() < PRINTED {
            self.first.push(line());
        }
    }

    /// Something was asked and nothing was different.
    pub fn is_clean(&self) -> bool {
        self.asked > 0 && self.different == 0
    }

    pub fn print(&self, name: &str) {
        println!("{name}: {} asked", self.asked);
        let kinds = self.kinds.iter();
        print_row("kinds", kinds.map(|(kind, n)| format!("{kind} {n}")));
        let met = self.met.iter();
        print_row("met", met.map(|(what, set)| spread(what, set)));
        let [answered, refused @ ..] = self.codes;
        let codes = (1..).zip(refused).filter(|(_, n)| *n > 0);
        let refused = codes.map(|(code, n)| format!("refused with {code} {n}"));
        let answered = [format!("answered {answered}")];
        print_row("codes", answered.into_iter().chain(refused));
        for line in &self.first {
            println!("    DIFFERS {line}");
        }
        println!("    differences {}", self.different);
    }
}

fn print_row(name: &str, cells: impl Iterator<Item = String>) {
    let cells: Vec<String> = cells.collect();
    println!("    {name}: {}", cells.join("; "));
}

fn spread(what: &str, set: &BTreeSet<usize>) -> String {
    let ends = (set.first(), set.last());
    match ends {
        (Some(first), Some(last)) => format!("{} {what} {first} to {last}", set.len()),
        _ => format!("no {what}"),
    }
}

#[cfg(test)]
mod tests {
    use super::*;

    #[test]
    fn one_difference_is_enough() {
        let mut tally = Tally::default();
        assert!(!tally.is_clean());
        tally.asked("plausible");
        tally.hold(true, || unreachable!());
        assert!(tally.is_clean());
        tally.hold(false, || "this, not that".into());
        assert!(!tally.is_clean());
        assert_eq!(tally.first, ["this, not that"]);
    }
}
