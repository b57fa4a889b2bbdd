//! What was compared, and how often it was different.

use std::time::Instant;

/// So many different inputs are printed.
const PRINTED: u64 = 5;

pub struct Tally {
    what: String,
    compared: u64,
    different: u64,
    first: Vec<String>,
    begun: Instant,
}

impl Tally {
    pub fn new(what: &str) -> Self {
        Tally {
            what: what.into(),
            compared: 0,
            different: 0,
            first: Vec::new(),
            begun: Instant::now(),
        }
    }

    /// Counts one comparison; the input is written down only where it is different.
    pub fn check(&mut self, same: bool, input: impl Fn() -> String) {
        self.compared += 1;
        if same {
            return;
        }
        self.different += 1;
        if self.different <= PRINTED {
            self.first.push(input());
        }
    }

    pub fn is_clean(&self) -> bool {
        self.different == 0 && self.compared > 0
    }

    pub fn print_head() {
        println!(
            "{:52}{:>12}{:>12}{:>10}",
            "", "compared", "different", "seconds"
        );
    }

    /// Prints the line and hands the tally on.
    pub fn print(self) -> Self {
        let seconds = self.begun.elapsed().as_secs_f64();
        println!(
            "{:52}{:>12}{:>12}{seconds:>10.1}",
            self.what, self.compared, self.different
        );
        for input in &self.first {
            println!("    different: {input}");
        }
        self
    }
}

#[cfg(test)]
mod tests {
    use super::Tally;

    #[test]
    fn one_difference_is_enough() {
        let mut tally = Tally::new("two things");
        assert!(!tally.is_clean());
        tally.check(true, || unreachable!());
        assert!(tally.is_clean());
        tally.check(false, || "the second".into());
        assert!(!tally.is_clean());
        assert_eq!(tally.first, ["the second"]);
    }
}
