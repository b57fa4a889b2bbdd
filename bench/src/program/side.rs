//! A program that is measured: started with a file of hands, its answers written to a file.

use std::fs::{self, File};
use std::io;
use std::process::{Command, Stdio};
use std::time::Instant;

/// Where answers stand that are compared in memory.
pub const ANSWERS: &str = "bench/target/program.answers";

pub struct Side {
    words: Vec<String>,
}

/// Ours, and the same by the Rust source.
pub struct Sides {
    pub fast: Side,
    pub search: Side,
    pub rust: Side,
    pub maps: Side,
}

impl Sides {
    /// By the words that start ours and the other.
    pub fn new(ours: &[String], by_rust: &[String]) -> Self {
        Sides {
            fast: Side::new(ours, &[]),
            search: Side::new(ours, &["--search"]),
            rust: Side::new(by_rust, &[]),
            maps: Side::new(by_rust, &["--maps"]),
        }
    }
}

impl Side {
    fn new(words: &[String], more: &[&str]) -> Self {
        let more = more.iter().map(|word| word.to_string());
        Side {
            words: words.iter().cloned().chain(more).collect(),
        }
    }

    pub fn command(&self) -> Command {
        let mut command = Command::new(&self.words[0]);
        command.args(&self.words[1..]);
        command
    }

    pub fn answers(&self, hands: &str) -> io::Result<Vec<u8>> {
        self.seconds(hands, ANSWERS)?;
        fs::read(ANSWERS)
    }

    /// The seconds from its start to its end.
    pub fn seconds(&self, hands: &str, answers: &str) -> io::Result<f64> {
        let begun = Instant::now();
        let status = self
            .command()
            .stdin(Stdio::from(File::open(hands)?))
            .stdout(Stdio::from(File::create(answers)?))
            .status()?;
        match status.success() {
            true => Ok(begun.elapsed().as_secs_f64()),
            false => Err(io::Error::other(format!(
                "{}: {status}",
                self.words.join(" ")
            ))),
        }
    }
}
