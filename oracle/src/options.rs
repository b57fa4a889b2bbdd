//! The `--name value` options of a command, and how it ends.

use std::process::ExitCode;

pub struct Options {
    words: Vec<String>,
}

impl Options {
    pub fn new(words: impl Iterator<Item = String>) -> Self {
        Options {
            words: words.collect(),
        }
    }

    /// Takes a bare `--name` out, if it is there.
    pub fn flag(&mut self, name: &str) -> bool {
        let place = self.words.iter().position(|word| word == name);
        if let Some(at) = place {
            self.words.remove(at);
        }
        place.is_some()
    }

    /// Takes `--name number` out; what stands for it when it is not there is given.
    pub fn number(&mut self, name: &str, otherwise: u64) -> Result<u64, String> {
        let Some(at) = self.words.iter().position(|word| word == name) else {
            return Ok(otherwise);
        };
        let missing = format!("{name} needs a number");
        let value = self.words.get(at + 1).ok_or(missing.clone())?;
        let number = value.parse().map_err(|_| missing)?;
        self.words.drain(at..at + 2);
        Ok(number)
    }

    /// Nothing may be left over.
    pub fn end(self) -> Result<(), String> {
        match self.words.first() {
            Some(word) => Err(format!("not understood: {word}")),
            None => Ok(()),
        }
    }
}

/// With 0, or with 1 where something was different or wrong; with 2 and a message where it could
/// not be done.
pub fn ended(done: Result<bool, String>, usage: &str) -> ExitCode {
    match done {
        Ok(true) => ExitCode::SUCCESS,
        Ok(false) => ExitCode::from(1),
        Err(message) => {
            eprintln!("{message}\n{usage}");
            ExitCode::from(2)
        }
    }
}
