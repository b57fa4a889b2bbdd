//! The large files, and whether there is room for them.

use std::process::Command;
use std::{fs, io};

use oracle::hand::HAND_RECORD;
use oracle::record::ANSWER_RECORD;

/// Where they stand.
const FOLDER: &str = "bench/target";

/// Left free beside them.
const SPARE: usize = 200_000_000;

/// The hands, and the answers of both. They are removed at the end, whatever it is.
pub struct Scratch {
    pub hands: String,
    pub ours: String,
    pub rust: String,
}

impl Scratch {
    /// None, and told, if there is not room for so many records.
    pub fn new(count: usize) -> io::Result<Option<Self>> {
        let needed = count * (HAND_RECORD + 2 * ANSWER_RECORD) + SPARE;
        let free = free()?;
        let megabytes = |bytes: usize| bytes / 1_000_000;
        let (needs, has) = (megabytes(needed), megabytes(free));
        println!("{count} records need {needs} MB of disk, {has} MB are free");
        if free < needed {
            println!("that is too little: they are not measured");
            return Ok(None);
        }
        let name = |what: &str| format!("{FOLDER}/many.{what}");
        Ok(Some(Scratch {
            hands: name("hands"),
            ours: name("ours"),
            rust: name("rust"),
        }))
    }
}

impl Drop for Scratch {
    fn drop(&mut self) {
        for file in [&self.hands, &self.ours, &self.rust] {
            // what was not made cannot be removed
            let _ = fs::remove_file(file);
        }
    }
}

/// Bytes, as the system tells them: the fourth word of the second line.
fn free() -> io::Result<usize> {
    let told = Command::new("df").args(["-Pk", FOLDER]).output()?;
    let told = String::from_utf8_lossy(&told.stdout);
    let word = told
        .lines()
        .nth(1)
        .and_then(|line| line.split_whitespace().nth(3));
    let kilobytes: Option<usize> = word.and_then(|word| word.parse().ok());
    kilobytes
        .map(|kilobytes| kilobytes * 1024)
        .ok_or_else(|| io::Error::other("df does not tell what is free"))
}
