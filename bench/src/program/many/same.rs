//! All answers of two files, held against each other.

use std::fs::File;
use std::io::{self, BufReader, Read};

use oracle::record::ANSWER_RECORD;

use super::scratch::Scratch;

/// So many bytes are read at once.
const PART: usize = 65_536 * ANSWER_RECORD;

/// Says whether there are as many answers as there should be and all are the same.
pub fn all(scratch: &Scratch, count: usize) -> io::Result<bool> {
    let (ours, rust) = (length(&scratch.ours)?, length(&scratch.rust)?);
    let right = (count * ANSWER_RECORD) as u64;
    if ours != right || rust != right {
        println!("{right} bytes of answers are expected: ours {ours}, the Rust source {rust}");
        return Ok(false);
    }
    let (mut ours, mut rust) = (open(&scratch.ours)?, open(&scratch.rust)?);
    let (mut different, mut refused) = (0, 0);
    let (mut part, mut other) = (Vec::new(), Vec::new());
    while read(&mut ours, &mut part)? > 0 {
        read(&mut rust, &mut other)?;
        let answers = part.chunks(ANSWER_RECORD);
        different += answers
            .clone()
            .zip(other.chunks(ANSWER_RECORD))
            .filter(|(ours, rust)| ours != rust)
            .count();
        refused += answers.filter(|answer| answer[0] != 0).count();
    }
    println!("{count} answers compared, {refused} of them refusals, {different} different");
    Ok(different == 0)
}

fn length(path: &str) -> io::Result<u64> {
    Ok(File::open(path)?.metadata()?.len())
}

fn open(path: &str) -> io::Result<BufReader<File>> {
    Ok(BufReader::new(File::open(path)?))
}

fn read(file: &mut BufReader<File>, part: &mut Vec<u8>) -> io::Result<usize> {
    part.clear();
    file.by_ref().take(PART as u64).read_to_end(part)
}
