//! How much memory the program takes, through a pipe and however long its input is.

use std::fs::{self, File};
use std::io::{self, Read};
use std::process::{ChildStdin, ChildStdout, Stdio};
use std::thread;
use std::time::Instant;

use oracle::hand::HAND_RECORD;
use oracle::record::ANSWER_RECORD;

use super::side::Side;

/// The file of hands up to a hundredth, a tenth, and all of it.
const SHARES: [usize; 3] = [100, 10, 1];

/// So many answers are read at once.
const PART: usize = 4_096;

/// Says whether all answers were right: those in the file.
pub fn print(side: &Side, hands: &str, answers: &str, count: usize) -> io::Result<bool> {
    println!("memory, the same records through a pipe: the most that was resident");
    for share in SHARES {
        let records = count / share;
        let begun = Instant::now();
        let Some(most) = peak(side, hands, answers, records)? else {
            println!("{records} records: other answers");
            return Ok(false);
        };
        let seconds = begun.elapsed().as_secs_f64();
        println!("{records:>9} records: {most}, {seconds:.2} s");
    }
    Ok(true)
}

/// None if an answer is wrong. The program still waits for more when its memory is read: what
/// the system tells of it after its end would count the process that started it as well.
fn peak(side: &Side, hands: &str, answers: &str, records: usize) -> io::Result<Option<String>> {
    let hands = File::open(hands)?.take((records * HAND_RECORD) as u64);
    let mut child = side
        .command()
        .stdin(Stdio::piped())
        .stdout(Stdio::piped())
        .spawn()?;
    let stdin = child.stdin.take().expect("a pipe");
    let stdout = child.stdout.take().expect("a pipe");
    let found = thread::scope(|scope| {
        let feeder = scope.spawn(|| feed(stdin, hands));
        let same = all_same(stdout, answers, records)?;
        // the input stays open as long as this is kept
        let open = feeder.join().expect("a thread that ends")?;
        let most = resident(child.id())?;
        drop(open);
        Ok::<_, io::Error>(same.then_some(most))
    })?;
    child.wait()?;
    Ok(found)
}

fn feed(mut stdin: ChildStdin, mut hands: impl Read) -> io::Result<ChildStdin> {
    io::copy(&mut hands, &mut stdin)?;
    Ok(stdin)
}

fn all_same(mut stdout: ChildStdout, answers: &str, records: usize) -> io::Result<bool> {
    let mut wanted = File::open(answers)?;
    let (mut part, mut right) = ([0; PART * ANSWER_RECORD], [0; PART * ANSWER_RECORD]);
    let mut left = records * ANSWER_RECORD;
    let mut same = true;
    while left > 0 {
        let length = left.min(part.len());
        stdout.read_exact(&mut part[..length])?;
        wanted.read_exact(&mut right[..length])?;
        same &= part[..length] == right[..length];
        left -= length;
    }
    Ok(same)
}

fn resident(id: u32) -> io::Result<String> {
    let status = fs::read_to_string(format!("/proc/{id}/status"))?;
    let mut lines = status.lines();
    let most = lines.find_map(|line| line.strip_prefix("VmHWM:"));
    most.map(|most| most.trim().into())
        .ok_or_else(|| io::Error::other("the system tells no VmHWM"))
}
