//! The program, started by `./annotate` and fed in one of the ways, and what came of it.

use std::fs::{self, File};
use std::io::{self, Read, Write};
use std::os::unix::process::CommandExt;
use std::process::{Child, ChildStdin, ChildStdout, Command, ExitStatus, Stdio};
use std::sync::mpsc::{Receiver, Sender, channel};
use std::thread;
use std::time::{Duration, Instant};

use oracle::hand::HAND_RECORD;
use oracle::record::ANSWER_RECORD;

use super::files::{Delivery, Form, Input};

/// A program that takes longer hangs.
const LIMIT: Duration = Duration::from_secs(60);

/// Where an input stands that is delivered as a file.
const FILE: &str = "bench/target/fuzz.hands";

pub struct Ran {
    pub wrote: Vec<u8>,
    pub said: String,
    /// None if it hung.
    pub status: Option<ExitStatus>,
}

pub fn run(input: &Input) -> io::Result<Ran> {
    let mut child = start(input)?;
    let stdin = child.stdin.take();
    let stdout = child.stdout.take().expect("a pipe");
    let taken = match input.delivery {
        Delivery::Closing(taken) => taken,
        _ => usize::MAX,
    };
    let (tell, told) = channel();
    thread::scope(|scope| {
        scope.spawn(|| stdin.map(|stdin| feed(stdin, input, told)));
        let reader = scope.spawn(move || read(stdout, taken, tell));
        let status = wait(&mut child)?;
        let mut said = String::new();
        let mut stderr = child.stderr.take().expect("a pipe");
        stderr.read_to_string(&mut said)?;
        let wrote = reader.join().expect("a thread that ends");
        Ok(Ran {
            wrote,
            said,
            status,
        })
    })
}

/// In a process group of its own, so that what hangs can be ended with all that it started.
fn start(input: &Input) -> io::Result<Child> {
    let stdin = match input.delivery {
        Delivery::File => {
            fs::write(FILE, &input.bytes)?;
            Stdio::from(File::open(FILE)?)
        }
        _ => Stdio::piped(),
    };
    let words: &[&str] = match input.form {
        Form::Fast => &[],
        Form::Search => &["--search"],
    };
    Command::new("./annotate")
        .args(words)
        .process_group(0)
        .stdin(stdin)
        .stdout(Stdio::piped())
        .stderr(Stdio::piped())
        .spawn()
}

fn wait(child: &mut Child) -> io::Result<Option<ExitStatus>> {
    let begun = Instant::now();
    while begun.elapsed() < LIMIT {
        if let Some(status) = child.try_wait()? {
            return Ok(Some(status));
        }
        thread::sleep(Duration::from_millis(2));
    }
    let group = format!("-{}", child.id());
    Command::new("kill")
        .args(["-KILL", "--", &group])
        .status()?;
    child.wait()?;
    Ok(None)
}

/// A program that has ended reads no more: that is seen by what it wrote, not here.
fn feed(stdin: ChildStdin, input: &Input, told: Receiver<usize>) {
    let _ = match &input.delivery {
        Delivery::File => Ok(()),
        Delivery::Parts(parts) => feed_parts(stdin, &input.bytes, parts),
        Delivery::OneByOne => feed_one_by_one(stdin, &input.bytes, told),
        Delivery::Closing(_) => feed_on(stdin, &input.bytes),
    };
}

fn feed_parts(mut stdin: ChildStdin, bytes: &[u8], parts: &[(usize, Duration)]) -> io::Result<()> {
    let mut rest = bytes;
    for &(length, pause) in parts {
        let (part, left) = rest.split_at(length);
        stdin.write_all(part)?;
        thread::sleep(pause);
        rest = left;
    }
    Ok(())
}

/// A whole record must be answered while the input is still open.
fn feed_one_by_one(mut stdin: ChildStdin, bytes: &[u8], told: Receiver<usize>) -> io::Result<()> {
    for (at, piece) in (1..).zip(bytes.chunks(HAND_RECORD)) {
        stdin.write_all(piece)?;
        let mut answered = piece.len() < HAND_RECORD;
        while !answered {
            let count = told.recv().map_err(io::Error::other)?;
            answered = count >= at * ANSWER_RECORD;
        }
    }
    Ok(())
}

fn feed_on(mut stdin: ChildStdin, bytes: &[u8]) -> io::Result<()> {
    // whole records, so that the program meets no end
    let whole = bytes.len() / HAND_RECORD * HAND_RECORD;
    loop {
        stdin.write_all(&bytes[..whole])?;
    }
}

/// Takes so many bytes and closes; tells how many there are after each part.
fn read(mut stdout: ChildStdout, taken: usize, tell: Sender<usize>) -> Vec<u8> {
    let mut wrote = Vec::new();
    let mut part = [0; 4096];
    while wrote.len() < taken {
        let room = part.len().min(taken - wrote.len());
        match stdout.read(&mut part[..room]) {
            Ok(0) | Err(_) => break,
            Ok(length) => wrote.extend(&part[..length]),
        }
        let _ = tell.send(wrote.len());
    }
    wrote
}
