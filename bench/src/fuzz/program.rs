//! The program, `./annotate` and `./annotate --search`: whole inputs, each delivered in its way.

use std::fs;

use oracle::hand::HAND_RECORD;
use oracle::merged;
use oracle::random::Random;
use oracle::record::{ANSWER_RECORD, answers};

use super::files::{Delivery, Form, Input, input};
use super::hex::hex;
use super::started::{Ran, run};
use super::tally::Tally;

pub fn ask(random: &mut Random, tally: &mut Tally) {
    ask_form(Form::Fast, random, tally);
}

pub fn ask_search(random: &mut Random, tally: &mut Tally) {
    ask_form(Form::Search, random, tally);
}

fn ask_form(form: Form, random: &mut Random, tally: &mut Tally) {
    let at = tally.count();
    let input = input(random, form, at);
    tally.asked(input.kind);
    tally.met("last pieces", input.bytes.len() % HAND_RECORD);
    let wanted = wanted(&input);
    let ran = run(&input).expect("the program is started");
    for record in wanted.chunks_exact(ANSWER_RECORD) {
        tally.code(record[0]);
    }
    let same = ran.wrote == wanted && ended_well(&input, &ran);
    tally.hold(same, || told(at, &input, &ran, &wanted));
}

/// What the Rust source answers; a reader who closes early takes the beginning of it, or, where
/// the input goes round again, of that again and again.
fn wanted(input: &Input) -> Vec<u8> {
    match input.delivery {
        Delivery::Closing(taken) => {
            let whole = input.bytes.len() / HAND_RECORD * HAND_RECORD;
            let round = answers(&input.bytes[..whole], merged::answer);
            round.into_iter().cycle().take(taken).collect()
        }
        _ => answers(&input.bytes, merged::answer),
    }
}

/// What a shell tells of a filter whose reader is gone.
const READER_GONE: i32 = 141;

/// With no word and status 0; with another where the reader closes early.
fn ended_well(input: &Input, ran: &Ran) -> bool {
    let status = match input.delivery {
        Delivery::Closing(_) => READER_GONE,
        _ => 0,
    };
    ran.said.is_empty() && ran.status.and_then(|ended| ended.code()) == Some(status)
}

/// The input is kept in a file, to be asked again.
fn told(at: usize, input: &Input, ran: &Ran, wanted: &[u8]) -> String {
    let form = match input.form {
        Form::Fast => "fast",
        Form::Search => "search",
    };
    let kept = format!("bench/target/fuzz-{form}-{at}.hands");
    let kept = match fs::write(&kept, &input.bytes) {
        Ok(()) => kept,
        Err(error) => format!("{kept} ({error})"),
    };
    let ended = match ran.status {
        Some(status) => format!("{status}, said {:?}", ran.said),
        None => "hung".into(),
    };
    let lengths = format!("Rust {} bytes, ours {}", wanted.len(), ran.wrote.len());
    let first = first_difference(input, ran, wanted);
    format!("{}, {kept}: {lengths}, {ended}{first}", input.kind)
}

fn first_difference(input: &Input, ran: &Ran, wanted: &[u8]) -> String {
    let mut pairs = wanted
        .chunks(ANSWER_RECORD)
        .zip(ran.wrote.chunks(ANSWER_RECORD))
        .enumerate();
    let Some((at, (rust, ours))) = pairs.find(|(_, (rust, ours))| rust != ours) else {
        return String::new();
    };
    let mut pieces = input.bytes.chunks(HAND_RECORD).cycle();
    let piece = pieces.nth(at).unwrap_or_default();
    let (piece, rust, ours) = (hex(piece), hex(rust), hex(ours));
    format!("; record {at} {piece}: Rust {rust}; ours {ours}")
}
