//! Whole inputs of the program, and how they are delivered. Each kind and each length of a last
//! piece comes in its turn.

use std::time::Duration;

use oracle::hand::HAND_RECORD;
use oracle::random::Random;

use super::inputs::{record, refused};
use crate::ours::READ_AT_ONCE as BUFFER;

/// So many hands to a file at most that are not refused: the search takes its time for each, and
/// the Rust source searches for those of the fast form too.
const SEARCHED: usize = 6;
const FAST: usize = 30;

/// The way the program is asked to answer.
#[derive(Clone, Copy, PartialEq)]
pub enum Form {
    Fast,
    Search,
}

pub enum Delivery {
    File,
    /// Through a pipe, so many bytes and then a pause.
    Parts(Vec<(usize, Duration)>),
    /// Through a pipe, each record when the one before is answered.
    OneByOne,
    /// Again and again until the reader, who takes so many bytes, has closed.
    Closing(usize),
}

pub struct Input {
    pub form: Form,
    pub kind: &'static str,
    pub bytes: Vec<u8>,
    pub delivery: Delivery,
}

/// How an input of so many bytes is delivered.
type Way = fn(&mut Random, usize) -> Delivery;

/// Seven kinds and 36 lengths have no common divisor, so each kind comes with each length.
pub fn input(random: &mut Random, form: Form, at: usize) -> Input {
    let few = random.below(30);
    let many = BUFFER * (1 + random.below(2)) - 6 + random.below(12);
    let (kind, count, way): (_, _, Way) = match at % 7 {
        0 => ("from a file", few, file),
        1 => ("in small parts", few, small_parts),
        2 => ("over the buffer, from a file", many, file),
        3 => ("over the buffer, in parts", many, large_parts),
        4 => ("one by one", few, one_by_one),
        5 => return empty(random, form),
        _ => ("closed early", many, closing),
    };
    let accepted = match form {
        Form::Fast => FAST,
        Form::Search => SEARCHED,
    };
    let bytes = records(random, count, accepted, at % HAND_RECORD);
    let delivery = way(random, bytes.len());
    Input {
        form,
        kind,
        bytes,
        delivery,
    }
}

fn empty(random: &mut Random, form: Form) -> Input {
    let ways: [Way; 2] = [file, small_parts];
    Input {
        form,
        kind: "empty",
        bytes: Vec::new(),
        delivery: random.pick(&ways)(random, 0),
    }
}

fn file(_: &mut Random, _: usize) -> Delivery {
    Delivery::File
}

fn small_parts(random: &mut Random, length: usize) -> Delivery {
    parts(random, length, 80, 4)
}

fn large_parts(random: &mut Random, length: usize) -> Delivery {
    parts(random, length, 20_000, 2)
}

fn one_by_one(_: &mut Random, _: usize) -> Delivery {
    Delivery::OneByOne
}

/// The reader has enough within the first buffer or the second.
fn closing(random: &mut Random, _: usize) -> Delivery {
    Delivery::Closing(random.below(30_000))
}

/// So many records, of which a few need not be refused, some of them beside the seam of two
/// buffers; then a last piece of a record.
fn records(random: &mut Random, count: usize, accepted: usize, last: usize) -> Vec<u8> {
    let mut records: Vec<Vec<u8>> = (0..count).map(|_| refused(random)).collect();
    for _ in 0..accepted.min(count) {
        let places = [random.below(count), BUFFER - 1, BUFFER];
        let at = (*random.pick(&places)).min(count - 1);
        records[at] = record(random);
    }
    let mut bytes = records.concat();
    bytes.extend(&record(random)[..last]);
    bytes
}

fn parts(random: &mut Random, mut left: usize, most: usize, millis: usize) -> Delivery {
    let mut parts = Vec::new();
    while left > 0 {
        let length = (1 + random.below(most)).min(left);
        let pause = Duration::from_millis(random.below(millis) as u64);
        parts.push((length, pause));
        left -= length;
    }
    Delivery::Parts(parts)
}
