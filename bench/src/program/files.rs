//! The files of hand records. They need no seed from outside: each run has the same.

use std::{fs, io};

use oracle::hand::{HAND_RECORD, Hand};
use oracle::make::questions::sorts::parts;
use oracle::random::Random;

use crate::fuzz::inputs::refused;
use crate::hands::groups::groups;

/// Where a file stands, and where it stands repeated.
const HANDS: &str = "bench/target/program.hands";
const REPEATED: &str = "bench/target/program.repeated";

/// Of hands as they are in play, so many to a file: the time must grow as they do.
const GROWING: [usize; 4] = [250, 500, 1_000, 2_000];

/// So many hands of each kind; a hand that is alone in its group comes again and again.
const OF_A_KIND: usize = 200;

/// The fast form gets each file so many times over: a start takes longer than a few hundred
/// hands.
const TIMES: usize = 100;

/// So many records are made that are refused, and repeated up to so many.
const REFUSED: usize = 10_000;
const MANY: usize = 1_000_000;

pub struct File {
    pub name: String,
    bytes: Vec<u8>,
    /// Whether there are hands in it that are searched.
    pub is_searched: bool,
    /// How often the fast form gets it.
    pub times: usize,
}

impl File {
    fn of_hands<'a>(name: &str, hands: impl Iterator<Item = &'a Hand>) -> Self {
        File {
            name: name.into(),
            bytes: hands.flat_map(Hand::record).collect(),
            is_searched: true,
            times: TIMES,
        }
    }

    fn unsearched(name: &str, bytes: Vec<u8>) -> Self {
        File {
            name: name.into(),
            bytes,
            is_searched: false,
            times: 1,
        }
    }

    pub fn count(&self) -> usize {
        self.bytes.len() / HAND_RECORD
    }

    pub fn megabytes(&self) -> f64 {
        self.bytes.len() as f64 / 1e6
    }

    /// Puts it where all are started with it, and repeated where the fast form is; gives both
    /// places.
    pub fn lay(&self) -> io::Result<(&'static str, &'static str)> {
        fs::write(HANDS, &self.bytes)?;
        fs::write(REPEATED, self.bytes.repeat(self.times))?;
        Ok((HANDS, REPEATED))
    }
}

pub fn all() -> Vec<File> {
    let played = played(GROWING[GROWING.len() - 1]);
    let growing =
        GROWING.map(|count| File::of_hands("in play, both games", played[..count].iter()));
    let mut files = Vec::from(growing);
    for group in groups() {
        let hands = group.hands.iter().cycle().take(OF_A_KIND);
        files.push(File::of_hands(group.name, hands));
    }
    files.push(File::unsearched("no record, the start alone", Vec::new()));
    let many = some_refused().repeat(MANY / REFUSED);
    files.push(File::unsearched("refused", many));
    files
}

/// 13 or 14 tiles in melds and parts of melds, the games in turn.
fn played(count: usize) -> Vec<Hand> {
    let mut random = Random::new(1);
    let hand = |at: usize| {
        let game = [4, 4, 3, 3][at % 4];
        let counts = parts(&mut random, game, 13 + at % 2);
        Hand { counts, k: 4, game }
    };
    (0..count).map(hand).collect()
}

/// Records of every number that a record can be refused with.
fn some_refused() -> Vec<u8> {
    let mut random = Random::new(1);
    (0..REFUSED).flat_map(|_| refused(&mut random)).collect()
}
