//! A hand, and the 36 bytes of its record (document 01, "Records"); below, what can be asked
//! of the hand entry, counts of a wrong length too.

pub mod asked;
pub mod question;
pub mod record;

use crate::suit::Suit;
use question::Question;

pub const KINDS: usize = 34;
pub const HAND_RECORD: usize = 36;

/// What a hand record says, right or wrong.
#[derive(Clone, Copy, Debug, PartialEq, Eq)]
pub struct Hand {
    pub counts: [u8; KINDS],
    pub k: u8,
    pub game: u8,
}

impl Hand {
    /// The hand of a whole record; none if the piece is not 36 bytes long.
    pub fn read(piece: &[u8]) -> Option<Hand> {
        let record: &[u8; HAND_RECORD] = piece.try_into().ok()?;
        let counts = record.first_chunk().expect("34 of 36 bytes");
        Some(Hand {
            counts: *counts,
            k: record[34],
            game: record[35],
        })
    }

    pub fn record(&self) -> [u8; HAND_RECORD] {
        let mut record = [0; HAND_RECORD];
        record[..KINDS].copy_from_slice(&self.counts);
        record[34] = self.k;
        record[35] = self.game;
        record
    }

    /// The suits m, p, s and z with their parts of the counts. In game 3 m is 1m/9m.
    pub fn suits(&self) -> [(Suit, &[u8]); 4] {
        let m = if self.game == 3 {
            Suit::Ends
        } else {
            Suit::Ranks
        };
        [
            (m, &self.counts[..9]),
            (Suit::Ranks, &self.counts[9..18]),
            (Suit::Ranks, &self.counts[18..27]),
            (Suit::Honours, &self.counts[27..]),
        ]
    }

    /// The same, as it is asked of the hand entry.
    pub fn question(&self) -> Question {
        Question::new(&self.counts, self.k, self.game)
    }
}
