//! The merges against the judge on the whole board.

use super::tally::Tally;
use crate::make::accepted;
use crate::random::Random;
use crate::show::written_hand;
use crate::standard::forget;
use crate::{judge, merged};

pub fn hands(random: &mut Random, game: u8, count: u64) -> Tally {
    // Nothing searched before helps, so that the time told is that of these hands.
    forget();
    let mut tally = Tally::new(&format!("whole hands of game {game}, random"));
    for _ in 0..count {
        let hand = accepted(random, game);
        let same = merged::answer(&hand) == judge::answer(&hand);
        tally.check(same, || written_hand(&hand));
    }
    tally.print()
}
