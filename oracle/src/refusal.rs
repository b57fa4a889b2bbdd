//! Which hands are refused, and why (document 01, "Refusal numbers").

use std::fmt;

use crate::hand::KINDS;
use crate::hand::question::Question;
use crate::notation::tile_name;

/// A reason with, where document 01 asks for it, the lowest index at fault. A hand record is
/// never refused with number 3, since it always has 34 counts, and it alone can be broken.
#[derive(Clone, Copy, Debug, PartialEq, Eq)]
pub enum Refusal {
    Game,
    Melds,
    Length,
    Copies(usize),
    Total,
    Outside(usize),
    Broken,
}

impl Refusal {
    pub fn number(self) -> u8 {
        match self {
            Refusal::Game => 1,
            Refusal::Melds => 2,
            Refusal::Length => 3,
            Refusal::Copies(_) => 4,
            Refusal::Total => 5,
            Refusal::Outside(_) => 6,
            Refusal::Broken => 7,
        }
    }

    /// Zero where the reason has none.
    pub fn index(self) -> usize {
        match self {
            Refusal::Copies(index) | Refusal::Outside(index) => index,
            _ => 0,
        }
    }
}

impl fmt::Display for Refusal {
    fn fmt(&self, out: &mut fmt::Formatter) -> fmt::Result {
        match *self {
            Refusal::Game => write!(out, "game neither 3 nor 4"),
            Refusal::Melds => write!(out, "k over 4"),
            Refusal::Length => write!(out, "counts not 34 long"),
            Refusal::Copies(tile) => write!(out, "a count over 4, {}", tile_name(tile)),
            Refusal::Total => write!(out, "counts sum over 14"),
            Refusal::Outside(tile) => write!(out, "not in game 3, {}", tile_name(tile)),
            Refusal::Broken => write!(out, "hand record not 36 bytes"),
        }
    }
}

/// The first refusal that holds, in the order of document 01.
pub fn refusal(question: &Question) -> Option<Refusal> {
    faults(question).next()
}

/// All refusals that hold, in that order.
pub fn faults(question: &Question) -> impl Iterator<Item = Refusal> {
    let tests = [
        wrong_game,
        too_many_melds,
        wrong_length,
        too_many_copies,
        too_many_tiles,
        outside_the_game,
    ];
    tests.into_iter().filter_map(move |test| test(question))
}

fn wrong_game(question: &Question) -> Option<Refusal> {
    (question.game != 3 && question.game != 4).then_some(Refusal::Game)
}

fn too_many_melds(question: &Question) -> Option<Refusal> {
    (question.k > 4).then_some(Refusal::Melds)
}

fn wrong_length(question: &Question) -> Option<Refusal> {
    (question.counts.len() != KINDS).then_some(Refusal::Length)
}

fn too_many_copies(question: &Question) -> Option<Refusal> {
    let tile = question.counts.iter().position(|&count| count > 4)?;
    Some(Refusal::Copies(tile))
}

fn too_many_tiles(question: &Question) -> Option<Refusal> {
    (question.total() > 14).then_some(Refusal::Total)
}

fn outside_the_game(question: &Question) -> Option<Refusal> {
    let mut tiles = question.counts.iter().enumerate().take(8).skip(1);
    let (tile, _) = tiles.find(|(_, count)| **count > 0)?;
    (question.game == 3).then_some(Refusal::Outside(tile))
}

#[cfg(test)]
mod tests {
    use super::*;

    #[test]
    fn names_the_lowest_index() {
        let mut counts = [0; 34];
        counts[3] = 5;
        counts[33] = 255;
        let copies = refusal(&Question::new(&counts, 0, 3));
        assert_eq!(copies, Some(Refusal::Copies(3)));
        counts = [0; 34];
        counts[7] = 1;
        counts[4] = 1;
        let outside = refusal(&Question::new(&counts, 0, 3));
        assert_eq!(outside, Some(Refusal::Outside(4)));
    }

    #[test]
    fn takes_the_faults_in_order() {
        let mut question = Question::new(&[255; 35], 5, 2);
        assert_eq!(refusal(&question), Some(Refusal::Game));
        question.game = 3;
        assert_eq!(refusal(&question), Some(Refusal::Melds));
        question.k = 4;
        assert_eq!(refusal(&question), Some(Refusal::Length));
        question.counts.truncate(34);
        assert_eq!(refusal(&question), Some(Refusal::Copies(0)));
        question.counts.fill(1);
        assert_eq!(refusal(&question), Some(Refusal::Total));
        question.counts[8..].fill(0);
        assert_eq!(refusal(&question), Some(Refusal::Outside(1)));
        question.counts[1..8].fill(0);
        assert_eq!(refusal(&question), None);
    }

    #[test]
    fn all_faults_that_hold() {
        let question = Question::new(&[5; 36], 9, 3);
        let all = [
            Refusal::Melds,
            Refusal::Length,
            Refusal::Copies(0),
            Refusal::Total,
            Refusal::Outside(1),
        ];
        assert!(faults(&question).eq(all));
    }
}
