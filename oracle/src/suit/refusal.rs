//! Which suit questions are refused, and why (document 01, "Refusal numbers").

use super::Suit;
use super::question::{Question, Wanted};

/// A reason with, where document 01 asks for it, the lowest index at fault. There is no
/// number 1 here: a suit has no game.
#[derive(Clone, Copy, Debug, PartialEq, Eq)]
pub enum Refusal {
    Goal,
    Length,
    Copies(usize),
    Total,
    Outside(usize),
}

impl Refusal {
    pub fn number(self) -> u8 {
        match self {
            Refusal::Goal => 2,
            Refusal::Length => 3,
            Refusal::Copies(_) => 4,
            Refusal::Total => 5,
            Refusal::Outside(_) => 6,
        }
    }

    /// Zero where the reason has none.
    pub fn index(self) -> usize {
        match self {
            Refusal::Copies(index) | Refusal::Outside(index) => index,
            _ => 0,
        }
    }
}

/// The first refusal that holds, in the order of document 01.
pub fn refusal(question: &Question) -> Option<Refusal> {
    faults(question).next()
}

/// All refusals that hold, in that order.
pub fn faults(question: &Question) -> impl Iterator<Item = Refusal> {
    let tests = [
        wrong_goal,
        wrong_length,
        too_many_copies,
        too_many_tiles,
        outside_the_suit,
    ];
    tests.into_iter().filter_map(move |test| test(question))
}

fn wrong_goal(question: &Question) -> Option<Refusal> {
    match question.wanted {
        Wanted::One(goal) => (goal.melds > 4 || goal.pairs > 1).then_some(Refusal::Goal),
        Wanted::All => None,
    }
}

fn wrong_length(question: &Question) -> Option<Refusal> {
    (question.counts.len() != question.suit.length()).then_some(Refusal::Length)
}

fn too_many_copies(question: &Question) -> Option<Refusal> {
    let index = question.counts.iter().position(|&count| count > 4)?;
    Some(Refusal::Copies(index))
}

fn too_many_tiles(question: &Question) -> Option<Refusal> {
    (question.total() > 14).then_some(Refusal::Total)
}

fn outside_the_suit(question: &Question) -> Option<Refusal> {
    let mut ranks = question.counts.iter().enumerate().take(8).skip(1);
    let (index, _) = ranks.find(|(_, count)| **count > 0)?;
    (question.suit == Suit::Ends).then_some(Refusal::Outside(index))
}

#[cfg(test)]
mod tests {
    use super::*;
    use crate::suit::Goal;

    fn refused(suit: Suit, goal: (u8, u8), counts: &[u8]) -> Option<Refusal> {
        refusal(&Question::one(suit, Goal::new(goal.0, goal.1), counts))
    }

    #[test]
    fn names_the_lowest_index() {
        let counts = [0, 0, 0, 5, 0, 0, 0, 0, 255];
        let copies = refused(Suit::Ranks, (0, 0), &counts);
        assert_eq!(copies, Some(Refusal::Copies(3)));
        let counts = [1, 0, 0, 0, 1, 0, 0, 1, 1];
        let outside = refused(Suit::Ends, (0, 0), &counts);
        assert_eq!(outside, Some(Refusal::Outside(4)));
    }

    #[test]
    fn takes_the_faults_in_order() {
        let counts = [1, 4, 4, 4, 0, 0, 0, 0, 5, 0];
        let ends = |goal, counts| refused(Suit::Ends, goal, counts);
        assert_eq!(ends((2, 0), &counts), Some(Refusal::Goal));
        assert_eq!(ends((0, 5), &counts), Some(Refusal::Goal));
        assert_eq!(ends((1, 4), &counts), Some(Refusal::Length));
        assert_eq!(ends((1, 4), &counts[..9]), Some(Refusal::Copies(8)));
        let fifteen = [1, 4, 4, 4, 0, 0, 0, 0, 2];
        assert_eq!(ends((1, 4), &fifteen), Some(Refusal::Total));
        let fourteen = [1, 4, 4, 4, 0, 0, 0, 0, 1];
        assert_eq!(ends((1, 4), &fourteen), Some(Refusal::Outside(1)));
        assert_eq!(refused(Suit::Ranks, (1, 4), &fourteen), None);
        assert_eq!(ends((1, 4), &[4, 0, 0, 0, 0, 0, 0, 0, 4]), None);
        assert_eq!(refused(Suit::Honours, (1, 4), &[2; 7]), None);
    }
}
