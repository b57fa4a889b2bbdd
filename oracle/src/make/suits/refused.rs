//! What is refused, one number after the other.

use super::cases::{Case, asked, asked_once};
use super::fill::fills;
use crate::suit::question::MOST_COUNTS;
use crate::suit::refusal::Refusal;
use crate::suit::{Goal, Suit};

/// One of them is over, or both are; by little, and so that a byte or its sign would wrap.
/// Pairs of 255 cannot be asked: they stand for all goals.
#[rustfmt::skip]
const WRONG_GOALS: [(u8, u8); 14] = [
    (0, 5), (1, 5), (0, 8), (0, 128), (0, 255), (1, 255),
    (2, 0), (2, 4), (3, 1), (128, 0), (254, 0),
    (2, 5), (5, 2), (254, 255),
];

pub fn refused(suit: Suit) -> Vec<Case> {
    let mut cases = wrong_goals(suit);
    cases.extend(wrong_lengths(suit));
    cases.extend(wrong_counts(suit));
    cases.extend(two_wrong_counts(suit));
    cases.extend(wrong_totals(suit));
    if suit == Suit::Ends {
        cases.extend(ranks_outside());
    }
    cases
}

/// With nothing held, and with the first and the last kind.
fn wrong_goals(suit: Suit) -> Vec<Case> {
    let none = vec![0; suit.length()];
    let held = with(suit, &[(0, 4), (suit.length() - 1, 4)]);
    let of = |(pairs, melds)| {
        let goal = Goal::new(pairs, melds);
        [&none, &held].map(|counts| asked_once(suit, goal, counts, Refusal::Goal))
    };
    WRONG_GOALS.into_iter().flat_map(of).collect()
}

/// Every length but the right one, whatever the counts are.
fn wrong_lengths(suit: Suit) -> Vec<Case> {
    let wrong = (0..=MOST_COUNTS).filter(|&length| length != suit.length());
    let filled = wrong.flat_map(|length| [0, 1, 4, 255].map(|count| vec![count; length]));
    filled
        .flat_map(|counts| asked(suit, &counts, Refusal::Length))
        .collect()
}

/// A count over 4 at the first place, in the middle, at the last, and at all places.
fn wrong_counts(suit: Suit) -> Vec<Case> {
    let last = suit.length() - 1;
    let mut cases = Vec::new();
    for count in [5, 128, 255] {
        for place in [0, last / 2, last] {
            let counts = with(suit, &[(place, count)]);
            cases.extend(asked(suit, &counts, Refusal::Copies(place)));
        }
        cases.extend(asked(suit, &vec![count; last + 1], Refusal::Copies(0)));
    }
    cases
}

/// At two places the lower one is told, whichever count is greater. The last two choices
/// sum to 0 in a byte.
fn two_wrong_counts(suit: Suit) -> Vec<Case> {
    let last = suit.length() - 1;
    let mut cases = Vec::new();
    for (count, other) in [(5, 5), (5, 255), (255, 5), (128, 128), (255, 1)] {
        for (place, second) in [(0, last / 2), (0, last), (last / 2, last)] {
            let counts = with(suit, &[(place, count), (second, other)]);
            cases.extend(asked(suit, &counts, Refusal::Copies(place)));
        }
    }
    cases
}

/// Totals over 14, up to four of each kind. In 1m/9m these hold ranks 2 to 8 as well.
fn wrong_totals(suit: Suit) -> Vec<Case> {
    let length = suit.length();
    let totals = [15, 16, 17, 20, 4 * length - 1, 4 * length];
    let counts = totals.into_iter().flat_map(|total| fills(length, total));
    counts
        .flat_map(|counts| asked(suit, &counts, Refusal::Total))
        .collect()
}

/// Each of ranks 2 to 8, once and four times; from each of them on to 8; with 1m and 9m.
fn ranks_outside() -> Vec<Case> {
    let mut cases = Vec::new();
    for rank in 1..8 {
        let outside = Refusal::Outside(rank);
        let rest: Vec<_> = (rank..8).map(|rank| (rank, 1)).collect();
        let held = [(0, 4), (8, 4), (rank, 1)];
        for places in [&[(rank, 1)], &[(rank, 4)], &rest[..], &held] {
            cases.extend(asked(Suit::Ends, &with(Suit::Ends, places), outside));
        }
    }
    cases
}

/// The suit's counts with these at their places and nothing else.
fn with(suit: Suit, places: &[(usize, u8)]) -> Vec<u8> {
    let mut counts = vec![0; suit.length()];
    for &(place, count) in places {
        counts[place] = count;
    }
    counts
}
