//! A suit's answer as the Rust source gives it: its search for one goal, from an empty
//! target and its own starting bound, with nothing packed and nothing remembered. It is a
//! module of the adapted `build_map`, since the search can be reached from there alone.

use super::MAX_REPLACEMENT_NUMBER;
use super::replacement_number::{
    get_19m_replacement_number, get_shupai_replacement_number, get_zipai_replacement_number,
};
use crate::answer::Answer;
use crate::suit::{GOALS, Goal, Suit};
use crate::words::Goals;

/// Number, necessary set, unnecessary set.
pub type Found = (u8, u16, u16);

/// The suit must be one that is not refused.
pub fn answer(suit: Suit, counts: &[u8], goal: Goal) -> Answer {
    let (number, necessary, unnecessary) = found(suit, counts, goal);
    Answer {
        number,
        necessary: necessary.into(),
        unnecessary: unnecessary.into(),
    }
}

/// The ten goals of such a suit, each searched by itself.
pub fn goals(suit: Suit, counts: &[u8]) -> Goals {
    Goals::new(|goal| {
        let (number, necessary, unnecessary) = found(suit, counts, GOALS[goal]);
        (number.into(), necessary, unnecessary)
    })
}

fn found(suit: Suit, counts: &[u8], goal: Goal) -> Found {
    match suit {
        Suit::Ranks => ranks(exactly(counts), goal),
        Suit::Honours => honours(exactly(counts), goal),
        Suit::Ends => ends(exactly(counts), goal),
    }
}

fn exactly<const N: usize>(counts: &[u8]) -> &[u8; N] {
    counts.try_into().expect("another length is refused")
}

#[inline]
pub fn ranks(hand: &[u8; 9], goal: Goal) -> Found {
    get_shupai_replacement_number(
        hand,
        goal.melds,
        goal.pairs,
        0,
        0,
        0,
        &mut [0; 9],
        MAX_REPLACEMENT_NUMBER,
        0,
        0,
    )
}

#[inline]
pub fn honours(hand: &[u8; 7], goal: Goal) -> Found {
    get_zipai_replacement_number(
        hand,
        goal.melds,
        goal.pairs,
        0,
        0,
        0,
        &mut [0; 7],
        MAX_REPLACEMENT_NUMBER,
        0,
        0,
    )
}

#[inline]
pub fn ends(hand: &[u8; 9], goal: Goal) -> Found {
    get_19m_replacement_number(
        hand,
        goal.melds,
        goal.pairs,
        0,
        0,
        0,
        &mut [0; 9],
        MAX_REPLACEMENT_NUMBER,
        0,
        0,
    )
}

#[cfg(test)]
mod tests {
    //! The search goal by goal against the same search packed, and document 01's words.

    use super::*;
    use crate::standard::{search, unpack};

    fn assert_packed<const N: usize>(key: &[u8; N], found: impl Fn(Goal) -> Found) {
        let goals = unpack(&search(key));
        for (at, goal) in GOALS.into_iter().enumerate() {
            let (number, necessary, unnecessary) = found(goal);
            assert_eq!(goals.numbers[at], u32::from(number));
            assert_eq!(goals.necessary[at], necessary);
            assert_eq!(goals.unnecessary[at], unnecessary);
        }
    }

    #[test]
    fn one_goal_is_what_is_packed() {
        for counts in [[0; 9], [1; 9], [3, 1, 1, 1, 1, 1, 1, 1, 4]] {
            assert_packed(&counts, |goal| ranks(&counts, goal));
        }
        for counts in [[0; 7], [1; 7], [2; 7], [4, 0, 3, 0, 2, 0, 1]] {
            assert_packed(&counts, |goal| honours(&counts, goal));
        }
        for key in [[0, 0], [4, 4], [1, 3], [2, 0]] {
            let counts = [key[0], 0, 0, 0, 0, 0, 0, 0, key[1]];
            assert_packed(&key, |goal| ends(&counts, goal));
        }
    }

    #[test]
    fn goals_of_1m_9m_without_a_target() {
        let held = [4, 0, 0, 0, 0, 0, 0, 0, 4];
        for (pairs, melds) in [(0, 3), (0, 4), (1, 2), (1, 3), (1, 4)] {
            assert_eq!(ends(&held, Goal::new(pairs, melds)), (14, 0, 0));
        }
    }

    #[test]
    fn the_first_goal_lets_all_tiles_go() {
        let none_wanted = Goal::new(0, 0);
        assert_eq!(ranks(&[1; 9], none_wanted), (0, 0, 0x1FF));
        assert_eq!(honours(&[2; 7], none_wanted), (0, 0, 0x7F));
        let one_9m = [0, 0, 0, 0, 0, 0, 0, 0, 1];
        assert_eq!(ends(&one_9m, none_wanted), (0, 0, 0x100));
    }

    #[test]
    fn a_lack_of_14_joins_the_sets() {
        assert_eq!(ranks(&[0; 9], Goal::new(1, 4)), (14, 0x1FF, 0));
        assert_eq!(honours(&[0; 7], Goal::new(1, 4)), (14, 0x7F, 0));
    }
}
