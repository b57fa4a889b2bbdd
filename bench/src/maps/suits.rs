//! Suits by numbers: nine ranks and then honours, with the counts as digits of base 5. Those of
//! 1m/9m have none, since their words are published.

use oracle::hand::Hand;
use oracle::suit::Suit;

const RANKS: usize = 5_usize.pow(9);
const HONOURS: usize = 5_usize.pow(7);

/// How many numbers there are, those of suits that are refused included.
pub const NUMBERS: usize = RANKS + HONOURS;

/// More tiles than so many are refused.
const MOST: u8 = 14;

/// The numbers of the suits of an accepted hand.
pub fn of_hand(hand: &Hand) -> impl Iterator<Item = usize> {
    let suits = hand.suits().into_iter();
    suits.filter_map(|(suit, counts)| match suit {
        Suit::Ranks => Some(digits(counts)),
        Suit::Honours => Some(RANKS + digits(counts)),
        Suit::Ends => None,
    })
}

/// The suit of a number, and its counts; honours have the first seven.
pub fn of(number: usize) -> (Suit, [u8; 9]) {
    let (suit, mut rest) = match number {
        0..RANKS => (Suit::Ranks, number),
        _ => (Suit::Honours, number - RANKS),
    };
    let mut counts = [0; 9];
    for count in counts[..suit.length()].iter_mut().rev() {
        *count = (rest % 5) as u8;
        rest /= 5;
    }
    (suit, counts)
}

/// All that are not refused.
pub fn all() -> Vec<usize> {
    let total = |number| of(number).1.iter().sum::<u8>();
    (0..NUMBERS)
        .filter(|&number| total(number) <= MOST)
        .collect()
}

fn digits(counts: &[u8]) -> usize {
    counts
        .iter()
        .fold(0, |number, &count| 5 * number + usize::from(count))
}

#[cfg(test)]
mod tests {
    use super::*;

    #[test]
    fn a_number_and_its_suit() {
        let mut hand = Hand {
            counts: [0; 34],
            k: 4,
            game: 4,
        };
        hand.counts[8] = 2;
        hand.counts[9] = 1;
        hand.counts[33] = 4;
        let numbers: Vec<usize> = of_hand(&hand).collect();
        assert_eq!(numbers, [2, 5_usize.pow(8), 0, RANKS + 4]);
        for (number, (suit, counts)) in numbers.iter().zip(hand.suits()) {
            let (same, held) = of(*number);
            assert_eq!((same, &held[..same.length()]), (suit, counts));
        }
        hand.game = 3;
        assert_eq!(of_hand(&hand).count(), 3);
    }

    /// As many as the published maps have places.
    #[test]
    fn all_suits() {
        assert_eq!(all().len(), 405_350 + 43_130);
    }
}
