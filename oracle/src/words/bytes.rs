//! Ten goals in 50 bytes and seven words in 28, as word questions and their answers hold them.

use std::array;

use super::{Goals, Words};

/// Number, and the two sets in two bytes each, lowest first.
const GOAL: usize = 5;

/// Of each goal the number must fit a byte.
pub fn goals_bytes(goals: &Goals) -> Vec<u8> {
    let of = |goal| {
        let (number, necessary, unnecessary) = goals.at(goal);
        let number = u8::try_from(number).expect("a byte");
        let [low, high] = necessary.to_le_bytes();
        let [other_low, other_high] = unnecessary.to_le_bytes();
        [number, low, high, other_low, other_high]
    };
    (0..10).flat_map(of).collect()
}

pub fn read_goals(bytes: &[u8]) -> Goals {
    Goals::new(|goal| {
        let [number, low, high, other_low, other_high] = part::<GOAL>(bytes, goal);
        let necessary = u16::from_le_bytes([low, high]);
        let unnecessary = u16::from_le_bytes([other_low, other_high]);
        (number.into(), necessary, unnecessary)
    })
}

pub fn words_bytes(words: &Words) -> Vec<u8> {
    words.seven().map(u32::to_le_bytes).concat()
}

pub fn read_words(bytes: &[u8]) -> Words {
    Words::new(array::from_fn(|at| u32::from_le_bytes(part(bytes, at))))
}

/// Of parts with N bytes each, the one at this place.
fn part<const N: usize>(bytes: &[u8], place: usize) -> [u8; N] {
    let rest = &bytes[N * place..];
    *rest.first_chunk().expect("enough bytes")
}

#[cfg(test)]
mod tests {
    use super::*;

    #[test]
    fn goals_lowest_byte_first() {
        let goals = Goals::new(|goal| (goal as u32, 0x0102, 0x0304));
        let bytes = goals_bytes(&goals);
        assert_eq!(bytes.len(), 50);
        assert_eq!(bytes[45..], [9, 2, 1, 4, 3]);
        assert_eq!(read_goals(&bytes), goals);
    }

    #[test]
    fn words_lowest_byte_first() {
        let words = Words::new(array::from_fn(|at| 0x0102_0304 << at));
        let bytes = words_bytes(&words);
        assert_eq!(bytes.len(), 28);
        assert_eq!(bytes[..8], [4, 3, 2, 1, 8, 6, 4, 2]);
        assert_eq!(read_words(&bytes), words);
    }
}
