//! The generator of all parts: bytes laid as in a hand record, counts and then k and the game,
//! whatever their length.

use oracle::hand::Hand;
use oracle::make::questions::sorts::{any, tiles};
use oracle::random::Random;
use oracle::refusal::refusal;

pub struct Piece {
    pub kind: &'static str,
    pub bytes: Vec<u8>,
}

/// Half are hands that no refusal fits, so that there is something to search.
pub fn piece(random: &mut Random, most: usize) -> Piece {
    let hand = plausible(random);
    let mut bytes = hand.record().to_vec();
    let kind = match random.below(8) {
        0..4 => "plausible",
        4..6 => {
            damage(random, &mut bytes);
            "damaged"
        }
        6 => {
            bytes = stretched(random, &hand, most);
            "of any length"
        }
        _ => {
            bytes = anything(random, most);
            "random bytes"
        }
    };
    Piece { kind, bytes }
}

/// A piece of 36 bytes, right or wrong.
pub fn record(random: &mut Random) -> Vec<u8> {
    loop {
        let piece = piece(random, 36).bytes;
        if piece.len() == 36 {
            return piece;
        }
    }
}

/// One that is refused, and so answered at once.
pub fn refused(random: &mut Random) -> Vec<u8> {
    loop {
        let bytes = record(random);
        let hand = Hand::read(&bytes).expect("36 bytes");
        if refusal(&hand.question()).is_some() {
            return bytes;
        }
    }
}

/// Any byte, but often one that is near a limit.
pub fn byte(random: &mut Random) -> u8 {
    match random.below(3) {
        0 => random.below(256) as u8,
        1 => *random.pick(&[3, 4, 5, 127, 128, 255]),
        _ => random.below(6) as u8,
    }
}

fn plausible(random: &mut Random) -> Hand {
    let game = *random.pick(&[3, 4]);
    let k = random.below(5) as u8;
    let held = match random.below(4) {
        0 => random.below(5),
        1 => 12 + random.below(3),
        _ => return any(random, game),
    };
    let counts = tiles(random, game, held);
    Hand { counts, k, game }
}

/// One to three faults; by chance they may leave the hand right.
pub fn damage(random: &mut Random, bytes: &mut [u8]) {
    for _ in 0..1 + random.below(3) {
        fault(random, bytes);
    }
}

fn fault(random: &mut Random, bytes: &mut [u8]) {
    let at = random.below(bytes.len());
    let [counts @ .., k, game] = bytes else {
        unreachable!("a hand or a suit has more than two bytes");
    };
    match random.below(7) {
        0 => bytes[at] ^= 1 << random.below(8),
        1 => bytes[at] = byte(random),
        2 => bytes[at] = 5 + random.below(251) as u8,
        3 => fill(random, counts),
        4 => *k = byte(random),
        5 => *game = byte(random),
        _ => {
            *game = 3;
            counts[random.below(9) % counts.len()] = 1 + random.below(4) as u8;
        }
    }
}

/// Tiles are added where fewer than four are held: the sum is often over 14, no count over 4.
fn fill(random: &mut Random, counts: &mut [u8]) {
    for _ in 0..random.below(30) {
        let at = random.below(counts.len());
        if counts[at] < 4 {
            counts[at] += 1;
        }
    }
}

/// The counts are cut or go on; k and the game still stand at the end.
fn stretched(random: &mut Random, hand: &Hand, most: usize) -> Vec<u8> {
    let length = random.below(most + 1);
    let mut bytes = hand.counts.to_vec();
    bytes.resize(length.saturating_sub(2), random.below(6) as u8);
    bytes.extend([hand.k, hand.game]);
    bytes.truncate(length);
    bytes
}

/// Bytes without any plan, half of them as many as a record has.
fn anything(random: &mut Random, most: usize) -> Vec<u8> {
    let lengths = [random.below(most + 1), 36];
    let length = *random.pick(&lengths);
    let end = *random.pick(&[256, 6, 2]);
    let mut bytes: Vec<u8> = (0..length).map(|_| random.below(end) as u8).collect();
    if let [.., k, game] = &mut bytes[..]
        && random.below(2) == 0
    {
        (*k, *game) = (random.below(5) as u8, 3 + random.below(2) as u8);
    }
    bytes
}

#[cfg(test)]
mod tests {
    use super::*;
    use std::collections::BTreeSet;

    #[test]
    fn every_length_and_every_number_is_made() {
        let mut random = Random::new(1);
        let pieces: Vec<Vec<u8>> = (0..20_000).map(|_| piece(&mut random, 100).bytes).collect();
        let lengths: BTreeSet<usize> = pieces.iter().map(Vec::len).collect();
        assert_eq!(lengths, (0..=100).collect());
        let hands = pieces.iter().filter_map(|piece| Hand::read(piece));
        let numbers: BTreeSet<u8> = hands
            .filter_map(|hand| refusal(&hand.question()))
            .map(|reason| reason.number())
            .collect();
        assert_eq!(numbers, BTreeSet::from([1, 2, 4, 5, 6]));
    }

    #[test]
    fn the_same_seed_gives_the_same_bytes() {
        let made = |seed| {
            let mut random = Random::new(seed);
            (0..100)
                .map(|_| piece(&mut random, 100).bytes)
                .collect::<Vec<_>>()
        };
        assert_eq!(made(5), made(5));
        assert_ne!(made(5), made(6));
    }
}
