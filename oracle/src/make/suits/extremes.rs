//! Suits that lie far out.

use super::both_ways;
use super::fill::fills;
use crate::suit::Suit;
use crate::suit::question::Question;

/// Shapes that are laid from every kind on, over the end to the first kind again.
const SHAPES: [&[u8]; 11] = [
    &[4, 4, 4, 2],
    &[2, 4, 4, 4],
    &[1, 4, 4, 4, 1],
    &[4, 0, 4, 0, 4, 0, 2],
    &[4, 0, 0, 4, 0, 0, 4],
    &[3, 3, 3, 3, 2],
    &[3, 3, 3],
    &[2, 2, 2, 2, 2, 2, 2],
    &[1, 1, 1, 1, 1, 1, 1],
    &[1, 1, 1],
    &[1, 0, 1],
];

/// The empty suit both ways, the others for all goals at once.
pub fn extremes(suit: Suit) -> Vec<Question> {
    let mut questions = both_ways(suit, &vec![0; suit.length()]);
    let all = |counts: &Vec<u8>| Question::all(suit, counts);
    questions.extend(far_out(suit).iter().map(all));
    questions
}

/// The counts of all but the empty suit.
pub fn far_out(suit: Suit) -> Vec<Vec<u8>> {
    let length = suit.length();
    [alone(length), shapes(length), full(length), gates(length)].concat()
}

/// Each kind one to four times and nothing else.
fn alone(length: usize) -> Vec<Vec<u8>> {
    let of = |kind| [1, 2, 3, 4].map(|count| laid(length, kind, &[count]));
    (0..length).flat_map(of).collect()
}

fn shapes(length: usize) -> Vec<Vec<u8>> {
    let everywhere = |shape| (0..length).map(move |first| laid(length, first, shape));
    SHAPES.into_iter().flat_map(everywhere).collect()
}

fn laid(length: usize, first: usize, shape: &[u8]) -> Vec<u8> {
    let mut counts = vec![0; length];
    for (step, &count) in shape.iter().enumerate() {
        counts[(first + step) % length] = count;
    }
    counts
}

/// As many tiles as are accepted, and one or two fewer; each kind once.
fn full(length: usize) -> Vec<Vec<u8>> {
    let each_once = vec![1; length];
    let mut counts = [12, 13, 14].map(|total| fills(length, total)).concat();
    counts.push(each_once);
    counts
}

/// The first and the last kind three times, the others once; then each kind once more.
fn gates(length: usize) -> Vec<Vec<u8>> {
    let mut gates = vec![1; length];
    gates[0] = 3;
    gates[length - 1] = 3;
    let one_more = |kind: usize| {
        let mut counts = gates.clone();
        counts[kind] += 1;
        counts
    };
    let mut counts: Vec<_> = (0..length).map(one_more).collect();
    counts.push(gates);
    counts
}

#[cfg(test)]
mod tests {
    use super::*;
    use crate::suit::refusal::refusal;

    #[test]
    fn none_is_refused() {
        for suit in [Suit::Ranks, Suit::Honours] {
            for question in extremes(suit) {
                assert_eq!(refusal(&question), None, "{question:?}");
            }
        }
    }
}
