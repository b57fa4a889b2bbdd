//! What is refused: one fault, two, and all at once.

use super::cases::{Case, spoiled};
use super::value::{Value, at_largest, stored, values};
use crate::searched;
use crate::suit::Suit;
use crate::words::Goals;

/// One over no bits, two, three and four, and so that a byte or its sign would wrap. A number
/// gets those that are too large for it.
const NUMBERS: [u16; 6] = [1, 4, 8, 16, 128, 255];

/// Wrong for goal 0's necessary set alone, then with bits that no set may have.
const SETS: [u16; 7] = [1, 0x100, 0x1FF, 0x200, 0x8000, 0xFE00, 0xFFFF];

pub fn refused() -> Vec<Case> {
    let mut cases = one_fault(&Goals::default());
    cases.extend(one_fault(&at_largest(&stored())));
    cases.extend(one_fault(&of_a_suit()));
    cases.extend(two_faults(&of_a_suit()));
    cases.extend(all_faults());
    cases
}

/// The goals of a suit as they are searched.
fn of_a_suit() -> Goals {
    searched::goals(Suit::Ranks, &[3, 1, 1, 1, 1, 1, 1, 1, 3])
}

/// Each value with each content that is too large for it.
fn one_fault(good: &Goals) -> Vec<Case> {
    let wrong = |value| too_large(value).map(move |content| spoiled(good, &[(value, content)]));
    values().into_iter().flat_map(wrong).collect()
}

fn too_large(value: Value) -> impl Iterator<Item = u16> {
    let contents: &[u16] = match value {
        Value::Number(_) => &NUMBERS,
        Value::Necessary(_) | Value::Unnecessary(_) => &SETS,
    };
    let contents = contents.iter().copied();
    contents.filter(move |&content| content > value.largest())
}

/// Every two values, each over by one.
fn two_faults(good: &Goals) -> Vec<Case> {
    let over = over_by_one();
    let mut cases = Vec::new();
    for (at, &first) in over.iter().enumerate() {
        let others = over[at + 1..].iter();
        cases.extend(others.map(|&second| spoiled(good, &[first, second])));
    }
    cases
}

/// All values over by one; all bytes 255.
fn all_faults() -> [Case; 2] {
    let all_ones = |value| match value {
        Value::Number(_) => (value, 0xFF),
        Value::Necessary(_) | Value::Unnecessary(_) => (value, 0xFFFF),
    };
    let ones: Vec<_> = values().into_iter().map(all_ones).collect();
    [over_by_one(), ones].map(|wrong| spoiled(&Goals::default(), &wrong))
}

fn over_by_one() -> Vec<(Value, u16)> {
    let values = values().into_iter();
    values.map(|value| (value, value.largest() + 1)).collect()
}
