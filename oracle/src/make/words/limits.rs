//! Goals that are packed, up to the largest values that fit.

use super::value::{Value, at_largest, stored};
use crate::random::Random;
use crate::words::Goals;
use crate::words::question::Question;

const RANDOM: usize = 300;

/// None, each value alone, all numbers, all sets of a kind, everything, then random goals.
pub fn limits(random: &mut Random) -> Vec<Question> {
    let mut goals = vec![Goals::default()];
    goals.extend(alone());
    goals.extend(kinds());
    goals.push(at_largest(&stored()));
    goals.extend((0..RANDOM).map(|_| fitting(random)));
    goals.into_iter().map(Question::Pack).collect()
}

/// Each value at its largest and nothing else.
pub fn alone() -> Vec<Goals> {
    let values = stored().into_iter();
    values.map(|value| at_largest(&[value])).collect()
}

fn kinds() -> [Goals; 3] {
    let tests: [fn(&Value) -> bool; 3] = [
        |value| matches!(value, Value::Number(_)),
        |value| matches!(value, Value::Necessary(_)),
        |value| matches!(value, Value::Unnecessary(_)),
    ];
    tests.map(|test| {
        let mut values = stored();
        values.retain(test);
        at_largest(&values)
    })
}

fn fitting(random: &mut Random) -> Goals {
    let mut goals = Goals::default();
    for value in stored() {
        let end = usize::from(value.largest()) + 1;
        value.set(&mut goals, random.below(end) as u16);
    }
    goals
}
