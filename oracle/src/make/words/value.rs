//! The thirty values of ten goals, one by one, each with the largest that fits.

use crate::words::Goals;

/// The number, the necessary set or the unnecessary set of a goal.
#[derive(Clone, Copy, Debug, PartialEq, Eq)]
pub enum Value {
    Number(usize),
    Necessary(usize),
    Unnecessary(usize),
}

/// Written down apart from the widths that the refusals are made with.
const LARGEST_NUMBERS: [u16; 10] = [0, 3, 7, 15, 15, 3, 7, 15, 15, 15];

pub fn values() -> Vec<Value> {
    let of: [fn(usize) -> Value; 3] = [Value::Number, Value::Necessary, Value::Unnecessary];
    of.into_iter().flat_map(|of| (0..10).map(of)).collect()
}

/// Those that the words have room for: all but goal 0's number and necessary set.
pub fn stored() -> Vec<Value> {
    let mut stored = values();
    stored.retain(|value| value.largest() > 0);
    stored
}

/// Goals in which each of these values is as large as fits, and the others are 0.
pub fn at_largest(values: &[Value]) -> Goals {
    let mut goals = Goals::default();
    values
        .iter()
        .for_each(|value| value.set(&mut goals, value.largest()));
    goals
}

impl Value {
    pub fn largest(self) -> u16 {
        match self {
            Value::Number(goal) => LARGEST_NUMBERS[goal],
            Value::Necessary(0) => 0,
            Value::Necessary(_) | Value::Unnecessary(_) => 0x1FF,
        }
    }

    pub fn set(self, goals: &mut Goals, content: u16) {
        match self {
            Value::Number(goal) => goals.numbers[goal] = content.into(),
            Value::Necessary(goal) => goals.necessary[goal] = content,
            Value::Unnecessary(goal) => goals.unnecessary[goal] = content,
        }
    }
}
