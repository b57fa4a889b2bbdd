//! Goals that are refused, each with the faults that they were made with.

use super::refused::refused;
use super::value::Value;
use crate::words::Goals;
use crate::words::question::Question;
use crate::words::refusal::{Fault, faults};

/// What is told comes from how the goals were made, and not from the tests of `refusal`.
pub struct Case {
    pub goals: Goals,
    pub told: Vec<Fault>,
}

/// None is handed out that has not the faults told, and no others.
pub fn questions() -> Vec<Question> {
    let checked = |case: Case| {
        assert_eq!(faults(&case.goals), case.told);
        Question::Pack(case.goals)
    };
    refused().into_iter().map(checked).collect()
}

/// Good goals made wrong: each of these values gets the content beside it, too large for it.
pub fn spoiled(good: &Goals, wrong: &[(Value, u16)]) -> Case {
    let mut goals = good.clone();
    let mut told = Vec::new();
    for &(value, content) in wrong {
        value.set(&mut goals, content);
        told.extend(told_of(value, content));
    }
    told.sort_unstable();
    Case { goals, told }
}

/// Goal 0's necessary set can be wrong in both ways at once.
fn told_of(value: Value, content: u16) -> Vec<Fault> {
    match value {
        Value::Number(0) => vec![Fault::FirstNumber],
        Value::Necessary(0) if content < 0x200 => vec![Fault::FirstNecessary],
        Value::Necessary(0) => vec![Fault::FirstNecessary, Fault::Necessary(0)],
        Value::Number(goal) => vec![Fault::Number(goal)],
        Value::Necessary(goal) => vec![Fault::Necessary(goal)],
        Value::Unnecessary(goal) => vec![Fault::Unnecessary(goal)],
    }
}
