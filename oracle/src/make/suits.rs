//! The seeded generator of suit questions. The same seed and count give the same questions.

mod cases;
mod ends;
pub(super) mod extremes;
mod faults;
pub(super) mod fill;
mod refused;
pub mod sorts;

use super::once;
use crate::random::Random;
use crate::suit::question::Question;
use crate::suit::{GOALS, Suit};

/// The suits that are drawn at random; of 1m/9m there are only 25, and all are asked.
pub(super) const DRAWN: [Suit; 2] = [Suit::Ranks, Suit::Honours];

/// All of 1m/9m, suits that lie far out, `count` random suits each of nine ranks and of
/// honours, then what is refused, which needs no seed.
pub fn suits(seed: u64, count: usize) -> Vec<Question> {
    let mut questions = ends::ends();
    let far_out = DRAWN.into_iter().flat_map(extremes::extremes);
    questions.extend(once(far_out, Question::record));
    questions.extend(random(seed, count));
    questions.extend(once(cases::questions(), Question::record));
    questions
}

/// First each for all goals at once, then one in ten goal by goal.
fn random(seed: u64, count: usize) -> Vec<Question> {
    let mut random = Random::new(seed);
    let mut any = |suit| (0..count).map(|_| sorts::any(&mut random, suit)).collect();
    let drawn: [Vec<Vec<u8>>; 2] = DRAWN.map(&mut any);
    let (mut whole, mut single) = (Vec::new(), Vec::new());
    for (suit, drawn) in DRAWN.into_iter().zip(&drawn) {
        whole.extend(drawn.iter().map(|counts| Question::all(suit, counts)));
        let few = drawn.iter().step_by(10);
        single.extend(few.flat_map(|counts| goal_by_goal(suit, counts)));
    }
    whole.extend(single);
    whole
}

fn goal_by_goal(suit: Suit, counts: &[u8]) -> [Question; 10] {
    GOALS.map(|goal| Question::one(suit, goal, counts))
}

/// Goal by goal, then all goals at once.
fn both_ways(suit: Suit, counts: &[u8]) -> Vec<Question> {
    let mut questions = goal_by_goal(suit, counts).to_vec();
    questions.push(Question::all(suit, counts));
    questions
}

#[cfg(test)]
mod tests {
    use super::*;
    use crate::suit::SUITS;
    use crate::suit::question::Wanted;
    use crate::suit::refusal::{faults, refusal};

    /// The numbers that a suit can be refused with.
    fn numbers(suit: Suit) -> &'static [u8] {
        match suit {
            Suit::Ends => &[2, 3, 4, 5, 6],
            _ => &[2, 3, 4, 5],
        }
    }

    fn number(question: &Question) -> Option<u8> {
        refusal(question).map(|reason| reason.number())
    }

    fn count(questions: &[Question], test: impl Fn(&Question) -> bool) -> usize {
        questions.iter().filter(|question| test(question)).count()
    }

    #[test]
    fn every_number_is_made_for_every_suit_both_ways() {
        let questions = suits(1, 0);
        let made = |suit, refused, all| {
            count(&questions, |question| {
                let wants_all = question.wanted == Wanted::All;
                (question.suit, wants_all) == (suit, all) && number(question) == refused
            })
        };
        for suit in SUITS {
            assert!(made(suit, None, false) > 0 && made(suit, None, true) > 0);
            for &refused in numbers(suit) {
                assert!(made(suit, Some(refused), false) > 0);
                let possible = refused != 2;
                assert_eq!(made(suit, Some(refused), true) > 0, possible);
            }
        }
    }

    #[test]
    fn of_any_two_faults_the_first_is_given() {
        let questions = suits(1, 0);
        for suit in SUITS {
            let numbers = numbers(suit);
            for (at, &first) in numbers.iter().enumerate() {
                for &second in &numbers[at + 1..] {
                    let decided = count(&questions, |question| {
                        let both = faults(question).any(|fault| fault.number() == second);
                        question.suit == suit && both && number(question) == Some(first)
                    });
                    assert!(decided > 0, "{suit:?}: {first} before {second}");
                }
            }
        }
    }

    #[test]
    fn random_suits_are_accepted_and_have_every_total() {
        let questions = random(1, 1_500);
        assert_eq!(questions.len(), 2 * (1_500 + 10 * 150));
        assert_eq!(count(&questions, |question| refusal(question).is_some()), 0);
        for suit in DRAWN {
            for total in 0..=14 {
                let drawn = count(&questions, |question| {
                    question.suit == suit && question.total() == total
                });
                assert!(drawn > 0, "{suit:?} with {total} tiles");
            }
        }
    }

    #[test]
    fn every_record_is_read_back() {
        for question in suits(2, 100) {
            assert_eq!(Question::read(&question.record()), Some(question));
        }
    }
}
