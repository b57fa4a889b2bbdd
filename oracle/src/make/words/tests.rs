//! What is asked, and what the answers to it are.

use std::sync::LazyLock;

use super::*;
use crate::standard::published::ENTRY_ZERO;
use crate::standard::unpack;
use crate::words::bytes::{read_goals, read_words};
use crate::words::cleared;
use crate::words::question::QUESTION_RECORD;
use crate::words::record::answer;
use crate::words::refusal::{Fault, faults};

/// The stored questions, and what they are made with.
const STORED: &[u8] = include_bytes!("../../../../crates/words_replay/stdin");
const SEED: u64 = 3;
const COUNT: usize = 2_000;

/// The same questions in their groups, made once for all tests.
static GROUPS: LazyLock<[Vec<Question>; 5]> = LazyLock::new(|| groups(SEED, COUNT));

fn packed(question: &Question) -> Option<&Goals> {
    match question {
        Question::Pack(goals) => Some(goals),
        Question::Unpack(_) => None,
    }
}

/// Words and goals that were asked both ways must be the answers to one another.
fn assert_crossed(questions: &[Question]) {
    for pair in questions.chunks(2) {
        let [Question::Unpack(words), Question::Pack(goals)] = pair else {
            panic!("words, then goals: {pair:?}");
        };
        assert_eq!(read_goals(&answer(&pair[0])), *goals);
        let record = answer(&pair[1]);
        assert_eq!(record[0], 0, "{goals:?}");
        assert_eq!(read_words(&record[1..]), *words, "{goals:?}");
    }
}

#[test]
fn these_are_the_stored_questions() {
    let made = joined(&GROUPS);
    let records: Vec<u8> = made.iter().flat_map(Question::record).collect();
    assert!(records == STORED);
}

#[test]
fn searched_goals_are_packed_as_they_were_published() {
    let [published, ..] = &*GROUPS;
    assert_crossed(published);
    let Question::Unpack(first) = &published[0] else {
        panic!("words");
    };
    assert_eq!(first.number, ENTRY_ZERO.word);
    let Question::Pack(first) = &published[1] else {
        panic!("goals");
    };
    assert_eq!(first.numbers, ENTRY_ZERO.numbers);
}

#[test]
fn searched_goals_are_packed_as_by_the_rust_source() {
    let [_, suits, ..] = &*GROUPS;
    assert_crossed(suits);
}

#[test]
fn what_is_packed_is_unpacked() {
    let [accepted @ .., _] = &*GROUPS;
    for question in accepted.iter().flatten() {
        if let Question::Pack(goals) = question {
            let record = answer(question);
            assert_eq!(record[0], 0, "{goals:?}");
            assert_eq!(unpack(&read_words(&record[1..])), *goals);
        }
    }
}

#[test]
fn each_value_at_its_largest_fills_its_own_bits() {
    let alone = limits::alone();
    assert_eq!(alone.len(), 9 + 9 + 10);
    let mut filled = [0; 7];
    for goals in alone {
        let words = read_words(&answer(&Question::Pack(goals))[1..]).seven();
        for (word, all) in words.into_iter().zip(&mut filled) {
            assert_eq!(word & *all, 0);
            *all |= word;
        }
    }
    let used = cleared(&Words::new([u32::MAX; 7]));
    assert_eq!(Words::new(filled), used);
}

#[test]
fn every_bit_is_asked_alone() {
    let words = any::single_bits();
    let mut bits: Vec<_> = words.iter().map(Words::seven).collect();
    let one = |words: &[u32; 7]| words.iter().map(|word| word.count_ones()).sum::<u32>() == 1;
    assert!(bits.iter().all(one));
    bits.sort_unstable();
    bits.dedup();
    assert_eq!(bits.len(), 224);
}

#[test]
fn every_fault_is_made_alone() {
    let alone: Vec<_> = cases::questions()
        .iter()
        .filter_map(packed)
        .map(faults)
        .filter(|faults| faults.len() == 1)
        .collect();
    let made = |fault| alone.iter().filter(|faults| faults[0] == fault).count();
    assert!(made(Fault::FirstNumber) >= 2 && made(Fault::FirstNecessary) >= 2);
    for goal in 1..10 {
        assert!(made(Fault::Number(goal)) >= 2);
        assert!(made(Fault::Necessary(goal)) >= 2);
    }
    for goal in 0..10 {
        assert!(made(Fault::Unnecessary(goal)) >= 2);
    }
}

#[test]
fn what_was_made_to_be_refused_is_and_nothing_else() {
    let mut refusal = [0; 29];
    refusal[0] = 9;
    let [accepted @ .., wrong] = &*GROUPS;
    let mut right = accepted.concat();
    right.retain(|question| packed(question).is_some());
    assert!(right.iter().all(|question| answer(question)[0] == 0));
    assert!(wrong.iter().all(|question| answer(question) == refusal));
}

/// How many of a group are to be unpacked, and how many to be packed, with none twice.
fn how_many(group: &Vec<Question>) -> (usize, usize) {
    let asked = once(group, |question| question.record());
    let goals = asked.iter().filter_map(|question| packed(question)).count();
    (asked.len() - goals, goals)
}

#[test]
fn as_many_are_asked_as_the_readme_tells() {
    let told = [(25, 25), (3_424, 3_424), (553, 300), (0, 333), (0, 803)];
    assert_eq!(GROUPS.each_ref().map(how_many), told);
}

#[test]
fn no_group_asks_what_another_has_asked() {
    let each = GROUPS.each_ref().map(how_many);
    let asked: usize = each.map(|(words, goals)| words + goals).iter().sum();
    assert_eq!(asked * QUESTION_RECORD, STORED.len());
}

#[test]
fn every_record_is_read_back() {
    for question in GROUPS.concat() {
        assert_eq!(Question::read(&question.record()), Some(question));
    }
}
