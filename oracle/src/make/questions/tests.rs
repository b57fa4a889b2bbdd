//! What is asked, and what it is refused with.

use std::collections::HashSet;
use std::ops::Range;
use std::sync::LazyLock;

use super::*;
use crate::hand::question::QUESTION_RECORD;
use crate::hand::record::answer_record;
use crate::merged;
use crate::refusal::{Refusal, faults, refusal};

/// The stored questions, and what they are made with.
const STORED: &[u8] = include_bytes!("../../../../crates/hand_replay/stdin");
const SEED: u64 = 3;
const COUNT: usize = 2_200;

/// The answers of document 01's table, in its own records.
const TABLE: &[u8] = include_bytes!("../../../../examples/table.answers");

/// The same questions in their groups, made once for all tests.
static GROUPS: LazyLock<[Vec<Question>; 7]> = LazyLock::new(|| groups(SEED, COUNT));

static QUESTIONS: LazyLock<Vec<Question>> = LazyLock::new(|| joined(&GROUPS));

fn asked(counts: &[u8], k: u8, game: u8) -> bool {
    QUESTIONS.contains(&Question::new(counts, k, game))
}

/// Some question holds this and is refused so.
fn refused_so(told: Refusal, test: impl Fn(&Question) -> bool) -> bool {
    let mut questions = QUESTIONS.iter().filter(|question| test(question));
    questions.any(|question| refusal(question) == Some(told))
}

fn alone(tile: usize, count: u8) -> [u8; 34] {
    lay::with(&[(tile, count)])
}

#[test]
fn these_are_the_stored_questions() {
    let records: Vec<u8> = QUESTIONS.iter().flat_map(Question::record).collect();
    assert!(records == STORED);
}

#[test]
fn none_is_asked_twice() {
    let records: HashSet<&[u8]> = STORED.chunks(QUESTION_RECORD).collect();
    assert_eq!(records.len() * QUESTION_RECORD, STORED.len());
}

/// How many of each group were not asked before, and how many of these are refused.
#[test]
fn as_many_are_asked_as_the_readme_tells() {
    let mut seen = HashSet::new();
    let mut how_many = |group: &Vec<Question>| {
        let mut new = group.clone();
        new.retain(|question| seen.insert(question.record()));
        let refused = new.iter().filter(|question| refusal(question).is_some());
        (new.len(), refused.count())
    };
    let told = [
        (14, 4),
        (357, 0),
        (210, 0),
        (235, 0),
        (136, 0),
        (2_082, 0),
        (1_365, 1_365),
    ];
    assert_eq!(GROUPS.each_ref().map(&mut how_many), told);
}

#[test]
fn each_number_is_given_as_often_as_the_readme_tells() {
    let mut given = [0; 7];
    for question in &*QUESTIONS {
        given[refusal(question).map_or(0, |reason| usize::from(reason.number()))] += 1;
    }
    assert_eq!(given, [3_030, 420, 180, 337, 230, 92, 110]);
}

/// The same bytes in another order, and beside a code the index that a record has no room for.
#[test]
fn the_table_is_answered_as_in_records() {
    let indices = [0, 0, 0, 0, 0, 0, 0, 0, 0, 0, 0, 0, 0, 1];
    for ((question, row), index) in GROUPS[0].iter().zip(TABLE.chunks(16)).zip(indices) {
        let head = [row[0], index, row[1], row[12], row[13], 0];
        let told = [&head, &row[2..12]].concat();
        assert_eq!(answer_record(question, merged::answer)[..], told);
    }
}

#[test]
fn every_game_k_and_total_is_asked() {
    for game in GAMES {
        for k in 0..=4 {
            for total in 0..=14 {
                let fits = |question: &Question| {
                    (question.game, question.k, question.total()) == (game, k, total)
                };
                let mut accepted = QUESTIONS.iter().filter(|&q| refusal(q).is_none());
                assert!(accepted.any(fits), "game {game}, k {k}, {total} tiles");
            }
        }
    }
}

#[test]
fn every_game_and_k_at_the_edges_is_asked() {
    for game in [0, 1, 2, 3, 4, 5, 19, 20, 255] {
        for k in [0, 1, 2, 3, 4, 5, 9, 255] {
            assert!(asked(&[0; 34], k, game), "game {game}, k {k}");
        }
    }
}

#[test]
fn every_length_is_asked() {
    for length in 0..=36 {
        let fits = |question: &Question| question.counts.len() == length;
        let wrong = refused_so(Refusal::Length, fits);
        assert_eq!(wrong, length != 34, "{length} counts");
    }
}

#[test]
fn every_tile_is_asked_once_four_times_and_more() {
    for tile in 0..34 {
        for k in [0, 1] {
            assert!(asked(&alone(tile, 1), k, 4));
        }
        assert!(asked(&alone(tile, 4), 1, 4));
        for count in [5, 255] {
            for game in GAMES {
                let fits = |question: &Question| {
                    question.counts == alone(tile, count) && question.game == game
                };
                assert!(refused_so(Refusal::Copies(tile), fits));
            }
        }
    }
}

#[test]
fn every_rank_outside_game_3_is_asked_in_both_games() {
    for tile in 1..8 {
        for count in [1, 4] {
            let held = |question: &Question| question.counts == alone(tile, count);
            assert!(refused_so(Refusal::Outside(tile), held));
            let in_game_4 = |question: &Question| held(question) && question.game == 4;
            assert!(QUESTIONS.iter().any(in_game_4));
        }
    }
}

#[test]
fn all_ways_to_hold_1m_and_9m_are_asked_with_every_k() {
    for (first, last) in (0..25).map(|entry| (entry / 5, entry % 5)) {
        let counts = lay::with(&[(0, first), (8, last)]);
        for k in 0..=4 {
            assert!(asked(&counts, k, 3));
        }
    }
}

#[test]
fn one_suit_alone_is_asked_of_every_suit() {
    let suits: [Range<usize>; 4] = [0..9, 9..18, 18..27, 27..34];
    for (suit, own) in suits.into_iter().enumerate() {
        for game in GAMES {
            let of_the_suit = QUESTIONS.iter().filter(|question| {
                let held = question.counts.iter().enumerate();
                let mut held = held.filter(|(_, count)| **count > 0);
                let alone = held.all(|(tile, _)| own.contains(&tile)) && question.total() > 4;
                alone && question.game == game && refusal(question).is_none()
            });
            assert!(of_the_suit.count() > 10, "suit {suit}, game {game}");
        }
    }
}

/// Which refusals hold for a question, by their numbers.
fn numbers(question: &Question) -> Vec<u8> {
    faults(question).map(Refusal::number).collect()
}

/// In a wrong game nothing is outside: 6 needs game 3.
fn possible(chosen: &[u8]) -> bool {
    !(chosen.contains(&1) && chosen.contains(&6))
}

#[test]
fn every_two_and_three_faults_are_asked_alone() {
    for first in 1..=6 {
        for second in first + 1..=6 {
            let two = vec![first, second];
            let three = (second + 1..=6).map(|third| vec![first, second, third]);
            for chosen in three.chain([two]).filter(|chosen| possible(chosen)) {
                let asked = QUESTIONS.iter().any(|question| numbers(question) == chosen);
                assert!(asked, "faults {chosen:?}");
            }
        }
    }
}

#[test]
fn every_record_is_read_back() {
    for question in &*QUESTIONS {
        assert_eq!(Question::read(&question.record()).as_ref(), Some(question));
    }
}

#[test]
fn questions_drawn_one_by_one_are_of_all_kinds() {
    let mut random = Random::new(1);
    let mut given = [0; 7];
    for _ in 0..4_000 {
        let reason = refusal(&any(&mut random));
        given[reason.map_or(0, |reason| usize::from(reason.number()))] += 1;
    }
    assert!(
        given[0] > 3_000 && given.iter().all(|&times| times > 10),
        "{given:?}"
    );
}
