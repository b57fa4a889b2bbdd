//! One suit: answers, refusals that name a rank, and all goals at once.

use lastavon::{goals, suit, Rank, Suit, SuitAnswer, GOALS};

fn answered(which: Suit, counts: &[u8], pairs: u8, melds: u8) -> (u8, String, String) {
    let found: SuitAnswer = suit(which, counts, pairs, melds).expect("a suit");
    let sets = (
        found.necessary().to_string(),
        found.unnecessary().to_string(),
    );
    (found.number(), sets.0, sets.1)
}

fn refused(which: Suit, counts: &[u8], pairs: u8, melds: u8) -> (u8, Option<usize>, String) {
    let refusal = suit(which, counts, pairs, melds).expect_err("no suit");
    (
        refusal.code(),
        refusal.rank().map(Rank::index),
        refusal.to_string(),
    )
}

#[test]
fn answers() {
    let told = |number, more: &str, fewer: &str| (number, more.to_string(), fewer.to_string());
    let ranks = [1, 1, 0, 0, 0, 0, 0, 0, 1];
    assert_eq!(answered(Suit::Ranks, &ranks, 0, 1), told(1, "3", "9"));
    let honours = [2, 0, 0, 0, 0, 0, 1];
    assert_eq!(answered(Suit::Honours, &honours, 0, 1), told(1, "1", "7"));
    let ends = [1, 0, 0, 0, 0, 0, 0, 0, 1];
    assert_eq!(answered(Suit::Ends, &ends, 1, 0), told(1, "19", "19"));
    assert_eq!(answered(Suit::Ends, &ends, 0, 3), told(14, "-", "-"));
}

#[test]
fn refusals() {
    let told = |code, index, words: &str| (code, index, words.to_string());
    let goal = told(
        2,
        None,
        "more than one pair or more than four melds are wanted",
    );
    assert_eq!(refused(Suit::Ranks, &[0; 9], 2, 0), goal);
    let length = told(
        3,
        None,
        "there are not as many counts as the suit has ranks",
    );
    assert_eq!(refused(Suit::Honours, &[0; 9], 0, 1), length);
    let over = [0, 0, 0, 0, 0, 0, 5, 5, 0];
    assert_eq!(
        refused(Suit::Ranks, &over, 0, 1),
        told(4, Some(6), "more than four are held of rank 7")
    );
    let sum = told(5, None, "more than 14 tiles are held");
    assert_eq!(
        refused(Suit::Ranks, &[4, 4, 4, 3, 0, 0, 0, 0, 0], 0, 1),
        sum
    );
    let barred = [1, 0, 0, 0, 1, 0, 0, 1, 0];
    assert_eq!(
        refused(Suit::Ends, &barred, 0, 1),
        told(6, Some(4), "rank 5 may not be held in 1m/9m")
    );
}

/// All goals at once are the goals one by one, refusals too.
#[test]
fn all_goals() {
    let rows: [[u8; 9]; 7] = [
        [0; 9],
        [1, 1, 0, 0, 0, 0, 0, 0, 1],
        [1, 0, 0, 0, 0, 0, 0, 0, 1],
        [3, 1, 1, 1, 1, 1, 1, 1, 3],
        [0, 0, 0, 0, 0, 0, 5, 5, 0],
        [4, 4, 4, 3, 0, 0, 0, 0, 0],
        [1, 0, 0, 0, 1, 0, 0, 1, 0],
    ];
    for which in [Suit::Ranks, Suit::Honours, Suit::Ends] {
        for (row, length) in rows.iter().flat_map(|row| (0..=9).map(move |n| (row, n))) {
            let (counts, all) = (&row[..length], goals(which, &row[..length]));
            for goal in 0..GOALS {
                let one = suit(which, counts, goal as u8 / 5, goal as u8 % 5);
                assert_eq!(one, all.map(|answers| answers[goal]));
            }
        }
    }
}
