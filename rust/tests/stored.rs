//! Stored records: the fourteen rows of document 01's table, by all entries, and thousands of hands.

use std::fs;
use std::path::Path;

fn stored(name: &str) -> Vec<u8> {
    let top = Path::new(env!("CARGO_MANIFEST_DIR")).join("..");
    fs::read(top.join(name)).expect("stored in the repository")
}

fn five(bits: u64) -> [u8; 5] {
    let [a, b, c, d, e, rest @ ..] = bits.to_le_bytes();
    assert_eq!(rest, [0; 3]);
    [a, b, c, d, e]
}

/// The answer record of a hand record, from what `answer` gives.
fn by_answer(hand: &[u8]) -> Vec<u8> {
    match lastavon::answer(&hand[..34], hand[34], hand[35]) {
        Err(refusal) => [vec![refusal.code()], vec![0; 15]].concat(),
        Ok(found) => {
            let necessary = five(found.necessary().bits());
            let unnecessary = five(found.unnecessary().bits());
            let end = [found.kinds(), found.live(), 0, 0];
            [&[0, found.number()][..], &necessary, &unnecessary, &end].concat()
        }
    }
}

#[test]
fn every_row() {
    let (hands, answers) = (
        stored("examples/table.hands"),
        stored("examples/table.answers"),
    );
    let rows: Vec<_> = hands.chunks(36).zip(answers.chunks(16)).collect();
    assert_eq!(
        (rows.len(), hands.len(), answers.len()),
        (14, 14 * 36, 14 * 16)
    );
    for (hand, answer) in rows {
        assert_eq!(lastavon::answer_record(hand), answer);
        assert_eq!(by_answer(hand), answer);
        let (counts, k, game) = (&hand[..34], hand[34], hand[35]);
        let searched = lastavon::answer_by_search(counts, k, game);
        assert_eq!(searched, lastavon::answer(counts, k, game));
    }
}

/// The last piece is broken, and answered with 7.
#[test]
fn every_stored_hand() {
    let (hands, answers) = (
        stored("crates/annotate/stdin"),
        stored("crates/annotate/stdout"),
    );
    assert_eq!((hands.len(), answers.len()), (4000 * 36 + 17, 4001 * 16));
    for (hand, answer) in hands.chunks(36).zip(answers.chunks(16)) {
        assert_eq!(lastavon::answer_record(hand), answer);
    }
}
