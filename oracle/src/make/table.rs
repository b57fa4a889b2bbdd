//! The hands of document 01's table ("Hands to hold it against"), row by row. Where a row
//! leaves k open it is 4, and where it leaves the game open it is 4.

use crate::hand::Hand;
use crate::notation::counts;

const ROWS: [(&str, u8, u8); 14] = [
    ("", 0, 4),
    ("", 4, 3),
    ("1z", 0, 4),
    ("19m", 0, 4),
    ("1111m", 1, 4),
    ("89m1p11z", 1, 4),
    ("11119999m", 4, 3),
    ("11119999m", 4, 4),
    ("123m456p789s11122z", 4, 4),
    ("111222333m", 3, 4),
    ("", 9, 5),
    ("11111m123456789p1s", 4, 4),
    ("2m11112222p333344s", 4, 3),
    ("2m", 4, 3),
];

pub fn table() -> Vec<Hand> {
    let row = |(text, k, game)| Hand {
        counts: counts(text),
        k,
        game,
    };
    ROWS.map(row).to_vec()
}

#[cfg(test)]
mod tests {
    //! The stored answers against the words of document 01's table.

    use super::table;
    use crate::hand::Hand;
    use crate::{merged, record};

    const ANSWERS: &[u8] = include_bytes!("../../../examples/table.answers");
    const ALL: u64 = (1 << 34) - 1;

    fn record(row: usize) -> &'static [u8] {
        &ANSWERS[16 * row..16 * row + 16]
    }

    fn set(bytes: &[u8]) -> u64 {
        bytes
            .iter()
            .rev()
            .fold(0, |set, &byte| set << 8 | u64::from(byte))
    }

    fn number(row: usize) -> u8 {
        assert_eq!(record(row)[0], 0, "row {row} is an answer");
        record(row)[1]
    }

    fn necessary(row: usize) -> u64 {
        set(&record(row)[2..7])
    }

    fn unnecessary(row: usize) -> u64 {
        set(&record(row)[7..12])
    }

    fn kinds_and_live(row: usize) -> (u8, u8) {
        (record(row)[12], record(row)[13])
    }

    #[test]
    fn the_rust_source_gives_the_stored_answers() {
        let hands: Vec<u8> = table().iter().flat_map(Hand::record).collect();
        assert_eq!(record::answers(&hands, merged::answer), ANSWERS);
    }

    #[test]
    #[rustfmt::skip]
    fn rows_given_byte_by_byte() {
        assert_eq!(record(0), [
            0x00, 0x02, 0xFF, 0xFF, 0xFF, 0xFF, 0x03, 0x00, 0x00, 0x00, 0x00, 0x00, 0x22, 0x88, 0x00, 0x00,
        ]);
        assert_eq!(record(1), [
            0x00, 0x0E, 0x01, 0xFF, 0xFF, 0xFF, 0x03, 0x00, 0x00, 0x00, 0x00, 0x00, 0x1B, 0x6C, 0x00, 0x00,
        ]);
        assert_eq!(record(2), [
            0x00, 0x01, 0x00, 0x00, 0x00, 0x08, 0x00, 0x00, 0x00, 0x00, 0x00, 0x00, 0x01, 0x03, 0x00, 0x00,
        ]);
        assert_eq!(record(3), [
            0x00, 0x01, 0x01, 0x01, 0x00, 0x00, 0x00, 0x01, 0x01, 0x00, 0x00, 0x00, 0x02, 0x06, 0x00, 0x00,
        ]);
    }

    #[test]
    fn rows_given_in_words() {
        assert_eq!(number(4), 2);
        assert_eq!((necessary(4), unnecessary(4)), (ALL & !1, 1));
        assert_eq!(kinds_and_live(4), (33, 132));
        assert_eq!(number(5), 1);
        assert_eq!((necessary(5), unnecessary(5)), (1 << 6, 1 << 9));
        assert_eq!(kinds_and_live(5).1, 4);
        assert_eq!(number(6), 8);
        assert_eq!((necessary(6), unnecessary(6)), (ALL & !0x1FF, 0x101));
        assert_eq!(kinds_and_live(6).1, 100);
        assert_eq!(number(7), 6);
        assert_eq!(number(8), 0);
        assert_eq!((necessary(8), unnecessary(8)), (0, 0));
        assert_eq!(number(9), 2);
    }

    #[test]
    fn rows_that_are_refused() {
        for (row, code) in [(10, 1), (11, 4), (12, 5), (13, 6)] {
            assert_eq!(record(row)[0], code);
            assert_eq!(record(row)[1..], [0; 15]);
        }
        assert_eq!(ANSWERS.len(), 14 * 16);
    }
}
