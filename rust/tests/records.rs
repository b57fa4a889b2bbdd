//! The record entry: codes 7 and 8, and the room that is left as it was.

use lastavon::{ANSWER_RECORD, HAND_RECORD};

/// No tiles, k 0, game 4.
fn hand() -> [u8; HAND_RECORD] {
    let mut hand = [0; HAND_RECORD];
    hand[35] = 4;
    hand
}

#[test]
fn other_room_is_left_as_it_was() {
    for size in (0..40).filter(|&size| size != ANSWER_RECORD) {
        let mut room = vec![0xa5; size];
        assert_eq!(lastavon::record(&hand(), &mut room), 8);
        assert_eq!(lastavon::record(&[], &mut room), 8);
        assert!(room.iter().all(|&byte| byte == 0xa5));
    }
}

#[test]
fn only_the_room_is_written() {
    let mut bytes = [0xa5; 32];
    assert_eq!(lastavon::record(&hand(), &mut bytes[8..24]), 0);
    assert_eq!(bytes[8..24], lastavon::answer_record(&hand()));
    assert_eq!(
        (&bytes[..8], &bytes[24..]),
        (&[0xa5; 8][..], &[0xa5; 8][..])
    );
}

#[test]
fn what_is_no_hand_record() {
    let mut broken = [0; ANSWER_RECORD];
    broken[0] = 7;
    for size in (0..80).filter(|&size| size != HAND_RECORD) {
        let mut room = [0xa5; ANSWER_RECORD];
        assert_eq!(lastavon::record(&vec![4; size], &mut room), 7);
        assert_eq!(room, broken);
    }
}
