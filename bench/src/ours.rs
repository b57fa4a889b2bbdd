//! Ours, by the C interface of the proved library.

use std::ptr;

use oracle::hand::question::Question;
use oracle::suit::{Goal, Suit};

/// Number in bits 0 to 7, necessary set in 8 to 23, unnecessary set in 24 to 39, index of a
/// refusal in 40 to 47, code in 48 to 55.
pub type Word = u64;

/// How many goals a suit has.
pub const TEN: usize = 10;

/// The code where the room is not as long as what is written there.
pub const WRONG_ROOM: u8 = 8;

/// How many records the program reads at once: those of 65,520 bytes.
pub const READ_AT_ONCE: usize = 1_820;

/// Counts and room, and how many there are of each.
type AskGoals = unsafe extern "C" fn(*const u8, usize, *mut Word, usize) -> u8;

unsafe extern "C" {
    fn lastavon_ranks(counts: *const u8, length: usize, pairs: u8, melds: u8) -> Word;
    fn lastavon_honours(counts: *const u8, length: usize, pairs: u8, melds: u8) -> Word;
    fn lastavon_ends(counts: *const u8, length: usize, pairs: u8, melds: u8) -> Word;

    fn lastavon_hand(
        counts: *const u8,
        counts_len: usize,
        k: u8,
        game: u8,
        out: *mut u64,
        out_len: usize,
    ) -> u8;

    fn lastavon_hand_search(
        counts: *const u8,
        counts_len: usize,
        k: u8,
        game: u8,
        out: *mut u64,
        out_len: usize,
    ) -> u8;

    fn lastavon_ranks_goals(counts: *const u8, length: usize, out: *mut Word, places: usize) -> u8;
    fn lastavon_honours_goals(
        counts: *const u8,
        length: usize,
        out: *mut Word,
        places: usize,
    ) -> u8;
    fn lastavon_ends_goals(counts: *const u8, length: usize, out: *mut Word, places: usize) -> u8;

    fn lastavon_record(hand: *const u8, length: usize, answer: *mut u8, room: usize) -> u8;
}

/// What is found for a goal, as its word: with code and index 0.
pub fn word(
    number: impl Into<Word>,
    necessary: impl Into<Word>,
    unnecessary: impl Into<Word>,
) -> Word {
    number.into() | necessary.into() << 8 | unnecessary.into() << 24
}

// Each call lends the counts for its own time, as many as it names, and any bytes will do:
// a public function takes every input. So it is with the room for the answer.

/// Where nothing is lent, nowhere: that too may be handed over.
fn place<T>(lent: &[T]) -> *const T {
    match lent {
        [] => ptr::null(),
        _ => lent.as_ptr(),
    }
}

fn room_place<T>(lent: &mut [T]) -> *mut T {
    match lent {
        [] => ptr::null_mut(),
        _ => lent.as_mut_ptr(),
    }
}

#[inline]
pub fn ranks(counts: &[u8; 9], goal: Goal) -> Word {
    unsafe { lastavon_ranks(counts.as_ptr(), 9, goal.pairs, goal.melds) }
}

#[inline]
pub fn honours(counts: &[u8; 7], goal: Goal) -> Word {
    unsafe { lastavon_honours(counts.as_ptr(), 7, goal.pairs, goal.melds) }
}

#[inline]
pub fn ends(counts: &[u8; 9], goal: Goal) -> Word {
    unsafe { lastavon_ends(counts.as_ptr(), 9, goal.pairs, goal.melds) }
}

/// A suit with any counts, as many as there are.
pub fn suit(suit: Suit, counts: &[u8], goal: Goal) -> Word {
    let asked = match suit {
        Suit::Ranks => lastavon_ranks,
        Suit::Honours => lastavon_honours,
        Suit::Ends => lastavon_ends,
    };
    unsafe { asked(place(counts), counts.len(), goal.pairs, goal.melds) }
}

#[inline]
pub fn ranks_goals(counts: &[u8; 9]) -> [Word; TEN] {
    goals_of(lastavon_ranks_goals, counts)
}

#[inline]
pub fn honours_goals(counts: &[u8; 7]) -> [Word; TEN] {
    goals_of(lastavon_honours_goals, counts)
}

#[inline]
pub fn ends_goals(counts: &[u8; 9]) -> [Word; TEN] {
    goals_of(lastavon_ends_goals, counts)
}

#[inline]
fn goals_of(asked: AskGoals, counts: &[u8]) -> [Word; TEN] {
    let mut room = [0; TEN];
    unsafe { asked(counts.as_ptr(), counts.len(), room.as_mut_ptr(), TEN) };
    room
}

/// Gives the code. The ten goals of a suit with any counts are written into the ten words of
/// `room`, by the fast form; if there are more or fewer, the code is 8 and nothing is written.
pub fn goals(suit: Suit, counts: &[u8], room: &mut [Word]) -> u8 {
    let asked: AskGoals = match suit {
        Suit::Ranks => lastavon_ranks_goals,
        Suit::Honours => lastavon_honours_goals,
        Suit::Ends => lastavon_ends_goals,
    };
    let (places, out) = (room.len(), room_place(room));
    unsafe { asked(place(counts), counts.len(), out, places) }
}

/// Gives the code. The answer is written into the three words of `room`, as `Reply` has it;
/// if there are more or fewer, the code is 8 and nothing is written. By the fast form.
#[inline]
pub fn hand(counts: &[u8], k: u8, game: u8, room: &mut [u64]) -> u8 {
    let (out_len, out) = (room.len(), room_place(room));
    unsafe { lastavon_hand(place(counts), counts.len(), k, game, out, out_len) }
}

/// The same by the search.
#[inline]
pub fn hand_search(counts: &[u8], k: u8, game: u8, room: &mut [u64]) -> u8 {
    let (out_len, out) = (room.len(), room_place(room));
    unsafe { lastavon_hand_search(place(counts), counts.len(), k, game, out, out_len) }
}

/// One of the two hand entries.
pub type Entry = fn(&[u8], u8, u8, &mut [u64]) -> u8;

pub fn asked(entry: Entry, question: &Question, room: &mut [u64]) -> u8 {
    entry(&question.counts, question.k, question.game, room)
}

/// Gives the code. The answer record is written into the sixteen bytes of `room`; if there are
/// more or fewer, the code is 8 and nothing is written.
pub fn record(piece: &[u8], room: &mut [u8]) -> u8 {
    let (out_len, out) = (room.len(), room_place(room));
    unsafe { lastavon_record(place(piece), piece.len(), out, out_len) }
}
