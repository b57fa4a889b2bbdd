//! The calls of the archive: the only unsafe code of this crate.
//!
//! The archive takes any bytes, any lengths and any numbers, keeps no pointer and allocates nothing. It asks that a
//! pointer is valid for its length and that nothing it reads overlaps what it writes.

extern "C" {
    fn lastavon_hand(
        counts: *const u8,
        length: usize,
        k: u8,
        game: u8,
        words: *mut u64,
        places: usize,
    ) -> u8;
    fn lastavon_hand_search(
        counts: *const u8,
        length: usize,
        k: u8,
        game: u8,
        words: *mut u64,
        places: usize,
    ) -> u8;
    fn lastavon_record(hand: *const u8, length: usize, answer: *mut u8, room: usize) -> u8;
    fn lastavon_ranks(counts: *const u8, length: usize, pairs: u8, melds: u8) -> u64;
    fn lastavon_honours(counts: *const u8, length: usize, pairs: u8, melds: u8) -> u64;
    fn lastavon_ends(counts: *const u8, length: usize, pairs: u8, melds: u8) -> u64;
    fn lastavon_ranks_goals(counts: *const u8, length: usize, words: *mut u64, places: usize)
        -> u8;
    fn lastavon_honours_goals(
        counts: *const u8,
        length: usize,
        words: *mut u64,
        places: usize,
    ) -> u8;
    fn lastavon_ends_goals(counts: *const u8, length: usize, words: *mut u64, places: usize) -> u8;
}

/// Calls with room for N words: the code, and the words.
fn with_room<const N: usize>(call: impl FnOnce(*mut u64, usize) -> u8) -> (u8, [u64; N]) {
    let mut words = [0; N];
    let code = call(words.as_mut_ptr(), words.len());
    (code, words)
}

/// The code, and the three words.
pub fn hand(counts: &[u8], k: u8, game: u8) -> (u8, [u64; 3]) {
    // SAFETY: both pointers come with the length of what they point to, and the room is a local of its own.
    with_room(|room, places| unsafe {
        lastavon_hand(counts.as_ptr(), counts.len(), k, game, room, places)
    })
}

/// The same by search.
pub fn hand_search(counts: &[u8], k: u8, game: u8) -> (u8, [u64; 3]) {
    // SAFETY: as for `hand`.
    with_room(|room, places| unsafe {
        lastavon_hand_search(counts.as_ptr(), counts.len(), k, game, room, places)
    })
}

/// The code; the answer record is written into the room.
pub fn record(hand: &[u8], answer: &mut [u8]) -> u8 {
    // SAFETY: both pointers come with their slice's length, and a slice that is lent to be written overlaps no other.
    unsafe { lastavon_record(hand.as_ptr(), hand.len(), answer.as_mut_ptr(), answer.len()) }
}

/// The word of nine ranks.
pub fn ranks(counts: &[u8], pairs: u8, melds: u8) -> u64 {
    // SAFETY: the pointer comes with its slice's length, and nothing is written.
    unsafe { lastavon_ranks(counts.as_ptr(), counts.len(), pairs, melds) }
}

/// The word of the honours.
pub fn honours(counts: &[u8], pairs: u8, melds: u8) -> u64 {
    // SAFETY: the pointer comes with its slice's length, and nothing is written.
    unsafe { lastavon_honours(counts.as_ptr(), counts.len(), pairs, melds) }
}

/// The word of 1m/9m.
pub fn ends(counts: &[u8], pairs: u8, melds: u8) -> u64 {
    // SAFETY: the pointer comes with its slice's length, and nothing is written.
    unsafe { lastavon_ends(counts.as_ptr(), counts.len(), pairs, melds) }
}

/// The code of nine ranks, and the words of the ten goals.
pub fn ranks_goals(counts: &[u8]) -> (u8, [u64; 10]) {
    // SAFETY: as for `hand`.
    with_room(|room, places| unsafe {
        lastavon_ranks_goals(counts.as_ptr(), counts.len(), room, places)
    })
}

/// The code of the honours, and the words of the ten goals.
pub fn honours_goals(counts: &[u8]) -> (u8, [u64; 10]) {
    // SAFETY: as for `hand`.
    with_room(|room, places| unsafe {
        lastavon_honours_goals(counts.as_ptr(), counts.len(), room, places)
    })
}

/// The code of 1m/9m, and the words of the ten goals.
pub fn ends_goals(counts: &[u8]) -> (u8, [u64; 10]) {
    // SAFETY: as for `hand`.
    with_room(|room, places| unsafe {
        lastavon_ends_goals(counts.as_ptr(), counts.len(), room, places)
    })
}
