//! Bytes lent from the middle of a longer buffer, with guards around them: what is lent may
//! begin at any address, and nothing beside it may be written.

use std::ops::Range;

use oracle::random::Random;

/// A guard has up to so many bytes, so that every alignment comes.
pub const GUARD: usize = 64;

pub struct Laid {
    pub bytes: Vec<u8>,
    pub piece: Range<usize>,
    pub room: Range<usize>,
}

impl Laid {
    /// A guard, the piece, a guard, the room, a guard. Guards and room are random bytes, so that
    /// what is written shows.
    pub fn new(random: &mut Random, piece: &[u8], room: usize) -> Self {
        let mut bytes = Vec::new();
        noise(random, &mut bytes);
        let from = bytes.len();
        bytes.extend(piece);
        let piece = from..bytes.len();
        noise(random, &mut bytes);
        let from = bytes.len();
        bytes.extend((0..room).map(|_| random.below(256) as u8));
        let room = from..bytes.len();
        bytes.extend((0..GUARD).map(|_| random.below(256) as u8));
        Laid { bytes, piece, room }
    }

    /// The piece, and the room behind it.
    pub fn lend(&mut self) -> (&[u8], &mut [u8]) {
        let (before, after) = self.bytes.split_at_mut(self.room.start);
        let length = self.room.len();
        (&before[self.piece.clone()], &mut after[..length])
    }
}

fn noise(random: &mut Random, bytes: &mut Vec<u8>) {
    let length = random.below(GUARD);
    bytes.extend((0..length).map(|_| random.below(256) as u8));
}
