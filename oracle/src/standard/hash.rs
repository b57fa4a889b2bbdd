//! In place of a hash: a key that holds the counts themselves.

/// The counts of a suit: nine ranks, seven honours, or 1m and 9m.
#[derive(Clone, Copy)]
pub struct Key<const N: usize>(pub [u8; N]);

pub fn hash_shupai(counts: &[u8]) -> Key<9> {
    Key(counts.try_into().expect("a suit has nine ranks"))
}

pub fn hash_zipai(counts: &[u8]) -> Key<7> {
    Key(counts.try_into().expect("there are seven honours"))
}

/// Takes the first and the last of nine counts, as the Rust source does.
pub fn hash_19m(counts: &[u8]) -> Key<2> {
    Key([counts[0], counts[8]])
}
