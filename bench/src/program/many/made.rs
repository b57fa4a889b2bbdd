//! A file of many hand records, the same in each run: hands in play of both games, with and
//! without open melds, and one in twenty that is refused.

use std::fs::File;
use std::io;
use std::os::unix::fs::FileExt;
use std::time::Instant;

use oracle::hand::{HAND_RECORD, Hand};
use oracle::make::questions::sorts::parts;
use oracle::random::Random;

use crate::fuzz::inputs::refused;
use crate::maps::shared;

/// So many records are made at a time, with random numbers of their own.
const BLOCK: usize = 10_000;

/// One in so many is refused.
const REFUSED: usize = 20;

/// How many melds are wanted; the others are open.
const MELDS: [u8; 10] = [4, 4, 4, 4, 4, 4, 3, 2, 1, 0];

pub fn make(path: &str, count: usize) -> io::Result<()> {
    let begun = Instant::now();
    let file = File::create(path)?;
    let failed = shared(
        count.div_ceil(BLOCK),
        |failed: &mut Option<io::Error>, block| {
            let first = block * BLOCK;
            let records = records(block as u64, BLOCK.min(count - first));
            let place = (first * HAND_RECORD) as u64;
            *failed = failed.take().or(file.write_all_at(&records, place).err());
        },
    );
    let seconds = begun.elapsed().as_secs_f64();
    println!("{count} records made in {seconds:.0} seconds");
    failed.into_iter().flatten().next().map_or(Ok(()), Err)
}

fn records(block: u64, count: usize) -> Vec<u8> {
    let mut random = Random::new(Random::new(block).word());
    (0..count).flat_map(|_| record(&mut random)).collect()
}

fn record(random: &mut Random) -> Vec<u8> {
    if random.below(REFUSED) == 0 {
        return refused(random);
    }
    let game = *random.pick(&[3, 4]);
    let k = *random.pick(&MELDS);
    let held = 3 * usize::from(k) + 1 + random.below(2);
    let counts = parts(random, game, held);
    Hand { counts, k, game }.record().to_vec()
}

#[cfg(test)]
mod tests {
    use super::*;
    use oracle::refusal::refusal;

    #[test]
    fn most_are_accepted_and_blocks_differ() {
        let made = records(3, 1_000);
        let hands = made.chunks(HAND_RECORD).filter_map(Hand::read);
        let accepted = hands.filter(|hand| refusal(&hand.question()).is_none());
        assert!((900..1_000).contains(&accepted.count()));
        assert_eq!(made, records(3, 1_000));
        assert_ne!(made, records(4, 1_000));
    }
}
