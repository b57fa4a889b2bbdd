//! The merges of the Rust source apart from hashes, lookups and unpacking, for measurements:
//! unpacked values in, result out. Its sources are taken in as they stand, since the functions
//! that merge cannot be reached from outside; what is added are the steps of its entry points
//! that follow the unpacking.

// What the sources name as standing beside them.
use super::common::Entry;
use super::{common, hash, shupai_map, unpack, wanzi_19_map, zipai_map};
use crate::answer::Answer;
use crate::merged::joined;
use crate::tile::TileFlags;
use crate::words::Goals;

/// The values of the suits m, p, s and z.
pub type Suits = [Goals; 4];

/// Number and both sets, each by the merge of its own entry point.
#[inline]
pub fn answer(suits: &Suits, k: u8) -> Answer {
    joined(
        number::merged(suits, k),
        necessary::merged(suits, k),
        unnecessary::merged(suits, k),
    )
}

/// The two sets alone; the number comes with each of them.
#[inline]
pub fn sets(suits: &Suits, k: u8) -> [(u8, TileFlags); 2] {
    [necessary::merged(suits, k), unnecessary::merged(suits, k)]
}

/// As the entry points of both sets do it, given the sets of a suit and the two merges. These are
/// types of their own and no pointers, so that each call is known when it is compiled.
#[inline(always)]
fn merged_set(
    suits: &Suits,
    k: u8,
    sets: impl Fn(&Goals) -> &[u16; 10],
    update: impl Fn(&mut Entry, &Entry),
    update_final: impl Fn(&mut Entry, &Entry),
) -> (u8, TileFlags) {
    // its place among m, p, s and z says how far the sets of a suit are shifted
    let entry = |at: usize| Entry {
        numbers: suits[at].numbers,
        tiles: sets(&suits[at]).map(|set| TileFlags::from(set) << (9 * at)),
    };
    let mut first = entry(0);
    update(&mut first, &entry(1));
    update(&mut first, &entry(2));
    update_final(&mut first, &entry(3));
    let n = 5 + usize::from(k);
    (first.numbers[n] as u8, first.tiles[n])
}

// Of the sources only the merges are called here.
#[allow(dead_code)]
mod number {
    include!("../../verbatim/src/standard/replacement_number.rs");

    pub fn merged(suits: &super::Suits, k: u8) -> u8 {
        let [mut entry0, entry1, entry2, entry3] = suits.each_ref().map(|suit| suit.numbers);
        update_dp(&mut entry0, &entry1);
        update_dp(&mut entry0, &entry2);
        update_dp_final(&mut entry0, &entry3);
        entry0[5 + usize::from(k)] as u8
    }
}

#[allow(dead_code)]
mod necessary {
    include!("../../verbatim/src/standard/necessary_tiles.rs");

    pub fn merged(suits: &super::Suits, k: u8) -> (u8, TileFlags) {
        super::merged_set(suits, k, |suit| &suit.necessary, update_dp, update_dp_final)
    }
}

#[allow(dead_code)]
mod unnecessary {
    include!("../../verbatim/src/standard/unnecessary_tiles.rs");

    pub fn merged(suits: &super::Suits, k: u8) -> (u8, TileFlags) {
        super::merged_set(
            suits,
            k,
            |suit| &suit.unnecessary,
            update_dp,
            update_dp_final,
        )
    }
}

#[cfg(test)]
mod tests {
    use super::*;
    use crate::random::Random;
    use crate::standard::{search_hand, unpack};
    use crate::{make, merged};

    #[test]
    fn the_merges_answer_as_the_entry_points_do() {
        let mut random = Random::new(2);
        for game in [3, 4].into_iter().cycle().take(60) {
            let hand = make::accepted(&mut random, game);
            let suits = search_hand(&hand).map(|words| unpack(&words));
            let right = merged::answer(&hand);
            assert_eq!(answer(&suits, hand.k), right, "{hand:?}");
            let [necessary, unnecessary] = sets(&suits, hand.k);
            assert_eq!(necessary, (right.number, right.necessary));
            assert_eq!(unnecessary, (right.number, right.unnecessary));
        }
    }
}
