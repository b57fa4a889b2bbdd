//! In place of a map lookup: `pack_values` on exactly the counts that were asked for.
//!
//! What was searched is remembered, unless this is switched off, since the three merges of a
//! hand ask for the same suits. A value is leaked: a lookup lends it out without end.

use std::cell::{Cell, RefCell};
use std::collections::HashMap;
use std::ops::Index;

use super::core::{NecessaryTilesMapValue, ReplacementNumberMapValue, UnnecessaryTilesMapValue};
use super::hash::Key;
use crate::build_map::{MapValue, pack_values};

thread_local! {
    // The number of counts tells the kinds of suit apart.
    static MEMO: RefCell<HashMap<Vec<u8>, &'static MapValue>> = RefCell::default();
    static REMEMBERED: Cell<bool> = const { Cell::new(true) };
}

/// Whether this thread remembers what it searches; if not, every lookup searches.
pub fn remember(remembered: bool) {
    REMEMBERED.set(remembered);
}

/// Empties the memory, so that the next lookup searches.
pub fn forget() {
    MEMO.take();
}

fn searched<const N: usize>(key: &Key<N>) -> &'static MapValue {
    if !REMEMBERED.get() {
        return lent(key);
    }
    MEMO.with_borrow_mut(|memo| {
        if let Some(value) = memo.get(key.0.as_slice()) {
            return *value;
        }
        let value = lent(key);
        memo.insert(key.0.to_vec(), value);
        value
    })
}

fn lent<const N: usize>(key: &Key<N>) -> &'static MapValue {
    Box::leak(Box::new(pack_values(&key.0)))
}

pub struct Numbers<const N: usize>;
pub struct Necessary<const N: usize>;
pub struct Unnecessary<const N: usize>;

impl<const N: usize> Index<Key<N>> for Numbers<N> {
    type Output = ReplacementNumberMapValue;

    fn index(&self, key: Key<N>) -> &Self::Output {
        &searched(&key).replacement_number
    }
}

impl<const N: usize> Index<Key<N>> for Necessary<N> {
    type Output = NecessaryTilesMapValue;

    fn index(&self, key: Key<N>) -> &Self::Output {
        &searched(&key).necessary_tiles
    }
}

impl<const N: usize> Index<Key<N>> for Unnecessary<N> {
    type Output = UnnecessaryTilesMapValue;

    fn index(&self, key: Key<N>) -> &Self::Output {
        &searched(&key).unnecessary_tiles
    }
}

#[cfg(test)]
mod tests {
    use super::*;

    #[test]
    fn a_lookup_searches_once_until_forgotten() {
        let one_1m = Key([1, 0]);
        let word: *const u32 = &Numbers[one_1m];
        assert!(std::ptr::eq(word, &Numbers[one_1m]));
        forget();
        assert!(!std::ptr::eq(word, &Numbers[one_1m]));
        remember(false);
        assert!(!std::ptr::eq(&Numbers[one_1m], &Numbers[one_1m]));
        remember(true);
        // Entry 5 of the published map.
        assert_eq!(Numbers[one_1m], 1_002_061_270);
    }
}
