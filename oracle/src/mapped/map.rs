//! A map in memory: as many places as the published one has, filled before it is looked up.

use std::ops::Index;
use std::sync::OnceLock;

use super::core::{NecessaryTilesMapValue, ReplacementNumberMapValue, UnnecessaryTilesMapValue};
use crate::words::Words;

pub struct Map<V: 'static> {
    values: OnceLock<Vec<V>>,
}

pub type Numbers = Map<ReplacementNumberMapValue>;
pub type Necessary = Map<NecessaryTilesMapValue>;
pub type Unnecessary = Map<UnnecessaryTilesMapValue>;

impl<V> Map<V> {
    pub const fn new() -> Self {
        Map {
            values: OnceLock::new(),
        }
    }

    fn set(&self, values: Vec<V>) {
        assert!(self.values.set(values).is_ok(), "a map is filled once");
    }
}

impl<V> Index<usize> for Map<V> {
    type Output = V;

    #[inline]
    fn index(&self, hash: usize) -> &V {
        let values = self.values.get().expect("the map is filled before");
        &values[hash]
    }
}

/// The three maps of a kind of suit while they are filled. A place that is left out is zero.
pub struct Filling {
    numbers: Vec<ReplacementNumberMapValue>,
    necessary: Vec<NecessaryTilesMapValue>,
    unnecessary: Vec<UnnecessaryTilesMapValue>,
}

impl Filling {
    pub fn new(size: usize) -> Self {
        Filling {
            numbers: vec![0; size],
            necessary: vec![[0; 3]; size],
            unnecessary: vec![[0; 3]; size],
        }
    }

    pub fn put(&mut self, hash: usize, words: &Words) {
        self.numbers[hash] = words.number;
        self.necessary[hash] = words.necessary;
        self.unnecessary[hash] = words.unnecessary;
    }

    /// Hands them over to the lookups.
    pub fn lend(self, numbers: &Numbers, necessary: &Necessary, unnecessary: &Unnecessary) {
        numbers.set(self.numbers);
        necessary.set(self.necessary);
        unnecessary.set(self.unnecessary);
    }
}
