//! Suits or hands that are measured together.

use std::hint::black_box;
use std::ops::Range;

use crate::PRINTED;

/// What the clock and the tables need of a group of any kind. Its sides are numbered in the
/// order of the columns.
pub trait Group {
    fn name(&self) -> &'static str;

    /// How many suits or hands it has.
    fn size(&self) -> usize;

    fn sides(&self) -> usize;

    /// What was asked, and the answers, wherever these differ.
    fn differences(&self) -> Vec<String>;

    /// Asks a side for each suit or hand of a part.
    fn ask(&self, side: usize, part: Range<usize>);
}

/// Who is asked for a hand or a part of it, and the name of its column.
pub struct Side<T> {
    name: &'static str,
    ask: fn(&T),
}

pub const fn side<T>(name: &'static str, ask: fn(&T)) -> Side<T> {
    Side { name, ask }
}

impl<T> Side<T> {
    pub fn ask_each(&self, part: &[T]) {
        let ask = self.ask;
        for one in part {
            ask(black_box(one));
        }
    }
}

pub fn names<T>(sides: &[Side<T>]) -> Vec<&'static str> {
    sides.iter().map(|side| side.name).collect()
}

/// Groups of any kind beside each other.
pub fn boxed<G: Group + 'static>(groups: impl Iterator<Item = G>) -> Vec<Box<dyn Group>> {
    groups.map(|group| Box::new(group) as _).collect()
}

/// Compares all answers, so many to a suit or hand: times of different answers would say
/// nothing.
pub fn agree(groups: &[Box<dyn Group>], answers: usize) -> bool {
    let different: Vec<String> = groups
        .iter()
        .flat_map(|group| group.differences())
        .collect();
    for line in different.iter().take(PRINTED) {
        println!("different: {line}");
    }
    let size: usize = groups.iter().map(|group| group.size()).sum();
    let compared = answers * size;
    println!("{compared} answers compared, {} different", different.len());
    different.is_empty()
}
