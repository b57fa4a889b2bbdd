//! The words of many suits, searched on all cores.

use std::time::Instant;

use oracle::standard::search_suit;
use oracle::words::Words;

use super::shared::{shared, threads};
use super::suits;

/// A thread takes so many at a time.
const TAKEN: usize = 100;

/// So many are searched first, to tell how long it will take.
const TRIED: usize = 200;

pub fn one(number: usize) -> Words {
    let (suit, counts) = suits::of(number);
    search_suit(suit, &counts[..suit.length()])
}

/// Tells how many there are and how long it takes.
pub fn told(numbers: &[usize]) -> Vec<Words> {
    let seconds = estimate(numbers);
    let count = numbers.len();
    println!("the Rust source searches {count} suits: about {seconds:.0} seconds");
    let begun = Instant::now();
    let words = all(numbers);
    let seconds = begun.elapsed().as_secs_f64();
    println!("{count} suits searched in {seconds:.0} seconds");
    words
}

fn estimate(numbers: &[usize]) -> f64 {
    let step = (numbers.len() / TRIED).max(1);
    let tried = numbers.iter().step_by(step);
    let count = tried.len().max(1);
    let begun = Instant::now();
    tried.for_each(|&number| {
        one(number);
    });
    let each = begun.elapsed().as_secs_f64() / count as f64;
    each * numbers.len() as f64 / threads() as f64
}

fn all(numbers: &[usize]) -> Vec<Words> {
    let parts = numbers.len().div_ceil(TAKEN);
    let found = shared(parts, |found: &mut Vec<(usize, Vec<Words>)>, part| {
        let rest = &numbers[part * TAKEN..];
        let words = rest.iter().take(TAKEN).map(|&number| one(number));
        found.push((part, words.collect()));
    });
    let mut found = found.concat();
    found.sort_by_key(|(part, _)| *part);
    found.into_iter().flat_map(|(_, words)| words).collect()
}
