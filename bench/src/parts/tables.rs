//! What is printed of the parts, a line to a group.

use super::sides::{CHECKS, HAND, MERGE, SUIT_CHECKS, SUITS};
use crate::times::{Times, print_start};

/// What is left of a hand without its checks and without the tables of its suits. The four checks
/// of its suits, which the hand makes too, stay in it.
fn left(round: &[f64]) -> f64 {
    round[HAND] - round[CHECKS] - (round[SUITS] - round[SUIT_CHECKS])
}

pub fn print_left(times: &[Times]) {
    println!(
        "left: hand - checks - (suits - suit checks), microseconds a hand; the merge is a part of it"
    );
    print_start("", "hands");
    println!("{:>10}{:>12}", "left", "Rust merge");
    for group in times {
        group.print_name();
        let micros = group.middle(|round| left(round) * 1e6);
        println!("{micros:>10.3}{:>12.3}", group.micros(MERGE));
    }
}
