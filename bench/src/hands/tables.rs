//! What is printed of the times: microseconds, ratios and rates, a line to a group.

use super::sides::{FAST, MAPS, RUST, SEARCH, SIDES};
use crate::aim::{Aim, Limit};
use crate::clock::ROUNDS;
use crate::group::names;
use crate::times::{Times, print_head, print_start};

/// Of a column of microseconds or rates.
pub const WIDTH: usize = 14;

const FASTER: Aim = Aim {
    name: "Rust/fast",
    limit: Limit::AtLeast(300.0),
};

const NEAR: Aim = Aim {
    name: "fast/maps",
    limit: Limit::AtMost(10.0),
};

pub fn print_ratios(times: &[Times]) {
    println!("ratios, and whether the goals are met: the middle of {ROUNDS} rounds");
    let columns = [FASTER.name, NEAR.name].map(|name| [name, "lowest-highest", ""]);
    print_start("", "");
    for [name, spread, said] in columns {
        print!("{name:>11}{spread:>16}{said:>8}");
    }
    println!("{:>13}", "Rust/search");
    times.iter().for_each(print_ratios_of);
    FASTER.print(&ratios(times, RUST, FAST));
    NEAR.print(&ratios(times, FAST, MAPS));
}

fn print_ratios_of(times: &Times) {
    times.print_name();
    let faster = times.ratio(RUST, FAST);
    print!("{faster:>11.0}{:>16}", times.spread(RUST, FAST, 0));
    print!("{:>8}", FASTER.said(faster));
    let near = times.ratio(FAST, MAPS);
    print!("{near:>11.1}{:>16}", times.spread(FAST, MAPS, 1));
    print!("{:>8}", NEAR.said(near));
    println!("{:>13.2}", times.ratio(RUST, SEARCH));
}

fn ratios(times: &[Times], side: usize, to: usize) -> Vec<f64> {
    times.iter().map(|group| group.ratio(side, to)).collect()
}

pub fn print_rates(times: &[Times]) {
    print_head("hands a second", &names(&SIDES), WIDTH);
    for group in times {
        group.print_line(WIDTH, 0, |side| 1e6 / group.micros(side));
    }
}
