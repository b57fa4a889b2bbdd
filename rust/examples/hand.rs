//! The README's hand, asked and told in words.

use lastavon::{Refusal, Tiles};

fn main() -> Result<(), Refusal> {
    let mut counts = [0; 34];
    counts[7] = 1; // 8m
    counts[8] = 1; // 9m
    counts[9] = 1; // 1p
    counts[27] = 2; // 1z, twice
    let answer = lastavon::answer(&counts, 1, 4)?;
    let (necessary, unnecessary): (Tiles, Tiles) = (answer.necessary(), answer.unnecessary());
    print!("89m1p11z  k 1  game 4  number {}", answer.number());
    print!("  necessary {necessary}  unnecessary {unnecessary}");
    println!("  kinds {}  live {}", answer.kinds(), answer.live());
    Ok(())
}
