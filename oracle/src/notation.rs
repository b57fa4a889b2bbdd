//! Tiles in written form, 123m456p11z, for people to read.

const SUITS: [(char, usize, usize); 4] = [('m', 0, 9), ('p', 9, 18), ('s', 18, 27), ('z', 27, 34)];

/// One tile, such as 1m.
pub fn tile_name(tile: usize) -> String {
    let mut counts = [0; 34];
    counts[tile] = 1;
    written(&counts)
}

/// A set of tiles, bit i for index i.
pub fn written_set(set: u64) -> String {
    written(&std::array::from_fn(|tile| (set >> tile & 1) as u8))
}

/// Counts 0 to 4 as so many digits; a greater count, as in a refused hand, is written
/// after its digit, 1(255)m. No tile at all is a dash.
pub fn written(counts: &[u8; 34]) -> String {
    let text: String = SUITS
        .iter()
        .map(|&(letter, from, to)| written_suit(letter, &counts[from..to]))
        .collect();
    if text.is_empty() { "-".into() } else { text }
}

fn written_suit(letter: char, counts: &[u8]) -> String {
    let mut text = String::new();
    for (rank, &count) in (1..).zip(counts) {
        text += &match count {
            0..=4 => rank.to_string().repeat(count.into()),
            _ => format!("{rank}({count})"),
        };
    }
    if !text.is_empty() {
        text.push(letter);
    }
    text
}

/// The counts of written tiles. Only for the hands written in this program.
pub fn counts(text: &str) -> [u8; 34] {
    let mut counts = [0; 34];
    let mut ranks = Vec::new();
    for letter in text.chars() {
        if let Some(rank) = letter.to_digit(10) {
            ranks.push(rank as usize);
            continue;
        }
        let suit = SUITS.iter().find(|suit| suit.0 == letter);
        let &(_, from, _) = suit.expect("a suit letter");
        for rank in ranks.drain(..) {
            counts[from + rank - 1] += 1;
        }
    }
    counts
}

#[cfg(test)]
mod tests {
    use super::*;

    #[test]
    fn reads_what_it_writes() {
        let text = "1199m456p789s1112222z";
        assert_eq!(written(&counts(text)), text);
        assert_eq!(tile_name(33), "7z");
        assert_eq!(written_set(1 << 8 | 1 << 9), "9m1p");
        assert_eq!(written(&[0; 34]), "-");
        let mut five = [0; 34];
        five[27] = 255;
        assert_eq!(written(&five), "1(255)z");
    }
}
