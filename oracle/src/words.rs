//! The packed words of document 01 ("Packed words"), written from its text and not from
//! the Rust source, whose packing cannot be run apart from the search; and below, what can
//! be asked of them: ten goals to be packed, or seven words to be unpacked.

pub mod bytes;
pub mod question;
pub mod record;
pub mod refusal;

use std::array;

/// The ten goals of a suit, in the order of document 01.
#[derive(Clone, Debug, Default, PartialEq, Eq)]
pub struct Goals {
    pub numbers: [u32; 10],
    pub necessary: [u16; 10],
    pub unnecessary: [u16; 10],
}

/// The seven words of a suit.
#[derive(Clone, Debug, PartialEq, Eq)]
pub struct Words {
    pub number: u32,
    pub necessary: [u32; 3],
    pub unnecessary: [u32; 3],
}

/// Number, necessary set and unnecessary set of one goal.
pub type Values = (u32, u16, u16);

/// Where goals 1 to 9 begin in the number word.
const NUMBER_SHIFTS: [u32; 9] = [0, 2, 5, 9, 13, 15, 18, 22, 26];

/// How many bits they have there.
pub const NUMBER_WIDTHS: [u32; 9] = [2, 3, 4, 4, 2, 3, 4, 4, 4];

impl Goals {
    pub fn new(of: impl Fn(usize) -> Values) -> Self {
        let goals: [Values; 10] = array::from_fn(of);
        Goals {
            numbers: goals.map(|(number, _, _)| number),
            necessary: goals.map(|(_, necessary, _)| necessary),
            unnecessary: goals.map(|(_, _, unnecessary)| unnecessary),
        }
    }

    pub fn at(&self, goal: usize) -> Values {
        (
            self.numbers[goal],
            self.necessary[goal],
            self.unnecessary[goal],
        )
    }
}

impl Words {
    /// From all seven: the number word, three necessary, three unnecessary.
    pub fn new(seven: [u32; 7]) -> Self {
        let [number, first, second, third, others @ ..] = seven;
        Words {
            number,
            necessary: [first, second, third],
            unnecessary: others,
        }
    }

    /// In the same order.
    pub fn seven(&self) -> [u32; 7] {
        let [first, second, third] = self.necessary;
        let [fourth, fifth, sixth] = self.unnecessary;
        [self.number, first, second, third, fourth, fifth, sixth]
    }
}

pub fn pack(goals: &Goals) -> Words {
    Words {
        number: pack_numbers(&goals.numbers),
        necessary: pack_necessary(&goals.necessary),
        unnecessary: pack_unnecessary(&goals.unnecessary),
    }
}

/// The words with the bits cleared that document 01 names as unused.
pub fn cleared(words: &Words) -> Words {
    let [first, second, third] = words.unnecessary;
    Words {
        number: words.number & 0x3FFF_FFFF,
        necessary: words.necessary.map(|word| word & 0x07FF_FFFF),
        unnecessary: [first, second & 0x7FFF_FFFF, third & 0x07FF_FFFF],
    }
}

fn pack_numbers(numbers: &[u32; 10]) -> u32 {
    let fields = numbers[1..].iter().zip(NUMBER_SHIFTS);
    fields.fold(0, |word, (number, shift)| word | number << shift)
}

fn pack_necessary(sets: &[u16; 10]) -> [u32; 3] {
    [three(&sets[1..4]), three(&sets[4..7]), three(&sets[7..10])]
}

fn pack_unnecessary(sets: &[u16; 10]) -> [u32; 3] {
    let split = u32::from(sets[3]);
    [
        three(&sets[0..3]) | (split & 0x1F0) << 23,
        split & 0xF | three(&sets[4..7]) << 4,
        three(&sets[7..10]),
    ]
}

/// Three sets of nine bits at 0, 9 and 18.
fn three(sets: &[u16]) -> u32 {
    u32::from(sets[0]) | u32::from(sets[1]) << 9 | u32::from(sets[2]) << 18
}

#[cfg(test)]
mod tests {
    use super::*;

    #[test]
    fn numbers_lie_side_by_side() {
        let mut end = 0;
        for (shift, width) in NUMBER_SHIFTS.into_iter().zip(NUMBER_WIDTHS) {
            assert_eq!(shift, end);
            end += width;
        }
        assert_eq!(end, 30);
    }

    #[test]
    fn seven_words_in_order() {
        let words = Words::new([1, 2, 3, 4, 5, 6, 7]);
        assert_eq!(words.number, 1);
        assert_eq!(words.necessary, [2, 3, 4]);
        assert_eq!(words.unnecessary, [5, 6, 7]);
        assert_eq!(words.seven(), [1, 2, 3, 4, 5, 6, 7]);
    }
}
