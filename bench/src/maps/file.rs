//! The words of suits in a file: seven words of four bytes to a suit, lowest byte first, and at
//! the end a checksum of all bytes before it.

use std::{fs, io};

use oracle::words::Words;

/// Bytes of a suit, and of the checksum.
const SUIT: usize = 28;
const SUM: usize = 8;

/// None if there is no such file, if it is not as long as so many suits are, or if its checksum
/// does not fit.
pub fn read(path: &str, suits: usize) -> Option<Vec<Words>> {
    let bytes = fs::read(path).ok()?;
    if bytes.len() != suits * SUIT + SUM {
        return None;
    }
    let (bytes, sum) = bytes.split_at(suits * SUIT);
    let whole = sum == checksum(bytes).to_le_bytes();
    whole.then(|| bytes.chunks_exact(SUIT).map(words).collect())
}

/// Under another name first, so that a file that is there is whole.
pub fn write(path: &str, words: &[Words]) -> io::Result<()> {
    let mut bytes: Vec<u8> = words.iter().flat_map(bytes_of).collect();
    let sum = checksum(&bytes);
    bytes.extend(sum.to_le_bytes());
    let made = format!("{path}.new");
    fs::write(&made, bytes)?;
    fs::rename(made, path)
}

fn bytes_of(words: &Words) -> Vec<u8> {
    let seven = words.seven();
    seven.iter().flat_map(|word| word.to_le_bytes()).collect()
}

fn words(bytes: &[u8]) -> Words {
    let word = |at: usize| {
        let four = bytes[4 * at..].first_chunk().expect("28 bytes");
        u32::from_le_bytes(*four)
    };
    Words::new(std::array::from_fn(word))
}

/// FNV-1a in 64 bits.
fn checksum(bytes: &[u8]) -> u64 {
    let step = |sum: u64, &byte: &u8| (sum ^ u64::from(byte)).wrapping_mul(0x100_0000_01B3);
    bytes.iter().fold(0xCBF2_9CE4_8422_2325, step)
}

#[cfg(test)]
mod tests {
    use super::*;

    #[test]
    fn the_known_checksum() {
        // FNV-1a of "foobar", as published.
        assert_eq!(checksum(b"foobar"), 0x8594_4171_F739_67E8);
    }

    #[test]
    fn what_is_not_whole_is_not_read() {
        let path = std::env::temp_dir().join(format!("suits-{}.words", std::process::id()));
        let path = path.to_str().expect("a plain name");
        let two = [[1, 2, 3, 4, 5, 6, 7], [7, 6, 5, 4, 3, 2, 1]].map(Words::new);
        write(path, &two).expect("written");
        assert_eq!(read(path, 2), Some(two.to_vec()));
        assert_eq!(read(path, 3), None);
        let mut bytes = fs::read(path).expect("read");
        bytes[30] ^= 1;
        fs::write(path, bytes).expect("written");
        assert_eq!(read(path, 2), None);
        fs::remove_file(path).expect("removed");
        assert_eq!(read(path, 2), None);
    }
}
