//! How many tiles a mahjong hand lacks, which tiles are necessary and which are unnecessary.
//!
//! The answers come from proved code, which this crate links and wraps. A hand is 34 counts: 1m to 9m, 1p to 9p,
//! 1s to 9s, 1z to 7z. Any input may be asked; what is no hand is refused.
//!
//! ```
//! let mut counts = [0; 34];
//! counts[7] = 1; // 8m
//! counts[8] = 1; // 9m
//! counts[9] = 1; // 1p
//! counts[27] = 2; // 1z, twice
//! let answer = lastavon::answer(&counts, 1, 4)?;
//! assert_eq!(answer.number(), 1);
//! assert_eq!(answer.necessary().to_string(), "7m");
//! assert_eq!(answer.unnecessary().to_string(), "1p");
//! # Ok::<(), lastavon::Refusal>(())
//! ```

#![deny(unsafe_code)]
#![warn(missing_docs)]

mod hand;
mod place;
mod rank;
#[allow(unsafe_code)]
mod raw;
mod record;
mod refusal;
mod set;
mod suit;
mod tile;

pub use hand::{answer, answer_by_search, Answer};
pub use place::Place;
pub use rank::Rank;
pub use record::{answer_record, record, ANSWER_RECORD, HAND_RECORD};
pub use refusal::Refusal;
pub use set::{Iter, Ranks, Set, Tiles};
pub use suit::{goals, suit, Suit, SuitAnswer, GOALS};
pub use tile::Tile;
