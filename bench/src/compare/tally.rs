//! What was asked, and how often the replies were different.

use oracle::hand::question::Question;
use oracle::mapped;
use oracle::notation::written;

use super::asked::Asked;
use super::cells::Cells;
use crate::PRINTED;
use crate::ours::{self, Entry, WRONG_ROOM};
use crate::reply::Reply;

/// One question in so many is asked with the wrong room for the answer as well.
const ROOMS: usize = 20;

#[derive(Default)]
pub struct Tally {
    asked: Cells,
    different: Cells,
    searched: Cells,
    different_search: Cells,
    rooms: usize,
    different_rooms: usize,
    /// With the place of the question, so that the first can be told.
    first: Vec<(usize, String)>,
}

impl Tally {
    /// The fast form against the Rust source.
    pub fn ask(&mut self, at: usize, asked: &Asked) {
        let (theirs, ours) = replies(ours::hand, asked);
        self.asked.add(asked, theirs.code);
        if theirs != ours {
            self.different.add(asked, theirs.code);
            self.tell(at, asked, || format!("Rust {theirs}\n    ours {ours}"));
        }
        if at.is_multiple_of(ROOMS) {
            self.ask_with_wrong_room(at, asked, ours::hand);
        }
    }

    /// Our search against the Rust source.
    pub fn ask_search(&mut self, at: usize, asked: &Asked) {
        let (theirs, ours) = replies(ours::hand_search, asked);
        self.searched.add(asked, theirs.code);
        if theirs != ours {
            self.different_search.add(asked, theirs.code);
            self.tell(at, asked, || {
                format!("Rust {theirs}\n    our search {ours}")
            });
        }
        if at.is_multiple_of(ROOMS) {
            self.ask_with_wrong_room(at, asked, ours::hand_search);
        }
    }

    /// Whatever the question is, the code must be 8 and nothing written.
    fn ask_with_wrong_room(&mut self, at: usize, asked: &Asked, entry: Entry) {
        for length in [0, 1, 2, 4, 5] {
            let mut words = [u64::MAX; 5];
            let code = ours::asked(entry, &asked.question, &mut words[..length]);
            self.rooms += 1;
            if code != WRONG_ROOM || words != [u64::MAX; 5] {
                self.different_rooms += 1;
                self.tell(at, asked, || {
                    format!("room {length}: ours {code}, {words:x?}")
                });
            }
        }
    }

    /// The line is made only where it may be printed: a thread asks in order.
    fn tell(&mut self, at: usize, asked: &Asked, replies: impl FnOnce() -> String) {
        if self.first.len() < PRINTED {
            let question = written_question(&asked.question);
            let line = format!("{question}\n    {}", replies());
            self.first.push((at, line));
        }
    }

    pub fn with(mut self, other: Tally) -> Tally {
        self.asked = self.asked.with(&other.asked);
        self.different = self.different.with(&other.different);
        self.searched = self.searched.with(&other.searched);
        self.different_search = self.different_search.with(&other.different_search);
        self.rooms += other.rooms;
        self.different_rooms += other.different_rooms;
        self.first.extend(other.first);
        self
    }

    /// Something was asked and nothing was different.
    pub fn is_clean(&self) -> bool {
        let different = self.different.sum() + self.different_search.sum() + self.different_rooms;
        self.asked.sum() > 0 && different == 0
    }

    pub fn print(&self) {
        self.asked.print("fast form");
        self.searched.print("search");
        println!("asked with another room than three words: {}", self.rooms);
        for (name, different) in [
            ("different", &self.different),
            ("search differs", &self.different_search),
        ] {
            if different.sum() > 0 {
                different.print(name);
            }
        }
        let mut first: Vec<_> = self.first.iter().collect();
        first.sort();
        for (_, line) in first.into_iter().take(PRINTED) {
            println!("different: {line}");
        }
        print_end("fast form", self.asked.sum(), self.different.sum());
        print_end("search", self.searched.sum(), self.different_search.sum());
        print_end("other rooms", self.rooms, self.different_rooms);
    }
}

fn replies(entry: Entry, asked: &Asked) -> (Reply, Reply) {
    let question = &asked.question;
    let theirs = Reply::by(mapped::answer, question);
    (theirs, Reply::ours(entry, question))
}

fn written_question(question: &Question) -> String {
    let counts = match question.hand() {
        Some(hand) => written(&hand.counts),
        None => format!("{:?}", question.counts),
    };
    format!("{counts}  k {}  game {}", question.k, question.game)
}

fn print_end(name: &str, asked: usize, different: usize) {
    println!("{name}: asked {asked}, different {different}");
}

#[cfg(test)]
mod tests {
    use super::*;

    fn asked() -> Asked {
        let question = Question::new(&[0; 34], 4, 3);
        Asked { question, sort: 0 }
    }

    #[test]
    fn one_difference_is_enough() {
        let mut tally = Tally::default();
        assert!(!tally.is_clean());
        tally.asked.add(&asked(), 0);
        assert!(tally.is_clean());
        let spoilt: [fn(&mut Tally); 3] = [
            |tally| tally.different.add(&asked(), 6),
            |tally| tally.different_search.add(&asked(), 0),
            |tally| tally.different_rooms += 1,
        ];
        for spoil in spoilt {
            let mut other = Tally::default();
            other.asked.add(&asked(), 0);
            spoil(&mut other);
            let same = Tally::default().with(other);
            assert!(!same.is_clean());
        }
    }

    #[test]
    fn the_first_differences_are_kept() {
        let mut tally = Tally::default();
        for at in 0..9 {
            tally.tell(at, &asked(), || format!("Rust this, ours that, {at}"));
        }
        assert_eq!(tally.first.len(), PRINTED);
        assert!(tally.first[0].1.ends_with("ours that, 0"));
    }
}
