//! How many questions, by game and k, by sort, and by the code that the Rust source and
//! document 01 give.

use std::fmt::Display;

use super::asked::{Asked, SORTS};

#[derive(Default)]
pub struct Cells {
    /// Games 3, 4 and others; k 0 to 4 and others.
    games: [[usize; 6]; 3],
    sorts: [usize; SORTS.len()],
    codes: [usize; 7],
}

impl Cells {
    pub fn add(&mut self, Asked { question, sort }: &Asked, code: u8) {
        let game = match question.game {
            3 => 0,
            4 => 1,
            _ => 2,
        };
        self.games[game][usize::from(question.k.min(5))] += 1;
        self.sorts[*sort] += 1;
        self.codes[usize::from(code)] += 1;
    }

    pub fn with(mut self, other: &Cells) -> Cells {
        for (row, others) in self.games.iter_mut().zip(&other.games) {
            add_all(row, others);
        }
        add_all(&mut self.sorts, &other.sorts);
        add_all(&mut self.codes, &other.codes);
        self
    }

    pub fn sum(&self) -> usize {
        self.codes.iter().sum()
    }

    pub fn print(&self, what: &str) {
        let names = ["k 0", "k 1", "k 2", "k 3", "k 4", "other k", "all"];
        print_row(what, names);
        for (name, row) in ["game 3", "game 4", "other games"].iter().zip(self.games) {
            let [a, b, c, d, e, f] = row;
            print_row(name, [a, b, c, d, e, f, row.iter().sum()]);
        }
        for (name, count) in SORTS.iter().zip(self.sorts) {
            println!("    {name}: {count}");
        }
        let [accepted, refused @ ..] = self.codes;
        println!("    accepted {accepted}");
        for (code, count) in (1..).zip(refused) {
            println!("    refused with {code}: {count}");
        }
    }
}

fn add_all(counts: &mut [usize], more: &[usize]) {
    counts.iter_mut().zip(more).for_each(|(n, more)| *n += more);
}

fn print_row(name: &str, cells: [impl Display; 7]) {
    print!("{name:14}");
    cells.iter().for_each(|cell| print!("{cell:>10}"));
    println!();
}

#[cfg(test)]
mod tests {
    use super::*;
    use oracle::hand::question::Question;

    #[test]
    fn each_question_is_counted_thrice() {
        let question = Question::new(&[0; 34], 4, 3);
        let mut cells = Cells::default();
        cells.add(&Asked { question, sort: 1 }, 0);
        let mut other = Cells::default();
        let question = Question::new(&[0; 34], 9, 4);
        other.add(&Asked { question, sort: 5 }, 2);
        let both = cells.with(&other);
        assert_eq!(both.games, [[0, 0, 0, 0, 1, 0], [0, 0, 0, 0, 0, 1], [0; 6]]);
        assert_eq!(both.sorts, [0, 1, 0, 0, 0, 1]);
        assert_eq!(both.codes, [1, 0, 1, 0, 0, 0, 0]);
        assert_eq!(both.sum(), 2);
    }
}
