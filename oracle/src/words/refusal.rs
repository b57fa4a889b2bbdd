//! Which goals are not packed, and why (document 01, "Refusal numbers", row 9).

use super::{Goals, NUMBER_WIDTHS};

pub const REFUSED: u8 = 9;

/// What row 9 names, with the goal where any of several can be at fault.
#[derive(Clone, Copy, Debug, PartialEq, Eq, PartialOrd, Ord)]
pub enum Fault {
    FirstNumber,
    FirstNecessary,
    Number(usize),
    Necessary(usize),
    Unnecessary(usize),
}

pub fn refused(goals: &Goals) -> bool {
    !faults(goals).is_empty()
}

/// All that hold, in the order in which they are named above.
pub fn faults(goals: &Goals) -> Vec<Fault> {
    let mut faults = Vec::new();
    if goals.numbers[0] != 0 {
        faults.push(Fault::FirstNumber);
    }
    if goals.necessary[0] != 0 {
        faults.push(Fault::FirstNecessary);
    }
    faults.extend(wide_numbers(&goals.numbers).map(Fault::Number));
    faults.extend(wide_sets(&goals.necessary).map(Fault::Necessary));
    faults.extend(wide_sets(&goals.unnecessary).map(Fault::Unnecessary));
    faults
}

/// The goals 1 to 9 whose number is over its width.
fn wide_numbers(numbers: &[u32; 10]) -> impl Iterator<Item = usize> {
    (1..10).filter(|&goal| numbers[goal] >> NUMBER_WIDTHS[goal - 1] != 0)
}

fn wide_sets(sets: &[u16; 10]) -> impl Iterator<Item = usize> {
    (0..10).filter(|&goal| sets[goal] > 0x1FF)
}

#[cfg(test)]
mod tests {
    use super::*;

    /// Ten goals of which one has these values and the others have none.
    fn one(goal: usize, values: (u32, u16, u16)) -> Vec<Fault> {
        let of = |at| if at == goal { values } else { (0, 0, 0) };
        faults(&Goals::new(of))
    }

    #[test]
    fn goal_0_has_an_unnecessary_set_alone() {
        assert_eq!(one(0, (0, 0, 0x1FF)), []);
        assert_eq!(one(0, (1, 0, 0)), [Fault::FirstNumber]);
        assert_eq!(one(0, (0, 1, 0)), [Fault::FirstNecessary]);
        assert_eq!(one(0, (0, 0, 0x200)), [Fault::Unnecessary(0)]);
    }

    #[test]
    fn numbers_over_their_width() {
        let ends = [4, 8, 16, 16, 4, 8, 16, 16, 16];
        for (goal, end) in (1..10).zip(ends) {
            assert_eq!(one(goal, (end - 1, 0x1FF, 0x1FF)), []);
            assert_eq!(one(goal, (end, 0, 0)), [Fault::Number(goal)]);
            assert_eq!(one(goal, (255, 0, 0)), [Fault::Number(goal)]);
        }
    }

    #[test]
    fn all_faults_in_order() {
        let both = [Fault::FirstNecessary, Fault::Necessary(0)];
        assert_eq!(one(0, (0, 0x200, 0)), both);
        let three = [Fault::Number(5), Fault::Necessary(5), Fault::Unnecessary(5)];
        assert_eq!(one(5, (4, 0x8000, 0xFFFF)), three);
        let all = faults(&Goals::new(|_| (255, 0xFFFF, 0xFFFF)));
        assert_eq!(all.len(), 2 + 9 + 10 + 10);
        assert!(all.is_sorted());
    }
}
