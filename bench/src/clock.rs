//! How long a suit or a hand takes. The sides take turns, so that what disturbs one disturbs
//! all.

use std::ops::Range;
use std::time::{Duration, Instant};

use crate::group::Group;

/// So many suits or hands to a turn of a slow side.
const FEW: usize = 5;

/// A side is slow if it takes so long for them. Any other takes the whole group in a turn: a
/// processor would learn a few by heart,
const SLOW: Duration = Duration::from_millis(1);

/// and it does so again until the turn is about so long or longer, so that reading the clock
/// and what the others have left in the caches do not count.
const TURN: Duration = Duration::from_millis(5);

/// A round gives each side at least so much time.
const ROUND: Duration = Duration::from_millis(200);

/// Odd, so that there is a middle one.
pub const ROUNDS: usize = 9;

/// Of each round, the seconds that each side takes for a suit or a hand.
pub fn rounds(group: &dyn Group) -> Vec<Vec<f64>> {
    let turns = turns(group.size());
    let mut sides: Vec<Side> = (0..group.sides())
        .map(|side| Side::new(group, side))
        .collect();
    (0..ROUNDS).map(|_| round(&mut sides, &turns)).collect()
}

fn turns(size: usize) -> Vec<Range<usize>> {
    let turn = |first| first..size.min(first + FEW);
    (0..size).step_by(FEW).map(turn).collect()
}

/// Turn after turn until the slow sides have passed over the whole group; a side that has had
/// its time does not begin again.
fn round(sides: &mut [Side], turns: &[Range<usize>]) -> Vec<f64> {
    sides.iter_mut().for_each(Side::reset);
    while sides.iter().any(Side::is_due) {
        let mut due: Vec<&mut Side> = sides.iter_mut().filter(|side| side.is_due()).collect();
        for few in turns {
            due.iter_mut().for_each(|side| side.take_turn(few));
        }
    }
    sides.iter().map(Side::seconds).collect()
}

/// What a side is asked in a turn: the few whose turn it is, or the whole group so many times.
enum Turn {
    Few,
    Whole(u32),
}

struct Side<'a> {
    group: &'a dyn Group,
    side: usize,
    turn: Turn,
    asked: usize,
    time: Duration,
}

impl<'a> Side<'a> {
    /// Finds out how long a turn must be; this is not counted.
    fn new(group: &'a dyn Group, side: usize) -> Self {
        let mut side = Side {
            group,
            side,
            turn: Turn::Whole(1),
            asked: 0,
            time: Duration::ZERO,
        };
        let size = group.size();
        if size > FEW && side.trial(1) * FEW as u32 / size as u32 > SLOW {
            side.turn = Turn::Few;
            return side;
        }
        let mut times = 1;
        while side.trial(times) < TURN {
            times *= 2;
        }
        side.turn = Turn::Whole(times);
        side
    }

    /// How long it takes for the whole group so many times.
    fn trial(&self, times: u32) -> Duration {
        let begun = Instant::now();
        self.ask_all(times);
        begun.elapsed()
    }

    fn ask_all(&self, times: u32) {
        for _ in 0..times {
            self.group.ask(self.side, 0..self.group.size());
        }
    }

    fn reset(&mut self) {
        self.asked = 0;
        self.time = Duration::ZERO;
    }

    fn is_due(&self) -> bool {
        self.time < ROUND
    }

    fn take_turn(&mut self, few: &Range<usize>) {
        let begun = Instant::now();
        match self.turn {
            Turn::Few => self.group.ask(self.side, few.clone()),
            Turn::Whole(times) => self.ask_all(times),
        }
        self.time += begun.elapsed();
        self.asked += match self.turn {
            Turn::Few => few.len(),
            Turn::Whole(times) => times as usize * self.group.size(),
        };
    }

    fn seconds(&self) -> f64 {
        self.time.as_secs_f64() / self.asked as f64
    }
}
