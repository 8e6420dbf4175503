//! Ask 12: a release clock on 32 bits, in whole numbers that are wrapped by a remainder.

use super::kinds::{Record, Refusal, MOST_TASKS};
use std::cmp::Reverse;

/// What 32 bits count to.
const TURN: u64 = 1 << 32;

/// "below 2,147,483,648"
const DUE_BELOW: u64 = 2_147_483_648;

/// The clock table: room for 32 tasks.
#[derive(Clone, Debug, PartialEq, Eq)]
pub struct Clock {
    pub periods: [u32; MOST_TASKS],
    pub next: [u32; MOST_TASKS],
    pub count: u16,
}

impl Clock {
    pub fn zeros() -> Clock {
        Clock { periods: [0; MOST_TASKS], next: [0; MOST_TASKS], count: 0 }
    }

    /// "present minus next, wrapping at 32 bits"
    fn difference(&self, task: usize, present: u32) -> u64 {
        (u64::from(present) + TURN - u64::from(self.next[task])) % TURN
    }

    /// "More than 32 tasks, at the start or in a call, are refused by 3."
    /// "It hands back the due task with the greatest such difference, lowest record on a tie, and
    /// moves that task's next release on by its period, wrapping."
    pub fn call(&mut self, present: u32) -> Result<Option<usize>, Refusal> {
        let count = usize::from(self.count);
        if count > MOST_TASKS {
            return Err(Refusal { number: 3, place: u32::from(self.count) });
        }
        let mut due: Vec<usize> =
            (0..count).filter(|task| self.difference(*task, present) < DUE_BELOW).collect();
        due.sort_by_key(|task| (Reverse(self.difference(*task, present)), *task));
        let Some(&task) = due.first() else {
            return Ok(None);
        };
        let moved = u64::from(self.next[task]) + u64::from(self.periods[task]);
        self.next[task] = (moved % TURN) as u32;
        Ok(Some(task))
    }
}

/// "each task's next release is the starting tick"; more than 32 tasks are refused by 3, "then the
/// first period that is 0 or above 1,000,000,000 by 17 at its task".
pub fn start(periods: &[u32], tick: u32) -> Result<Clock, Refusal> {
    if periods.len() > MOST_TASKS {
        return Err(Refusal { number: 3, place: periods.len() as u32 });
    }
    let bad = periods.iter().position(|period| *period == 0 || *period > Record::GREATEST_PERIOD);
    if let Some(task) = bad {
        return Err(Refusal { number: 17, place: task as u32 });
    }
    let mut clock = Clock::zeros();
    clock.count = periods.len() as u16;
    clock.periods[..periods.len()].copy_from_slice(periods);
    clock.next[..periods.len()].fill(tick);
    Ok(clock)
}
