//! The release clock on 32 bits.

use crate::boundary::{self, judged};
use crate::kinds::MOST_TASKS;
use crate::refusal::Refusal;

/// Each task's period and next release, of which the first n count.
#[repr(C)]
#[derive(Clone, Copy, Debug, PartialEq, Eq)]
pub struct Clock {
    /// The period of each task.
    pub periods: [u32; MOST_TASKS],
    /// The tick of each task's next release.
    pub next: [u32; MOST_TASKS],
    /// How many tasks there are.
    pub n: usize,
}

impl Clock {
    /// A clock for these periods: each task's next release is the starting tick.
    ///
    /// Refusals 3, 17.
    pub fn start(periods: &[u32], tick: u32) -> Result<Clock, Refusal> {
        // The pointer comes with its own length.
        let started =
            unsafe { boundary::eelbasket_clock_start(periods.as_ptr(), periods.len(), tick) };
        judged(started.number, started.place, started.clock)
    }

    /// The due task that is furthest behind at the present tick, lowest record on a tie, whose next release moves on by its period; `None`
    /// where none is due. Ticks wrap; each must be at most 1,000,000,000 behind the furthest one given, and no task may fall 2,147,483,648
    /// ticks behind.
    ///
    /// Refusal 3.
    pub fn call(&mut self, present: u32) -> Result<Option<usize>, Refusal> {
        // Any clock and any tick may be passed, and both are passed by value.
        let called = unsafe { boundary::eelbasket_clock_call(*self, present) };
        *self = called.clock;
        judged(called.number, called.place, (called.due == 1).then_some(called.task))
    }
}
