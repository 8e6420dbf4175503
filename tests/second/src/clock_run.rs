//! A run of the release clock: the call of kind 10, its answer, and both in words.

use crate::answer::put_verdict;
use crate::definition::clock::{start, Clock};
use crate::definition::kinds::{Refusal, MOST_TASKS};
use std::fmt::Write;

/// The most periods that a start is asked with.
pub const MOST_PERIODS: usize = 40;

/// The most calls of a run: their answers fit the stream.
pub const MOST_CALLS: usize = 240;

/// How a run begins.
#[derive(Clone, Debug, PartialEq, Eq)]
pub enum Beginning {
    Started {
        tick: u32,
        periods: Vec<u32>,
    },
    /// A clock as it stands, also one said to hold more than 32 tasks.
    Given(Clock),
}

/// A clock, and the ticks that it is called with.
#[derive(Clone, Debug, PartialEq, Eq)]
pub struct Run {
    pub beginning: Beginning,
    pub ticks: Vec<u32>,
}

fn put_columns(bytes: &mut Vec<u8>, clock: &Clock) {
    bytes.extend(clock.count.to_le_bytes());
    for number in clock.periods.iter().chain(&clock.next) {
        bytes.extend(number.to_le_bytes());
    }
}

impl Run {
    pub fn started(tick: u32, periods: &[u32], ticks: &[u32]) -> Run {
        let beginning = Beginning::Started { tick, periods: periods.to_vec() };
        Run { beginning, ticks: ticks.to_vec() }
    }

    pub fn given(clock: Clock, ticks: &[u32]) -> Run {
        Run { beginning: Beginning::Given(clock), ticks: ticks.to_vec() }
    }

    /// What stands after the kind: how the run begins, and its ticks.
    pub fn put(&self, bytes: &mut Vec<u8>) {
        match &self.beginning {
            Beginning::Started { tick, periods } => {
                bytes.push(0);
                bytes.extend(tick.to_le_bytes());
                bytes.push(periods.len() as u8);
                bytes.extend(periods.iter().flat_map(|period| period.to_le_bytes()));
            }
            Beginning::Given(clock) => {
                bytes.push(1);
                put_columns(bytes, clock);
            }
        }
        bytes.extend(self.ticks.iter().flat_map(|tick| tick.to_le_bytes()));
    }

    /// The clock at the beginning.
    fn begin(&self) -> Result<Clock, Refusal> {
        match &self.beginning {
            Beginning::Given(clock) => Ok(clock.clone()),
            Beginning::Started { tick, periods } => start(periods, *tick),
        }
    }

    pub fn answer(&self) -> Vec<u8> {
        let mut bytes = Vec::new();
        let begun = self.begin();
        put_verdict(&mut bytes, &begun);
        // A refused start hands back a clock of zeros.
        let mut clock = begun.unwrap_or(Clock::zeros());
        for tick in &self.ticks {
            let released = clock.call(*tick);
            put_verdict(&mut bytes, &released);
            let task = released.unwrap_or(None);
            bytes.extend([u8::from(task.is_some()), task.unwrap_or(0) as u8]);
        }
        put_columns(&mut bytes, &clock);
        bytes
    }

    pub fn text(&self) -> String {
        let mut text = match &self.beginning {
            Beginning::Started { tick, periods } => {
                format!("  started at {tick} with {} periods {periods:?}\n", periods.len())
            }
            Beginning::Given(clock) => clock_line(clock),
        };
        let _ = writeln!(text, "  called with {} ticks {:?}", self.ticks.len(), self.ticks);
        text
    }
}

fn clock_line(clock: &Clock) -> String {
    format!("  clock: count {}, periods {:?}, next {:?}\n", clock.count, clock.periods, clock.next)
}

/// A little-endian number at the front of an answer, which loses it.
fn number(rest: &mut &[u8], length: usize) -> Option<u32> {
    let (front, after) = rest.split_at_checked(length)?;
    *rest = after;
    Some(front.iter().rev().fold(0, |number, byte| number << 8 | u32::from(*byte)))
}

/// The answer to a run in words, after the verdict of its start; `None` when its length is not right.
pub fn released_text(run: &Run, answer: &mut &[u8]) -> Option<String> {
    let mut text = String::from("  hands back");
    for _ in &run.ticks {
        let (refused, place) = (number(answer, 1)?, number(answer, 4)?);
        let (due, task) = (number(answer, 1)?, number(answer, 1)?);
        match (refused, due) {
            (0, 0) => text.push_str(" none"),
            (0, _) => text.push_str(&format!(" {task}")),
            _ => text.push_str(&format!(" refused-{refused}-at-{place}")),
        }
    }
    let mut clock = Clock::zeros();
    clock.count = number(answer, 2)? as u16;
    for task in 0..MOST_TASKS {
        clock.periods[task] = number(answer, 4)?;
    }
    for task in 0..MOST_TASKS {
        clock.next[task] = number(answer, 4)?;
    }
    text.push('\n');
    Some(text + &clock_line(&clock))
}
