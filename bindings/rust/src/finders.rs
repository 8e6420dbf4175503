//! The finders and the margin.

use crate::boundary::{self, judged};
#[cfg(feature = "alloc")]
use crate::kinds::Granted;
use crate::kinds::{Station, Task, WideTask};
use crate::refusal::Refusal;
#[cfg(feature = "alloc")]
use alloc::{vec, vec::Vec};

/// An accepted plan.
#[cfg(feature = "alloc")]
#[derive(Clone, Debug, PartialEq, Eq)]
pub struct Plan {
    /// The compression step: the least that passes.
    pub step: u32,
    /// What is granted each task, in the order of the records.
    pub granted: Vec<Granted>,
}

/// The quick finder's answer, and how many looks it made: in edition 1 at most one more than there are tasks, in edition 2 at most 20.
#[derive(Clone, Copy, Debug, PartialEq, Eq)]
pub struct Looked {
    /// The step, or the refusal.
    pub answer: Result<u32, Refusal>,
    /// The looks, counted also where no step passes.
    pub looks: u32,
}

/// The plan of some tasks: the least passing step, and each task's period and processor.
///
/// Refusals 1 or 15, 2, 3, 6, 7.
#[cfg(feature = "alloc")]
pub fn find(tasks: &[Task], station: Station) -> Result<Plan, Refusal> {
    let (mut periods, mut processors) = (vec![0; tasks.len()], vec![0; tasks.len()]);
    let step = plain(tasks, station, &mut periods, &mut processors)?;
    let both = periods.into_iter().zip(processors);
    let granted = both.map(|(period, processor)| Granted { period, processor }).collect();
    Ok(Plan { step, granted })
}

/// The plain finder: the least passing step, with each task's period and processor (0: any) in the lent outputs.
///
/// Refusals 1 or 15, 2, 3, 5, 6, 7; 5 where either output is short.
pub fn plain(
    tasks: &[Task],
    station: Station,
    periods: &mut [u32],
    processors: &mut [u16],
) -> Result<u32, Refusal> {
    // Each pointer comes with its own length, and what is written is borrowed apart from what is read.
    let told = unsafe {
        boundary::eelbasket_plain(
            tasks.as_ptr(),
            tasks.len(),
            station.numbers(),
            periods.as_mut_ptr(),
            periods.len(),
            processors.as_mut_ptr(),
            processors.len(),
        )
    };
    judged(told.number, told.place, told.step)
}

/// The quick finder: the same answer for policies 1, 2 and 5, in a few looks.
///
/// Refusals 1 or 15, 2, 3, 4, 5, 6, 7.
pub fn quick(
    tasks: &[Task],
    station: Station,
    periods: &mut [u32],
    processors: &mut [u16],
) -> Looked {
    // As in `plain`.
    let told = unsafe {
        boundary::eelbasket_quick(
            tasks.as_ptr(),
            tasks.len(),
            station.numbers(),
            periods.as_mut_ptr(),
            periods.len(),
            processors.as_mut_ptr(),
            processors.len(),
        )
    };
    Looked { answer: judged(told.number, told.place, told.step), looks: told.looks }
}

/// The margin at any step, for policies 1, 2 and 5: the right side of the policy's test minus the left, in parts of a million.
///
/// Refusals 1 or 15, 2, 3, 4, 6.
pub fn margin(tasks: &[Task], station: Station, step: u32) -> Result<i64, Refusal> {
    // The pointer comes with its own length.
    let told =
        unsafe { boundary::eelbasket_margin(tasks.as_ptr(), tasks.len(), station.numbers(), step) };
    judged(told.number, told.place, told.margin)
}

/// The least passing step of tasks that need several cores, on m processors, with each task's period and core count in the lent outputs.
///
/// Refusals 2, 3, 5, 6, 7.
pub fn wide(
    tasks: &[WideTask],
    m: u16,
    periods: &mut [u32],
    cores: &mut [u16],
) -> Result<u32, Refusal> {
    // As in `plain`.
    let told = unsafe {
        boundary::eelbasket_wide(
            tasks.as_ptr(),
            tasks.len(),
            m,
            periods.as_mut_ptr(),
            periods.len(),
            cores.as_mut_ptr(),
            cores.len(),
        )
    };
    judged(told.number, told.place, told.step)
}
