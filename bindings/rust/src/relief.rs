//! What would relieve a table.

use crate::boundary::{self, judged};
use crate::kinds::{Station, Task};
use crate::refusal::Refusal;
#[cfg(feature = "alloc")]
use alloc::{vec, vec::Vec};

/// What would relieve tasks that fit at no step, or ease those that fit: the least step that passes, where there is one.
#[cfg(feature = "alloc")]
#[derive(Clone, Debug, PartialEq, Eq)]
pub struct Relief {
    /// Of the tasks as they are.
    pub least: Option<u32>,
    /// With one processor more; more than 16, and under policy 5 more than one, is none.
    pub more: Option<u32>,
    /// Without each task, in the order of the records.
    pub without: Vec<Option<u32>>,
}

/// The least step of some tasks as they are, with one processor more, and without each of them. That no step passes is no refusal here.
///
/// Refusals 1 or 15, 2, 3, 6.
///
/// ```
/// use eelbasket::{relief, Policy, Relief, Station, Task};
///
/// // two tasks of 6 ticks, every 10 to 20 ticks, and one that takes a processor of its own
/// let tasks = [Task::new(6, 10, 20, 1000), Task::new(6, 10, 20, 1000), Task::new(10, 10, 10, 0)];
/// let relieved = Relief { least: None, more: Some(100), without: vec![None, None, Some(100)] };
/// assert_eq!(relief(&tasks, Station::new(Policy::Pooled, 1)), Ok(relieved));
/// ```
#[cfg(feature = "alloc")]
pub fn relief(tasks: &[Task], station: Station) -> Result<Relief, Refusal> {
    let mut without = vec![0; tasks.len()];
    let (least, more) = relief_into(tasks, station, &mut without)?;
    Ok(Relief { least, more, without: without.into_iter().map(step_of).collect() })
}

/// The same with the steps without each task in a lent output: entry i is one more than the least step without task i, and 0 where there is
/// none. It tells the least step as the tasks are, and with one processor more.
///
/// Refusals 1 or 15, 2, 3, 5, 6.
pub fn relief_into(
    tasks: &[Task],
    station: Station,
    without: &mut [u32],
) -> Result<(Option<u32>, Option<u32>), Refusal> {
    // Each pointer comes with its own length, and the output is borrowed apart from what is read.
    let told = unsafe {
        boundary::eelbasket_relief(
            tasks.as_ptr(),
            tasks.len(),
            station.numbers(),
            without.as_mut_ptr(),
            without.len(),
        )
    };
    judged(told.number, told.place, (step_of(told.least), step_of(told.more)))
}

/// The step that a number tells.
fn step_of(number: u32) -> Option<u32> {
    number.checked_sub(1)
}
