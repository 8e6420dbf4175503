//! Calls on one record.

use crate::boundary;
use crate::kinds::{Station, Task, WideTask};
use crate::reason::{Reason, WideReason};

/// Why a task record is not good with a swap cost w and a notch q; `None` where it is good.
///
/// ```
/// use eelbasket::{reason, Reason, Task};
///
/// assert_eq!(reason(Task::new(6, 10, 20, 1000), 2, 5), None);
/// assert_eq!(reason(Task::new(6, 10, 20, 1000), 3, 5), Some(Reason::CostAboveTmin));
/// ```
pub fn reason(task: Task, w: u16, q: u16) -> Option<Reason> {
    // Nothing is lent.
    Reason::of(unsafe { boundary::eelbasket_reason(task, w, q) })
}

/// Why a task that needs several cores is not good; `None` where it is good.
pub fn wide_reason(task: WideTask) -> Option<WideReason> {
    // Nothing is lent.
    WideReason::of(unsafe { boundary::eelbasket_wide_reason(task) })
}

/// The share of a task at any step, in parts of a million; `None` where the record is not good. Of the station w and q count.
///
/// ```
/// use eelbasket::{share, Policy, Station, Task};
///
/// let station = Station::new(Policy::Pooled, 1);
/// assert_eq!(share(Task::new(6, 10, 20, 1000), station, 100), Some(500_000));
/// ```
pub fn share(task: Task, station: Station, step: u32) -> Option<u32> {
    // Nothing is lent; no good record has a share of 0.
    match unsafe { boundary::eelbasket_share(task, station.numbers(), step) } {
        0 => None,
        parts => Some(parts),
    }
}
