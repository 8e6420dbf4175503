//! A planner's proposal.

use crate::boundary::{self, judged};
use crate::kinds::{Station, Task};
use crate::refusal::Refusal;
#[cfg(feature = "alloc")]
use alloc::{vec, vec::Vec};

/// Whether the processor proposed for each task is from 1 to m, and the tasks load no processor above 1,000,000 parts at a step, whoever made
/// the proposal: the load of each processor, from processor 1 on. The policy is not looked at, nor are entries past the tasks.
///
/// Refusals 2, 3, 5 (the proposal has fewer entries than there are tasks), 6, 13, 14.
///
/// ```
/// use eelbasket::{check_proposal, Policy, Refusal, Station, Task};
///
/// let tasks = [Task::new(6, 10, 20, 1000); 2];
/// let station = Station::new(Policy::FirstFit, 2);
/// assert_eq!(check_proposal(&tasks, station, 0, &[2, 1]), Ok(vec![600_000, 600_000]));
/// assert_eq!(check_proposal(&tasks, station, 0, &[2, 2]), Err(Refusal::ProcessorOverfull(2)));
/// ```
#[cfg(feature = "alloc")]
pub fn check_proposal(
    tasks: &[Task],
    station: Station,
    step: u32,
    proposal: &[u16],
) -> Result<Vec<u32>, Refusal> {
    let mut loads = vec![0; usize::from(station.m)];
    check_proposal_into(tasks, station, step, proposal, &mut loads)?;
    Ok(loads)
}

/// The same with the m loads in a lent output.
///
/// Refusals 2, 3, 5 (first the proposal, then the output), 6, 13, 14.
pub fn check_proposal_into(
    tasks: &[Task],
    station: Station,
    step: u32,
    proposal: &[u16],
    loads: &mut [u32],
) -> Result<(), Refusal> {
    // Each pointer comes with its own length, and the loads are borrowed apart from what is read.
    let verdict = unsafe {
        boundary::eelbasket_check_proposal(
            tasks.as_ptr(),
            tasks.len(),
            station.numbers(),
            step,
            proposal.as_ptr(),
            proposal.len(),
            loads.as_mut_ptr(),
            loads.len(),
        )
    };
    judged(verdict.number, verdict.place, ())
}
