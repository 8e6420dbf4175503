//! The plain finder, and what the quick finder has to answer: the same step, and its looks, which each edition counts in its own way.

use super::admission::{admit, Question, Serves};
use super::kinds::{refuse, Policy, Refusal};
use super::load::{Loads, CHARGED};
use super::policy::{first_fit, passes};
use super::share::{period_with_share, Spring};
use std::collections::BTreeSet;

/// The shares of all tasks at a step, in record order.
pub fn shares_at(springs: &[Spring], step: u32) -> Vec<u64> {
    springs.iter().map(|spring| spring.share_at(step)).collect()
}

/// Scans every step from 0 to K and answers the first that passes.
pub fn least_passing_step(question: &Question) -> Option<u32> {
    let loads = Loads::of(question);
    let mut at_step = vec![0; question.rows.len()];
    (0..=loads.full_compression()).find(|step| {
        loads.put(*step, &mut at_step);
        passes(question.policy, question.m, &at_step)
    })
}

/// "for each task its period and a processor: 1 to m under policy 4, and 0 ("any") under 1 to 3", and under 5; 3 is withdrawn
fn write_plan(question: &Question, step: u32, periods: &mut [u32], processors: &mut [u16]) {
    let shares = shares_at(&question.springs(), step);
    for (index, row) in question.rows.iter().enumerate() {
        periods[index] = period_with_share(*row, question.w, question.q, shares[index]);
    }
    let loads = Loads::of(question).at(step);
    let placed = match question.policy.meaning() {
        Policy::FirstFit => first_fit(question.m, &loads).expect("the step passes"),
        _ => vec![0; loads.len()],
    };
    processors[..placed.len()].copy_from_slice(&placed);
}

/// Searches after admission: the least passing step with its plan, or refusal 7.
fn search(
    question: &Question,
    periods: &mut [u32],
    processors: &mut [u16],
) -> Result<u32, Refusal> {
    match least_passing_step(question) {
        Some(step) => {
            write_plan(question, step, periods, processors);
            Ok(step)
        }
        None => refuse(7, 0),
    }
}

/// The plain finder: the step, or the refusal that leaves both outputs as they were.
pub fn plain(
    question: &Question,
    periods: &mut [u32],
    processors: &mut [u16],
) -> Result<u32, Refusal> {
    admit(question, Serves::EveryPolicy, &[periods.len(), processors.len()])?;
    search(question, periods, processors)
}

/// The quick finder's answer and its looks.
pub fn quick(
    question: &Question,
    periods: &mut [u32],
    processors: &mut [u16],
) -> (Result<u32, Refusal>, u16) {
    if let Err(refusal) = admit(question, Serves::FormulasOnly, &[periods.len(), processors.len()])
    {
        // "Refusals before 7 report 0."
        return (Err(refusal), 0);
    }
    let answer = search(question, periods, processors);
    if question.edition == CHARGED {
        return (answer, halve(question).1);
    }
    (answer, looks(question, answer.ok()))
}

/// Ask 10: "halves the range from 0 to K + 1, testing the middle rounded down (a pass keeps it and below, a failure what is above), until
/// one step is left, K + 1 meaning none; its looks are the tests made"
pub fn halve(question: &Question) -> (Option<u32>, u16) {
    let loads = Loads::of(question);
    let none = loads.full_compression() + 1;
    let (mut low, mut high, mut looks) = (0, none, 0);
    while low < high {
        let middle = (low + high) / 2;
        looks += 1;
        if passes(question.policy, question.m, &loads.at(middle)) {
            high = middle;
        } else {
            low = middle + 1;
        }
    }
    ((low < none).then_some(low), looks)
}

/// The looks of edition 1 for an answer at a step, or for refusal 7: "the looks rule of 01 stays".
fn looks(question: &Question, answer: Option<u32>) -> u16 {
    let due = distinct_positive_saturation_steps(question);
    let count = match answer {
        // "1 when the answer is step 0"
        Some(0) => 1,
        // "2 plus the number of distinct positive saturation steps below k"
        Some(step) => 2 + due.iter().filter(|due| **due < step).count(),
        // "1 plus the number of distinct positive saturation steps"
        None => 1 + due.len(),
    };
    count as u16
}

/// Every saturation step above 0, each once.
pub fn distinct_positive_saturation_steps(question: &Question) -> BTreeSet<u32> {
    question.springs().iter().filter_map(Spring::saturation_step).filter(|step| *step > 0).collect()
}
