//! Ask 7: the checker of a planner's proposal, "whoever made them", a processor for each task at a step.

use super::admission::{admit_rows, admit_settings, Question};
use super::kinds::{refuse, Refusal, MOST_PROCESSORS, MOST_TASKS, SCALE};
use super::load::Loads;

/// "Refusals 2, 3, 5 (proposal, then load output, too short) and 6 come first"; the policy is not looked at.
fn admit(question: &Question, proposal: &[u16], output: &[u32]) -> Result<(), Refusal> {
    admit_settings(question, MOST_PROCESSORS)?;
    if question.count > MOST_TASKS {
        return refuse(3, question.count);
    }
    if proposal.len() < question.count {
        return refuse(5, question.count);
    }
    if output.len() < usize::from(question.m) {
        return refuse(5, usize::from(question.m));
    }
    admit_rows(question)
}

/// The load of a processor: what its tasks ask for, added up; under edition 2 that is their charges (Ask 10).
fn load(asked: &[u64], proposal: &[u16], processor: u16) -> u64 {
    let tasks = (0..asked.len()).filter(|task| proposal[*task] == processor);
    tasks.map(|task| asked[task]).sum()
}

/// Accepts "exactly those proposals where each processor is from 1 to m and each load is at most S", and hands back the loads.
pub fn check_proposal(
    question: &Question,
    step: u32,
    proposal: &[u16],
    output: &mut [u32],
) -> Result<(), Refusal> {
    admit(question, proposal, output)?;
    let processors = 1..=question.m;
    // "then 13 names the first task with a processor out of range"
    if let Some(task) = (0..question.count).find(|task| !processors.contains(&proposal[*task])) {
        return refuse(13, task);
    }
    // "then 14 the lowest overfull processor"
    let asked = Loads::of(question).at(step);
    if let Some(processor) = processors.clone().find(|j| load(&asked, proposal, *j) > SCALE) {
        return refuse(14, usize::from(processor));
    }
    for processor in processors {
        output[usize::from(processor) - 1] = load(&asked, proposal, processor) as u32;
    }
    Ok(())
}
