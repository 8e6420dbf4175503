//! What would relieve a table: one processor more, or one task fewer, beside the table as it stands.

use super::admission::{admit, Question, Serves};
use super::finder::least_passing_step;
use super::kinds::Refusal;

/// A least step told as a number: 0 for none, else the step + 1. A question that is refused has none.
fn told(question: &Question) -> u32 {
    match admit(question, Serves::EveryPolicy, &[]) {
        Ok(()) => least_passing_step(question).map_or(0, |step| step + 1),
        Err(_) => 0,
    }
}

fn with_one_processor_more(question: &Question) -> Question {
    Question { m: question.m + 1, ..question.clone() }
}

fn without_task(question: &Question, task: usize) -> Question {
    let mut fewer = question.clone();
    fewer.rows.remove(task);
    fewer.count -= 1;
    fewer
}

/// What is told of a table, each as such a number.
#[derive(Clone, Copy, Debug, Default, PartialEq, Eq)]
pub struct Told {
    pub least: u32,
    pub more: u32,
}

/// The step of the table as it stands, and with one processor more; the step without each task is written.
pub fn relief(question: &Question, without: &mut [u32]) -> Result<Told, Refusal> {
    admit(question, Serves::EveryPolicy, &[without.len()])?;
    for task in 0..question.rows.len() {
        without[task] = told(&without_task(question, task));
    }
    Ok(Told { least: told(question), more: told(&with_one_processor_more(question)) })
}
