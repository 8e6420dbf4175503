//! The checks 1 to 6 that stand before every search, "the lowest number first"; Ask 8's 15 stands in the place of 1. Those that Ask 7's
//! checker has too stand by themselves.

use super::kinds::{refuse, Policy, Record, Refusal, MOST_PROCESSORS, MOST_TASKS};
use super::share::{springs, Spring};

/// What finders and margin are asked about. Of more than 32 tasks only 32 rows are kept.
#[derive(Clone, Debug)]
pub struct Question {
    pub policy: Policy,
    pub m: u16,
    pub w: u16,
    pub q: u16,
    pub edition: u16,
    pub count: usize,
    pub rows: Vec<Record>,
}

impl Question {
    /// The springs of a question that is admitted.
    pub fn springs(&self) -> Vec<Spring> {
        springs(&self.rows, self.w)
    }
}

/// Whether the call that asks serves policy 4.
#[derive(Clone, Copy, PartialEq, Eq)]
pub enum Serves {
    EveryPolicy,
    FormulasOnly,
}

/// Refuses by 2 more than so many processors, none, no notch, and an edition that there is not.
pub fn admit_settings(question: &Question, most: u16) -> Result<(), Refusal> {
    if question.m == 0 || question.m > most {
        return refuse(2, 0);
    }
    // Ask 5: "q = 0 is refused by 2"
    if question.q == 0 {
        return refuse(2, 0);
    }
    // Ask 10: "1 or 2 … another number is refused by 2"
    if question.edition != 1 && question.edition != 2 {
        return refuse(2, 0);
    }
    Ok(())
}

/// Refuses by 6 the first record that is not good.
pub fn admit_rows(question: &Question) -> Result<(), Refusal> {
    match question.rows.iter().position(|row| !row.is_good(question.w, question.q)) {
        Some(first) => refuse(6, first),
        None => Ok(()),
    }
}

/// Refuses by 1 or 15, then by 2 to 6 in this order; `rooms` are the entries of the lent outputs.
pub fn admit(question: &Question, serves: Serves, rooms: &[usize]) -> Result<(), Refusal> {
    let policy = question.policy.meaning();
    if matches!(policy, Policy::Further(_)) {
        return refuse(1, 0);
    }
    // Ask 8: "now refuse it by 15, in the place of refusal 1"
    if policy == Policy::GlobalRm {
        return refuse(15, 0);
    }
    // Ask 1's policy "needs m = 1 (otherwise refusal 2)"
    let most = if policy == Policy::OneCoreRm { 1 } else { MOST_PROCESSORS };
    admit_settings(question, most)?;
    if question.count > MOST_TASKS {
        return refuse(3, question.count);
    }
    if policy == Policy::FirstFit && serves == Serves::FormulasOnly {
        return refuse(4, 0);
    }
    if rooms.iter().any(|room| *room < question.count) {
        return refuse(5, question.count);
    }
    admit_rows(question)
}
