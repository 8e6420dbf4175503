//! The margin report.

use super::admission::{admit, Question, Serves};
use super::kinds::Refusal;
use super::load::Loads;
use super::policy::sides;

/// "at any step up to 4,294,967,295, the right side of the test minus the left, as a signed number"
pub fn margin(question: &Question, step: u32) -> Result<i64, Refusal> {
    // "The margin gives 1, 2, 3, 4, 6 only": it is lent no output.
    admit(question, Serves::FormulasOnly, &[])?;
    let loads = Loads::of(question).at(step);
    let (left, right) = sides(question.policy, question.m, &loads).expect("a formula");
    Ok((right - left) as i64)
}
