//! The change-over between two sheets.

use super::admission::Question;
use super::finder::plain;
use super::kinds::{Granted, Record, Refusal, Sheet, MOST_TASKS};
use super::reader::read;

/// Which of the two lent sheets a part belongs to.
#[derive(Clone, Copy, Debug, PartialEq, Eq)]
pub enum Which {
    Standing,
    Proposed,
}

/// "It is a part of one of the two lent sheets, not a copy."
#[derive(Clone, Copy, Debug, PartialEq, Eq)]
pub struct Part {
    pub which: Which,
    pub offset: usize,
    pub length: usize,
}

/// What a read sheet asks of the plain finder.
fn question_of(sheet: &Sheet) -> Question {
    let count = usize::from(sheet.task_count);
    let rows = sheet.rows[..count].to_vec();
    let Sheet { policy, m, w, q, edition, .. } = *sheet;
    Question { policy, m, w, q, edition, count, rows }
}

/// The plain finder's results for a read sheet.
pub fn results_for(sheet: &Sheet) -> Result<Vec<Granted>, Refusal> {
    let question = question_of(sheet);
    let mut periods = [0; MOST_TASKS];
    let mut processors = [0; MOST_TASKS];
    plain(&question, &mut periods, &mut processors)?;
    let both = periods.iter().zip(&processors).take(question.count);
    Ok(both.map(|(period, processor)| Granted { period: *period, processor: *processor }).collect())
}

/// The task section (records only) of a sheet that reads and that the plain finder accepts.
fn accepted_task_section(which: Which, bytes: &[u8]) -> Option<Part> {
    let sheet = read(bytes).ok()?;
    results_for(&sheet).ok()?;
    let offset = Sheet::records_place(usize::from(sheet.settings_count));
    Some(Part { which, offset, length: Record::BYTES * usize::from(sheet.task_count) })
}

/// The proposed one's task section, otherwise the standing one's, otherwise the empty front.
pub fn change_over(standing: &[u8], proposed: &[u8]) -> Part {
    accepted_task_section(Which::Proposed, proposed)
        .or_else(|| accepted_task_section(Which::Standing, standing))
        .unwrap_or(Part { which: Which::Standing, offset: 0, length: 0 })
}

impl Part {
    /// The bytes of the part.
    pub fn of<'a>(&self, standing: &'a [u8], proposed: &'a [u8]) -> &'a [u8] {
        let lent = match self.which {
            Which::Standing => standing,
            Which::Proposed => proposed,
        };
        &lent[self.offset..self.offset + self.length]
    }
}
