//! Tables from the office: text with a line `C,Tmin,Tmax,E` for each task.

use crate::boundary::{self, judged};
use crate::kinds::Task;
use crate::refusal::Refusal;

/// The table of a text, into lent rows; tells how many there are.
///
/// Refusals 16 and 3, whichever comes first from the left, then 5.
pub fn import(text: &[u8], rows: &mut [Task]) -> Result<usize, Refusal> {
    // Each pointer comes with its own length, and the rows are borrowed apart from the text.
    let counted = unsafe {
        boundary::eelbasket_import(text.as_ptr(), text.len(), rows.as_mut_ptr(), rows.len())
    };
    judged(counted.number, counted.place, counted.count)
}

/// The text of a table, into a lent buffer; tells how many bytes it took.
///
/// Refusals 3, 5.
pub fn export(tasks: &[Task], out: &mut [u8]) -> Result<usize, Refusal> {
    // As in `import`.
    let counted = unsafe {
        boundary::eelbasket_export(tasks.as_ptr(), tasks.len(), out.as_mut_ptr(), out.len())
    };
    judged(counted.number, counted.place, counted.count)
}
