//! A table kept with its saturation order.

use crate::boundary::{self, judged};
use crate::kinds::{Task, MOST_TASKS};
use crate::refusal::Refusal;

/// Room for the records of a table, of which the first n count.
#[repr(C)]
#[derive(Clone, Copy, Debug, Default, PartialEq, Eq)]
pub struct Table {
    /// The records.
    pub rows: [Task; MOST_TASKS],
    /// How many there are.
    pub n: usize,
}

/// The numbers of a table's tasks with E > 0, ordered by saturation step, ties by record number, of which the first n count.
#[repr(C)]
#[derive(Clone, Copy, Debug, Default, PartialEq, Eq)]
pub struct Index {
    /// The record numbers, from 0.
    pub entries: [u16; MOST_TASKS],
    /// How many there are.
    pub n: usize,
}

/// A table and its index; the default is the empty one. An accepted change works the index out afresh, whatever stood there, and leaves zeros
/// past both ends; a refused one leaves everything as it was.
///
/// ```
/// use eelbasket::{Kept, Refusal, Task};
///
/// let mut kept = Kept::default();
/// kept.join(0, 1, Task::new(6, 10, 20, 1000))?; // saturated at step 300
/// kept.join(0, 1, Task::new(6, 10, 20, 2000))?; // saturated at step 150
/// assert_eq!(kept.order(), [1, 0]);
/// kept.leave(0, 1, 0)?;
/// assert_eq!(kept.tasks(), [Task::new(6, 10, 20, 2000)]);
/// assert_eq!(kept.order(), [0]);
/// # Ok::<(), Refusal>(())
/// ```
#[repr(C)]
#[derive(Clone, Copy, Debug, Default, PartialEq, Eq)]
pub struct Kept {
    /// The table.
    pub table: Table,
    /// Its saturation order.
    pub index: Index,
}

/// The entries that count, of which there are at most those for which there is room.
fn counted<T>(entries: &[T; MOST_TASKS], n: usize) -> &[T] {
    &entries[..n.min(MOST_TASKS)]
}

impl Kept {
    /// The records of the table.
    pub fn tasks(&self) -> &[Task] {
        counted(&self.table.rows, self.table.n)
    }

    /// The numbers of its tasks with E > 0 in the order in which they saturate.
    pub fn order(&self) -> &[u16] {
        counted(&self.index.entries, self.index.n)
    }

    /// A task joins at the end of the table, with a swap cost w and a notch q.
    ///
    /// Refusals 2, 3 (at the count, from 32 on), 6 (the joining task at the count).
    pub fn join(&mut self, w: u16, q: u16, task: Task) -> Result<(), Refusal> {
        // Any kept table and any numbers may be passed, and all are passed by value.
        let changed = unsafe { boundary::eelbasket_join(*self, w, q, task) };
        *self = changed.kept;
        judged(changed.number, changed.place, ())
    }

    /// A record, from 0, leaves the table, with a swap cost w and a notch q; later ones move down by one.
    ///
    /// Refusals 2, 3 (at the count, above 32), 6, 12.
    pub fn leave(&mut self, w: u16, q: u16, record: usize) -> Result<(), Refusal> {
        // As in `join`.
        let changed = unsafe { boundary::eelbasket_leave(*self, w, q, record) };
        *self = changed.kept;
        judged(changed.number, changed.place, ())
    }
}
