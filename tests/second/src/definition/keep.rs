//! Ask 6: the task table with an index of its elastic tasks, ordered by saturation step, and the two changes of it.

use super::kinds::{refuse, Record, Refusal, MOST_TASKS};
use super::share::springs;

/// "Keep beside the task table an index …. Both have room for 32"; what is handed in may hold anything, past the ends too.
#[derive(Clone, Debug, PartialEq, Eq)]
pub struct Kept {
    pub count: u16,
    pub rows: [Record; MOST_TASKS],
    pub entries: u16,
    pub index: [u16; MOST_TASKS],
}

/// What is asked of a kept table.
#[derive(Clone, Copy, Debug, PartialEq, Eq)]
pub enum Change {
    /// "A task joins at the end of the table"
    Join(Record),
    /// "or leaves from any place"
    Leave(u16),
}

/// "an index of its tasks with E > 0, ordered by saturation step, ties by record number"
pub fn index_of(rows: &[Record], w: u16) -> Vec<u16> {
    let steps: Vec<Option<u32>> = springs(rows, w).iter().map(|s| s.saturation_step()).collect();
    let mut index: Vec<u16> = (0..rows.len() as u16).collect();
    index.retain(|task| steps[usize::from(*task)].is_some());
    index.sort_by_key(|task| (steps[usize::from(*task)], *task));
    index
}

impl Kept {
    /// A table of good records and its index, "with zeros past their ends".
    pub fn fresh(rows: &[Record], w: u16) -> Kept {
        let index = index_of(rows, w);
        let mut kept = Kept {
            count: rows.len() as u16,
            rows: [Record::default(); MOST_TASKS],
            entries: index.len() as u16,
            index: [0; MOST_TASKS],
        };
        kept.rows[..rows.len()].copy_from_slice(rows);
        kept.index[..index.len()].copy_from_slice(&index);
        kept
    }

    /// "q = 0 is refused by 2 first", then 3, 6 and 12. Accepted: the records after the change.
    fn rows_after(&self, w: u16, q: u16, change: Change) -> Result<Vec<Record>, Refusal> {
        if q == 0 {
            return refuse(2, 0);
        }
        let count = usize::from(self.count);
        // "A join to 32 tasks, or any change of a table said to hold more, is refused by 3 at that count"
        let joining = matches!(change, Change::Join(_));
        if count > MOST_TASKS || (joining && count == MOST_TASKS) {
            return refuse(3, count);
        }
        let mut rows = self.rows[..count].to_vec();
        if let Change::Join(task) = change {
            rows.push(task);
        }
        // "then a bad record, in the table or (at the count) joining, by 6"
        if let Some(first) = rows.iter().position(|row| !row.is_good(w, q)) {
            return refuse(6, first);
        }
        if let Change::Leave(record) = change {
            let record = usize::from(record);
            // "then a leave of a record that is not there by 12 at its number"
            if record >= count {
                return refuse(12, record);
            }
            // "and later records move down by one"
            rows.remove(record);
        }
        Ok(rows)
    }

    /// "After each accepted join or leave the index equals the one worked out afresh, even if the one handed in did not." "A refused change
    /// alters nothing."
    pub fn change(&mut self, w: u16, q: u16, change: Change) -> Result<(), Refusal> {
        let rows = self.rows_after(w, q, change)?;
        *self = Kept::fresh(&rows, w);
        Ok(())
    }
}
