//! A change of a kept table as the stream has it: its bytes, its answer, and both in words.

use crate::answer::put_verdict;
use crate::definition::keep::{Change, Kept};
use crate::definition::kinds::Record;
use std::fmt::Write;

/// A kept table as it is handed in, with the swap cost and the notch that the call brings, and the change.
#[derive(Clone, Debug, PartialEq, Eq)]
pub struct Keeping {
    pub kept: Kept,
    pub w: u16,
    pub q: u16,
    pub change: Change,
}

fn put_row(bytes: &mut Vec<u8>, row: &Record) {
    for number in [row.c, row.tmin, row.tmax, row.e] {
        bytes.extend(number.to_le_bytes());
    }
}

/// The counts, all 32 rows and all 32 entries of the index.
fn put_kept(bytes: &mut Vec<u8>, kept: &Kept) {
    bytes.extend(kept.count.to_le_bytes());
    kept.rows.iter().for_each(|row| put_row(bytes, row));
    bytes.extend(kept.entries.to_le_bytes());
    bytes.extend(kept.index.iter().flat_map(|entry| entry.to_le_bytes()));
}

impl Keeping {
    pub fn put(&self, bytes: &mut Vec<u8>) {
        bytes.push(u8::from(matches!(self.change, Change::Leave(_))));
        bytes.extend(self.w.to_le_bytes());
        bytes.extend(self.q.to_le_bytes());
        put_kept(bytes, &self.kept);
        match self.change {
            Change::Join(task) => put_row(bytes, &task),
            Change::Leave(record) => bytes.extend(record.to_le_bytes()),
        }
    }

    pub fn answer(&self) -> Vec<u8> {
        let mut kept = self.kept.clone();
        let answer = kept.change(self.w, self.q, self.change);
        let mut bytes = Vec::new();
        put_verdict(&mut bytes, &answer);
        put_kept(&mut bytes, &kept);
        bytes
    }

    pub fn text(&self) -> String {
        let change = match self.change {
            Change::Join(row) => {
                format!("joins: C {} Tmin {} Tmax {} E {}", row.c, row.tmin, row.tmax, row.e)
            }
            Change::Leave(record) => format!("leaves: record {record}"),
        };
        let mut bytes = Vec::new();
        put_kept(&mut bytes, &self.kept);
        let kept = kept_text(&mut &bytes[..]).expect("a whole kept table");
        format!("  w {}, q {}\n  {change}\n{kept}", self.w, self.q)
    }
}

/// Takes a little-endian number off the front.
fn take(rest: &mut &[u8], length: usize) -> Option<u32> {
    let front = rest.get(..length)?;
    *rest = &rest[length..];
    Some(front.iter().rev().fold(0, |number, byte| number << 8 | u32::from(*byte)))
}

/// A kept table in words, taken off the front; rows of zeros are left out.
pub fn kept_text(rest: &mut &[u8]) -> Option<String> {
    let mut text = format!("  count {}\n", take(rest, 2)?);
    for index in 0..32 {
        let mut number = || take(rest, 4);
        let row = Record::new(number()?, number()?, number()?, number()?);
        if row != Record::default() {
            let Record { c, tmin, tmax, e } = row;
            let _ = writeln!(text, "  row {index}: C {c} Tmin {tmin} Tmax {tmax} E {e}");
        }
    }
    let entries = take(rest, 2)?;
    let index: Option<Vec<u32>> = (0..32).map(|_| take(rest, 2)).collect();
    let index: Vec<String> = index?.iter().map(u32::to_string).collect();
    let _ = writeln!(text, "  {entries} entries of the index, then those past its end:");
    let _ = writeln!(text, "  {}", index.join(" "));
    Some(text)
}
