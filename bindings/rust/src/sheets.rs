//! Station sheets.

use crate::boundary::{self, judged};
#[cfg(feature = "alloc")]
use crate::kept::Table;
#[cfg(feature = "alloc")]
use crate::kinds::{Granted, Station, Task, MOST_TASKS};
use crate::refusal::Refusal;
#[cfg(feature = "alloc")]
use alloc::vec::Vec;

/// The bytes of the longest sheet.
pub const LONGEST_SHEET: usize = 720;

/// A station sheet.
#[cfg(feature = "alloc")]
#[derive(Clone, Debug, PartialEq, Eq)]
pub struct Sheet {
    /// How many numbers its settings section has: the first 2 to 5 of policy, m, w, q and edition. A reading keeps it, and only
    /// [`write`](Sheet::write) looks at it.
    pub settings_count: usize,
    /// The settings; a reading fills in w = 0, q = 1 and edition 1 where the sheet has none.
    pub station: Station,
    /// The task section.
    pub tasks: Vec<Task>,
    /// The results section: empty, or one for each task.
    pub results: Vec<Granted>,
}

/// The first rows of some, with unused places after them.
#[cfg(feature = "alloc")]
fn front<T: Copy + Default>(rows: &[T]) -> [T; MOST_TASKS] {
    let mut held = [T::default(); MOST_TASKS];
    let count = rows.len().min(MOST_TASKS);
    held[..count].copy_from_slice(&rows[..count]);
    held
}

#[cfg(feature = "alloc")]
impl Sheet {
    /// Reads a sheet; it judges neither a number of the settings nor a record.
    ///
    /// Refusals 8, 9, 3, 10, 11, whichever comes first from the left.
    pub fn read(bytes: &[u8]) -> Result<Sheet, Refusal> {
        // The pointer comes with its own length.
        let reading = unsafe { boundary::eelbasket_read(bytes.as_ptr(), bytes.len()) };
        let sheet = judged(reading.number, reading.place, reading.sheet)?;
        Ok(Sheet {
            settings_count: sheet.settings_count,
            station: Station::of(sheet.station),
            tasks: sheet.table.rows[..sheet.table.n].to_vec(),
            results: sheet.results.rows[..sheet.results.n].to_vec(),
        })
    }

    /// Writes the sheet into a lent buffer, and tells how many bytes it took; a setting past the settings count is left out.
    ///
    /// Refusals 9, 3, 10, 5.
    pub fn write(&self, out: &mut [u8]) -> Result<usize, Refusal> {
        let sheet = boundary::Sheet {
            settings_count: self.settings_count,
            station: self.station.numbers(),
            table: Table { rows: front(&self.tasks), n: self.tasks.len() },
            results: boundary::Results { rows: front(&self.results), n: self.results.len() },
        };
        // The pointer comes with its own length, and the sheet is passed by value.
        let counted = unsafe { boundary::eelbasket_write(sheet, out.as_mut_ptr(), out.len()) };
        judged(counted.number, counted.place, counted.count)
    }

    /// The bytes of the sheet.
    ///
    /// Refusals 9, 3, 10.
    pub fn bytes(&self) -> Result<Vec<u8>, Refusal> {
        let mut out = [0; LONGEST_SHEET];
        let count = self.write(&mut out)?;
        Ok(out[..count].to_vec())
    }
}

/// Reads a sheet and writes it with the plain finder's results, replacing older ones; tells how many bytes it took.
///
/// Refusals 8, 9, 3, 10, 11, whichever comes first from the left, then 1 or 15, 2, 6, 7.
pub fn fill(sheet: &[u8], out: &mut [u8; LONGEST_SHEET]) -> Result<usize, Refusal> {
    // The pointer comes with its own length, and the output has the room that the call asks for.
    let counted = unsafe { boundary::eelbasket_fill(sheet.as_ptr(), sheet.len(), out) };
    judged(counted.number, counted.place, counted.count)
}

/// The bytes of a sheet with the plain finder's results, as [`fill`] writes them.
#[cfg(feature = "alloc")]
pub fn filled(sheet: &[u8]) -> Result<Vec<u8>, Refusal> {
    let mut out = [0; LONGEST_SHEET];
    let count = fill(sheet, &mut out)?;
    Ok(out[..count].to_vec())
}

/// Whether a filled sheet has the results that the plain finder gives.
///
/// Refusals 8, 9, 3, 10, 11, whichever comes first from the left, then 1 or 15, 2, 6, 7, then 18, 19.
pub fn check(sheet: &[u8]) -> Result<(), Refusal> {
    // The pointer comes with its own length.
    let verdict = unsafe { boundary::eelbasket_check(sheet.as_ptr(), sheet.len()) };
    judged(verdict.number, verdict.place, ())
}

/// One of two sheets.
#[derive(Clone, Copy, Debug, PartialEq, Eq)]
pub enum Which {
    /// The sheet that stands.
    Standing,
    /// The sheet that is proposed.
    Proposed,
}

/// A part of one of two sheets.
#[derive(Clone, Copy, Debug, PartialEq, Eq)]
pub struct Part<'a> {
    /// Which sheet it is a part of.
    pub which: Which,
    /// Where it begins there.
    pub place: usize,
    /// Its bytes.
    pub bytes: &'a [u8],
}

/// The change-over: the task records of the proposed sheet if it reads and the plain finder accepts it, otherwise those of the standing one
/// under the same condition, otherwise the empty front of the standing sheet. It refuses nothing.
pub fn change_over<'a>(standing: &'a [u8], proposed: &'a [u8]) -> Part<'a> {
    // Each pointer comes with its own length.
    let part = unsafe {
        boundary::eelbasket_change_over(
            standing.as_ptr(),
            standing.len(),
            proposed.as_ptr(),
            proposed.len(),
        )
    };
    let (which, sheet) = match part.which {
        0 => (Which::Standing, standing),
        _ => (Which::Proposed, proposed),
    };
    Part { which, place: part.place, bytes: &sheet[part.place..part.place + part.size] }
}
