//! Calls and answers in words, for the reader of a difference.

use crate::answer::{BUFFER_SENTINEL, PERIOD_SENTINEL, PROCESSOR_SENTINEL, ROW_SENTINEL};
use crate::call::{Call, Rooms, Settings, Table, WideTable, KIND_NAMES};
use crate::clock_run::released_text;
use crate::definition::kinds::{Granted, Record, MOST_TASKS};
use crate::definition::wide::WideRecord;
use crate::keeping::kept_text;
use std::fmt::Write;

/// Bytes in hex, a space between them.
pub fn hex(bytes: &[u8]) -> String {
    bytes.iter().map(|byte| format!("{byte:02X}")).collect::<Vec<_>>().join(" ")
}

fn settings_line(settings: Settings) -> String {
    let made = if settings.further { "a further choice" } else { "as a sheet is read" };
    let Settings { number, m, count, w, q, edition, .. } = settings;
    let numbers = format!("m {m}, settings count {count}, w {w}, q {q}, edition {edition}");
    format!("  policy {number} ({made}), {numbers}\n")
}

fn record_line(index: usize, row: &Record) -> String {
    format!("  row {index}: C {} Tmin {} Tmax {} E {}\n", row.c, row.tmin, row.tmax, row.e)
}

fn result_line(index: usize, result: &Granted) -> String {
    format!("  result {index}: period {} processor {}\n", result.period, result.processor)
}

fn table_lines(table: &Table) -> String {
    let mut text = settings_line(table.settings);
    let _ = writeln!(text, "  count {}, rows present {}", table.count, table.rows.len());
    for (index, row) in table.rows.iter().enumerate() {
        text.push_str(&record_line(index, row));
    }
    text
}

fn rooms_line(rooms: Rooms) -> String {
    format!("  room: {} periods, {} processors\n", rooms.periods, rooms.processors)
}

fn bytes_line(name: &str, bytes: &[u8]) -> String {
    format!("  {name} ({} bytes): {}\n", bytes.len(), hex(bytes))
}

fn wide_record_line(index: usize, row: &WideRecord) -> String {
    let WideRecord { c, l, tmin, tmax, e } = row;
    format!("  row {index}: C {c} L {l} Tmin {tmin} Tmax {tmax} E {e}\n")
}

fn wide_lines(table: &WideTable) -> String {
    let mut text = format!("  m {}\n", table.m);
    let _ = writeln!(text, "  count {}, rows present {}", table.count, table.rows.len());
    for (index, row) in table.rows.iter().enumerate() {
        text.push_str(&wide_record_line(index, row));
    }
    text
}

/// What a call asks.
pub fn call_text(call: &Call) -> String {
    let mut text = format!("{}\n", KIND_NAMES[usize::from(call.kind()) - 1]);
    match call {
        Call::Plain(table, rooms) | Call::Quick(table, rooms) => {
            text.push_str(&table_lines(table));
            text.push_str(&rooms_line(*rooms));
        }
        Call::Margin(table, step) => {
            text.push_str(&table_lines(table));
            let _ = writeln!(text, "  at step {step}");
        }
        Call::Read(sheet) | Call::Check(sheet) => text.push_str(&bytes_line("sheet", sheet)),
        Call::Write(writing) => {
            text.push_str(&settings_line(writing.settings));
            let _ = writeln!(
                text,
                "  task count {}, result count {}, room {} bytes",
                writing.task_count, writing.result_count, writing.room
            );
            for (index, row) in writing.rows.iter().enumerate() {
                text.push_str(&record_line(index, row));
            }
            for (index, result) in writing.results.iter().enumerate() {
                text.push_str(&result_line(index, result));
            }
        }
        Call::ChangeOver { standing, proposed } => {
            text.push_str(&bytes_line("standing", standing));
            text.push_str(&bytes_line("proposed", proposed));
        }
        Call::Program(input) => text.push_str(&bytes_line("input", input)),
        Call::Wide(table, rooms) => {
            text.push_str(&wide_lines(table));
            text.push_str(&rooms_line(*rooms));
        }
        Call::Clock(run) => text.push_str(&run.text()),
        Call::Keep(keeping) => text.push_str(&keeping.text()),
        Call::Relief(table, room) => {
            text.push_str(&table_lines(table));
            let _ = writeln!(text, "  room: {room} entries");
        }
        Call::Record { settings, step, record } => {
            text.push_str(&settings_line(*settings));
            text.push_str(&record_line(0, record));
            let _ = writeln!(text, "  at step {step}");
        }
        Call::WideRecord(record) => text.push_str(&wide_record_line(0, record)),
        Call::Import { entries, text: lines } => {
            let _ = writeln!(text, "  room: {entries} rows");
            let _ = writeln!(text, "  text: {:?}", String::from_utf8_lossy(lines));
        }
        Call::Export(exporting) => {
            let _ = writeln!(text, "  count {}, room {} bytes", exporting.count, exporting.room);
            for (index, row) in exporting.rows.iter().enumerate() {
                text.push_str(&record_line(index, row));
            }
        }
        Call::Proposal(proposing) => {
            text.push_str(&table_lines(&proposing.table));
            let _ =
                writeln!(text, "  at step {}, proposed {:?}", proposing.step, proposing.proposal);
            let _ = writeln!(text, "  room: {} loads", proposing.room);
        }
    }
    text
}

/// Takes fields from the front of an answer; `None` when it is too short.
struct Fields<'a> {
    rest: &'a [u8],
}

impl<'a> Fields<'a> {
    fn take(&mut self, length: usize) -> Option<&'a [u8]> {
        if self.rest.len() < length {
            return None;
        }
        let (front, rest) = self.rest.split_at(length);
        self.rest = rest;
        Some(front)
    }

    /// A little-endian number of up to 8 bytes.
    fn number(&mut self, length: usize) -> Option<u64> {
        Some(self.take(length)?.iter().rev().fold(0, |number, byte| number << 8 | u64::from(*byte)))
    }

    fn verdict(&mut self) -> Option<String> {
        let (number, place) = (self.number(1)?, self.number(4)?);
        Some(match (number, place) {
            (0, 0) => "  accepted\n".to_string(),
            _ => format!("  refused {number} at {place}\n"),
        })
    }

    /// Entries of a lent output; one that holds its sentinel is shown as kept.
    fn entries(&mut self, count: u8, length: usize, sentinel: u64) -> Option<String> {
        let mut shown = Vec::new();
        for _ in 0..count {
            let entry = self.number(length)?;
            shown.push(if entry == sentinel { "kept".to_string() } else { entry.to_string() });
        }
        Some(shown.join(" "))
    }

    fn outputs(&mut self, rooms: Rooms) -> Option<String> {
        let periods = self.entries(rooms.periods, 4, u64::from(PERIOD_SENTINEL))?;
        let processors = self.entries(rooms.processors, 2, u64::from(PROCESSOR_SENTINEL))?;
        Some(format!("  periods: {periods}\n  processors: {processors}\n"))
    }

    fn sheet(&mut self) -> Option<String> {
        let mut text = format!("  policy {}, m {}", self.number(2)?, self.number(2)?);
        let _ = write!(text, ", settings count {}, w {}", self.number(2)?, self.number(2)?);
        let _ = write!(text, ", q {}, edition {}", self.number(2)?, self.number(2)?);
        let _ =
            writeln!(text, ", task count {}, result count {}", self.number(2)?, self.number(2)?);
        for index in 0..MOST_TASKS {
            let mut number = || Some(self.number(4)? as u32);
            let row = Record::new(number()?, number()?, number()?, number()?);
            if row != Record::default() {
                text.push_str(&record_line(index, &row));
            }
        }
        for index in 0..MOST_TASKS {
            let result =
                Granted { period: self.number(4)? as u32, processor: self.number(2)? as u16 };
            if result != Granted::default() {
                text.push_str(&result_line(index, &result));
            }
        }
        text.push_str("  all other rows and results are zeros\n");
        Some(text)
    }

    /// The rows of a lent output; one that holds its sentinel is left out.
    fn rows(&mut self, count: u8) -> Option<String> {
        let mut text = String::new();
        for index in 0..usize::from(count) {
            let mut number = || Some(self.number(4)? as u32);
            let row = Record::new(number()?, number()?, number()?, number()?);
            if row != ROW_SENTINEL {
                text.push_str(&record_line(index, &row));
            }
        }
        text.push_str("  all other rows are kept\n");
        Some(text)
    }

    fn buffer(&mut self, room: u16) -> Option<String> {
        let buffer = self.take(usize::from(room))?;
        let kept = buffer.iter().rev().take_while(|byte| **byte == BUFFER_SENTINEL).count();
        let front = &buffer[..buffer.len() - kept];
        Some(format!("  buffer: {} then {kept} bytes kept\n", hex(front)))
    }

    fn change_over(&mut self) -> Option<String> {
        let which = match self.number(1)? {
            0 => "standing".to_string(),
            1 => "proposed".to_string(),
            other => format!("unknown sheet {other}"),
        };
        let (offset, length) = (self.number(2)?, self.number(2)?);
        let part = hex(self.take(length as usize)?);
        Some(format!("  part of the {which} one from {offset}, {length} bytes: {part}\n"))
    }
}

/// The fields of an answer in words; `None` when its length is not right for the call.
fn fields_text(call: &Call, answer: &[u8]) -> Option<String> {
    let mut fields = Fields { rest: answer };
    let text = match call {
        Call::Plain(_, rooms) | Call::Wide(_, rooms) => {
            let verdict = fields.verdict()?;
            format!("{verdict}  step {}\n{}", fields.number(4)?, fields.outputs(*rooms)?)
        }
        Call::Quick(_, rooms) => {
            let verdict = fields.verdict()?;
            let (step, looks) = (fields.number(4)?, fields.number(2)?);
            format!("{verdict}  step {step}, looks {looks}\n{}", fields.outputs(*rooms)?)
        }
        Call::Margin(..) => {
            format!("{}  margin {}\n", fields.verdict()?, fields.number(8)? as i64)
        }
        Call::Read(_) => format!("{}{}", fields.verdict()?, fields.sheet()?),
        Call::Write(writing) => {
            let verdict = fields.verdict()?;
            format!(
                "{verdict}  written {} bytes\n{}",
                fields.number(2)?,
                fields.buffer(writing.room)?
            )
        }
        Call::ChangeOver { .. } => fields.change_over()?,
        Call::Import { entries, .. } => {
            let verdict = fields.verdict()?;
            format!("{verdict}  imported {} rows\n{}", fields.number(2)?, fields.rows(*entries)?)
        }
        Call::Export(exporting) => {
            let verdict = fields.verdict()?;
            let written = fields.number(2)?;
            format!("{verdict}  written {written} bytes\n{}", fields.buffer(exporting.room)?)
        }
        Call::Proposal(proposing) => {
            let verdict = fields.verdict()?;
            let loads = fields.entries(proposing.room, 4, u64::from(PERIOD_SENTINEL))?;
            format!("{verdict}  loads: {loads}\n")
        }
        Call::Relief(_, room) => {
            let verdict = fields.verdict()?;
            let (least, more) = (fields.number(4)?, fields.number(4)?);
            let without = fields.entries(*room, 4, u64::from(PERIOD_SENTINEL))?;
            format!("{verdict}  least {least}, one processor more {more}\n  without: {without}\n")
        }
        Call::Record { .. } => {
            format!("  reason {}\n  share {}\n", fields.number(1)?, fields.number(4)?)
        }
        Call::WideRecord(_) => format!("  reason {}\n", fields.number(1)?),
        Call::Keep(_) => format!("{}{}", fields.verdict()?, kept_text(&mut fields.rest)?),
        Call::Program(_) => program_text(fields.take(answer.len())?),
        Call::Check(_) => {
            format!("{}{}", fields.verdict()?, program_text(fields.take(fields.rest.len())?))
        }
        Call::Clock(run) => {
            format!("{}{}", fields.verdict()?, released_text(run, &mut fields.rest)?)
        }
    };
    fields.rest.is_empty().then_some(text)
}

fn program_text(output: &[u8]) -> String {
    match std::str::from_utf8(output) {
        Ok(line) if line.starts_with("refused") || line.starts_with("accepted") => {
            format!("  writes {line:?}\n")
        }
        _ => bytes_line("writes", output),
    }
}

/// What an answer says.
pub fn answer_text(call: &Call, answer: &[u8]) -> String {
    fields_text(call, answer)
        .unwrap_or_else(|| bytes_line("an answer of a length that this call does not have", answer))
}

/// The first place where two answers differ.
pub fn first_difference(expected: &[u8], given: &[u8]) -> String {
    let same = expected.iter().zip(given).take_while(|(one, other)| one == other).count();
    let shown = |bytes: &[u8]| match bytes.get(same) {
        Some(byte) => format!("{byte:02X}"),
        None => "no more bytes".to_string(),
    };
    format!("at byte {same} of the answer: expected {}, given {}\n", shown(expected), shown(given))
}
