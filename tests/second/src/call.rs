//! A call of the stream: what is asked, and its payload in bytes.

use crate::clock_run::Run;
use crate::definition::admission::Question;
use crate::definition::kinds::{Granted, Policy, Record, Sheet, MOST_TASKS};
use crate::definition::wide::{WideQuestion, WideRecord};
use crate::keeping::Keeping;

/// The most bytes of a payload.
pub const MOST_PAYLOAD: usize = 2_000;

/// The settings as a call gives them.
#[derive(Clone, Copy, Debug, PartialEq, Eq)]
pub struct Settings {
    pub number: u16,
    /// Whether the number is held by a further choice, also when it is 1 to 5.
    pub further: bool,
    pub m: u16,
    /// The settings count, at which only the writer looks; a sheet in bytes has as many of the numbers.
    pub count: u16,
    pub w: u16,
    pub q: u16,
    pub edition: u16,
}

/// Settings and a table; of more than 32 tasks the stream has 32 rows.
#[derive(Clone, Debug, PartialEq, Eq)]
pub struct Table {
    pub settings: Settings,
    pub count: u16,
    pub rows: Vec<Record>,
}

/// Processors and a table of tasks that need several cores; of more than 32 tasks the stream has 32 rows.
#[derive(Clone, Debug, PartialEq, Eq)]
pub struct WideTable {
    pub m: u16,
    pub count: u16,
    pub rows: Vec<WideRecord>,
}

/// The entries of the two lent outputs.
#[derive(Clone, Copy, Debug, PartialEq, Eq)]
pub struct Rooms {
    pub periods: u8,
    pub processors: u8,
}

/// The sheet that a writer is asked to write, and the bytes of the lent buffer.
#[derive(Clone, Debug, PartialEq, Eq)]
pub struct Writing {
    pub settings: Settings,
    pub task_count: u16,
    pub result_count: u16,
    pub room: u16,
    pub rows: Vec<Record>,
    pub results: Vec<Granted>,
}

/// The table that an export is asked to write, and the bytes of the lent output; of more than 32 tasks the stream has 32 rows.
#[derive(Clone, Debug, PartialEq, Eq)]
pub struct Exporting {
    pub count: u16,
    pub room: u16,
    pub rows: Vec<Record>,
}

/// A planner's proposal, a processor for each task of a table at a step, and the entries of the lent output for the loads.
#[derive(Clone, Debug, PartialEq, Eq)]
pub struct Proposing {
    pub table: Table,
    pub step: u32,
    pub proposal: Vec<u16>,
    pub room: u8,
}

#[derive(Clone, Debug, PartialEq, Eq)]
pub enum Call {
    Plain(Table, Rooms),
    Quick(Table, Rooms),
    Margin(Table, u32),
    Read(Vec<u8>),
    Write(Writing),
    ChangeOver { standing: Vec<u8>, proposed: Vec<u8> },
    Program(Vec<u8>),
    Wide(WideTable, Rooms),
    Check(Vec<u8>),
    Clock(Run),
    Import { entries: u8, text: Vec<u8> },
    Export(Exporting),
    Proposal(Proposing),
    Keep(Keeping),
    Relief(Table, u8),
    Record { settings: Settings, step: u32, record: Record },
    WideRecord(WideRecord),
}

/// The names of the kinds of call, from kind 1.
pub const KIND_NAMES: [&str; 17] = [
    "plain finder",
    "quick finder",
    "margin",
    "read",
    "write",
    "change-over",
    "program",
    "several cores",
    "check",
    "release clock",
    "import",
    "export",
    "proposal",
    "kept order",
    "relief",
    "record",
    "wide record",
];

/// The rows or results that the stream has of a count.
pub fn present(count: u16) -> usize {
    usize::from(count).min(MOST_TASKS)
}

impl Settings {
    /// Two settings.
    pub const fn new(number: u16, m: u16) -> Settings {
        Settings { number, further: false, m, count: 2, w: 0, q: 1, edition: 1 }
    }

    /// Three settings, or more where there are more.
    pub fn with_swaps(self, w: u16) -> Settings {
        Settings { count: self.count.max(3), w, ..self }
    }

    /// Four settings, or five where there are five.
    pub fn with_notches(self, q: u16) -> Settings {
        Settings { count: self.count.max(4), q, ..self }
    }

    /// Five settings.
    pub fn with_edition(self, edition: u16) -> Settings {
        Settings { count: 5, edition, ..self }
    }

    pub fn policy(self) -> Policy {
        if self.further {
            Policy::Further(self.number)
        } else {
            Policy::from_number(self.number)
        }
    }

    fn put(self, bytes: &mut Vec<u8>) {
        bytes.extend(self.number.to_le_bytes());
        bytes.push(u8::from(self.further));
        for number in [self.m, self.count, self.w, self.q, self.edition] {
            bytes.extend(number.to_le_bytes());
        }
    }
}

impl Table {
    /// A table that has all its rows.
    pub fn new(number: u16, m: u16, rows: &[Record]) -> Table {
        Table { settings: Settings::new(number, m), count: rows.len() as u16, rows: rows.to_vec() }
    }

    /// The same table with three settings, or more where it has more.
    pub fn with_swaps(mut self, w: u16) -> Table {
        self.settings = self.settings.with_swaps(w);
        self
    }

    /// The same table with four settings, or five where it has five.
    pub fn with_notches(mut self, q: u16) -> Table {
        self.settings = self.settings.with_notches(q);
        self
    }

    /// The same table with five settings.
    pub fn with_edition(mut self, edition: u16) -> Table {
        self.settings = self.settings.with_edition(edition);
        self
    }

    /// The finders use w, q and the edition whatever the settings count says.
    pub fn question(&self) -> Question {
        Question {
            policy: self.settings.policy(),
            m: self.settings.m,
            w: self.settings.w,
            q: self.settings.q,
            edition: self.settings.edition,
            count: usize::from(self.count),
            rows: self.rows.clone(),
        }
    }

    fn put_head(&self, bytes: &mut Vec<u8>) {
        self.settings.put(bytes);
        bytes.extend(self.count.to_le_bytes());
    }
}

impl WideTable {
    /// A table that has all its rows.
    pub fn new(m: u16, rows: &[WideRecord]) -> WideTable {
        WideTable { m, count: rows.len() as u16, rows: rows.to_vec() }
    }

    pub fn question(&self) -> WideQuestion {
        WideQuestion { m: self.m, count: usize::from(self.count), rows: self.rows.clone() }
    }
}

impl Rooms {
    /// Just the entries that the rows present need.
    pub fn just(table: &Table) -> Rooms {
        Rooms { periods: table.rows.len() as u8, processors: table.rows.len() as u8 }
    }
}

impl Writing {
    /// The sheet of the call, with zeros in the places that the stream does not have.
    pub fn sheet(&self) -> Sheet {
        let mut sheet = Sheet::zeros();
        sheet.settings_count = self.settings.count;
        sheet.policy = self.settings.policy();
        sheet.m = self.settings.m;
        sheet.w = self.settings.w;
        sheet.q = self.settings.q;
        sheet.edition = self.settings.edition;
        sheet.task_count = self.task_count;
        sheet.result_count = self.result_count;
        sheet.rows[..self.rows.len()].copy_from_slice(&self.rows);
        sheet.results[..self.results.len()].copy_from_slice(&self.results);
        sheet
    }
}

fn put_rows(bytes: &mut Vec<u8>, rows: &[Record]) {
    for row in rows {
        for number in [row.c, row.tmin, row.tmax, row.e] {
            bytes.extend(number.to_le_bytes());
        }
    }
}

fn put_results(bytes: &mut Vec<u8>, results: &[Granted]) {
    for result in results {
        bytes.extend(result.period.to_le_bytes());
        bytes.extend(result.processor.to_le_bytes());
    }
}

fn put_finder(bytes: &mut Vec<u8>, table: &Table, rooms: Rooms) {
    table.put_head(bytes);
    bytes.extend([rooms.periods, rooms.processors]);
    put_rows(bytes, &table.rows);
}

fn put_wide(bytes: &mut Vec<u8>, table: &WideTable, rooms: Rooms) {
    bytes.extend(table.m.to_le_bytes());
    bytes.extend(table.count.to_le_bytes());
    bytes.extend([rooms.periods, rooms.processors]);
    put_wide_rows(bytes, &table.rows);
}

fn put_wide_rows(bytes: &mut Vec<u8>, rows: &[WideRecord]) {
    for row in rows {
        bytes.extend(row.c.to_le_bytes());
        for number in [row.l, row.tmin, row.tmax, row.e] {
            bytes.extend(number.to_le_bytes());
        }
    }
}

fn put_writing(bytes: &mut Vec<u8>, writing: &Writing) {
    writing.settings.put(bytes);
    for number in [writing.task_count, writing.result_count, writing.room] {
        bytes.extend(number.to_le_bytes());
    }
    put_rows(bytes, &writing.rows);
    put_results(bytes, &writing.results);
}

fn put_proposing(bytes: &mut Vec<u8>, proposing: &Proposing) {
    proposing.table.put_head(bytes);
    bytes.extend(proposing.step.to_le_bytes());
    bytes.extend([proposing.proposal.len() as u8, proposing.room]);
    put_rows(bytes, &proposing.table.rows);
    bytes.extend(proposing.proposal.iter().flat_map(|processor| processor.to_le_bytes()));
}

impl Call {
    pub fn kind(&self) -> u8 {
        match self {
            Call::Plain(..) => 1,
            Call::Quick(..) => 2,
            Call::Margin(..) => 3,
            Call::Read(..) => 4,
            Call::Write(..) => 5,
            Call::ChangeOver { .. } => 6,
            Call::Program(..) => 7,
            Call::Wide(..) => 8,
            Call::Check(..) => 9,
            Call::Clock(..) => 10,
            Call::Import { .. } => 11,
            Call::Export(..) => 12,
            Call::Proposal(..) => 13,
            Call::Keep(..) => 14,
            Call::Relief(..) => 15,
            Call::Record { .. } => 16,
            Call::WideRecord(..) => 17,
        }
    }

    /// The payload: the kind, then fields at fixed places, little-endian.
    pub fn payload(&self) -> Vec<u8> {
        let mut bytes = vec![self.kind()];
        match self {
            Call::Plain(table, rooms) | Call::Quick(table, rooms) => {
                put_finder(&mut bytes, table, *rooms)
            }
            Call::Margin(table, step) => {
                table.put_head(&mut bytes);
                bytes.extend(step.to_le_bytes());
                put_rows(&mut bytes, &table.rows);
            }
            Call::Read(sheet) => bytes.extend(sheet),
            Call::Write(writing) => put_writing(&mut bytes, writing),
            Call::ChangeOver { standing, proposed } => {
                bytes.extend((standing.len() as u16).to_le_bytes());
                bytes.extend(standing);
                bytes.extend(proposed);
            }
            Call::Program(input) => bytes.extend(input),
            Call::Wide(table, rooms) => put_wide(&mut bytes, table, *rooms),
            Call::Check(sheet) => bytes.extend(sheet),
            Call::Clock(run) => run.put(&mut bytes),
            Call::Import { entries, text } => {
                bytes.push(*entries);
                bytes.extend(text);
            }
            Call::Export(exporting) => {
                bytes.extend(exporting.count.to_le_bytes());
                bytes.extend(exporting.room.to_le_bytes());
                put_rows(&mut bytes, &exporting.rows);
            }
            Call::Proposal(proposing) => put_proposing(&mut bytes, proposing),
            Call::Keep(keeping) => keeping.put(&mut bytes),
            Call::Relief(table, room) => {
                table.put_head(&mut bytes);
                bytes.push(*room);
                put_rows(&mut bytes, &table.rows);
            }
            Call::Record { settings, step, record } => {
                settings.put(&mut bytes);
                bytes.extend(step.to_le_bytes());
                put_rows(&mut bytes, &[*record]);
            }
            Call::WideRecord(record) => put_wide_rows(&mut bytes, &[*record]),
        }
        bytes
    }
}

/// A payload or an answer as it stands in a stream: after its length in 2 bytes.
pub fn framed(bytes: &[u8]) -> Vec<u8> {
    let length = u16::try_from(bytes.len()).expect("a payload and an answer fit 2 bytes of length");
    let mut frame = length.to_le_bytes().to_vec();
    frame.extend(bytes);
    frame
}
