//! The answer that document 01 gives to a call, in the bytes of the answer stream.

use crate::call::{Call, Exporting, Proposing, Rooms, Settings, Table, WideTable, Writing};
use crate::definition::change_over::{change_over, Which};
use crate::definition::checked::{check, told};
use crate::definition::finder::{plain, quick};
use crate::definition::kinds::{Record, Refusal, Sheet};
use crate::definition::margin::margin;
use crate::definition::office::{export, import};
use crate::definition::program::program;
use crate::definition::proposal::check_proposal;
use crate::definition::reader::read;
use crate::definition::reason::{reason, wide_reason};
use crate::definition::relief::relief;
use crate::definition::share::share;
use crate::definition::wide::{find_wide, WideRecord};
use crate::definition::writer::write;

/// What lent outputs hold before a call.
pub const PERIOD_SENTINEL: u32 = 0xA5A5_A5A5;
pub const PROCESSOR_SENTINEL: u16 = 0x5A5A;
pub const BUFFER_SENTINEL: u8 = 0xEE;
pub const ROW_SENTINEL: Record =
    Record::new(PERIOD_SENTINEL, PERIOD_SENTINEL, PERIOD_SENTINEL, PERIOD_SENTINEL);

/// The number (0 when accepted) and the place (0 when accepted).
pub fn put_verdict<T>(bytes: &mut Vec<u8>, answer: &Result<T, Refusal>) {
    let refusal = answer.as_ref().err().copied().unwrap_or(Refusal { number: 0, place: 0 });
    bytes.push(refusal.number);
    bytes.extend(refusal.place.to_le_bytes());
}

fn put_outputs(bytes: &mut Vec<u8>, periods: &[u32], processors: &[u16]) {
    bytes.extend(periods.iter().flat_map(|period| period.to_le_bytes()));
    bytes.extend(processors.iter().flat_map(|processor| processor.to_le_bytes()));
}

/// The lent outputs of a finder before the call.
fn lent_outputs(rooms: Rooms) -> (Vec<u32>, Vec<u16>) {
    (
        vec![PERIOD_SENTINEL; usize::from(rooms.periods)],
        vec![PROCESSOR_SENTINEL; usize::from(rooms.processors)],
    )
}

fn plain_answer(table: &Table, rooms: Rooms) -> Vec<u8> {
    let (mut periods, mut processors) = lent_outputs(rooms);
    let answer = plain(&table.question(), &mut periods, &mut processors);
    let mut bytes = Vec::new();
    put_verdict(&mut bytes, &answer);
    // "A refusal's step, margin or written length is 0."
    bytes.extend(answer.unwrap_or(0).to_le_bytes());
    put_outputs(&mut bytes, &periods, &processors);
    bytes
}

fn quick_answer(table: &Table, rooms: Rooms) -> Vec<u8> {
    let (mut periods, mut processors) = lent_outputs(rooms);
    let (answer, looks) = quick(&table.question(), &mut periods, &mut processors);
    let mut bytes = Vec::new();
    put_verdict(&mut bytes, &answer);
    bytes.extend(answer.unwrap_or(0).to_le_bytes());
    bytes.extend(looks.to_le_bytes());
    put_outputs(&mut bytes, &periods, &processors);
    bytes
}

fn margin_answer(table: &Table, step: u32) -> Vec<u8> {
    let answer = margin(&table.question(), step);
    let mut bytes = Vec::new();
    put_verdict(&mut bytes, &answer);
    bytes.extend(answer.unwrap_or(0).to_le_bytes());
    bytes
}

fn put_rows(bytes: &mut Vec<u8>, rows: &[Record]) {
    for row in rows {
        for number in [row.c, row.tmin, row.tmax, row.e] {
            bytes.extend(number.to_le_bytes());
        }
    }
}

fn put_sheet(bytes: &mut Vec<u8>, sheet: &Sheet) {
    let Sheet { m, settings_count, w, q, edition, task_count, result_count, .. } = *sheet;
    for number in [sheet.policy.number(), m, settings_count, w, q, edition] {
        bytes.extend(number.to_le_bytes());
    }
    for count in [task_count, result_count] {
        bytes.extend(count.to_le_bytes());
    }
    put_rows(bytes, &sheet.rows);
    for result in &sheet.results {
        bytes.extend(result.period.to_le_bytes());
        bytes.extend(result.processor.to_le_bytes());
    }
}

fn read_answer(sheet: &[u8]) -> Vec<u8> {
    let answer = read(sheet);
    let mut bytes = Vec::new();
    put_verdict(&mut bytes, &answer);
    // "A refused reading hands back a sheet of zeros."
    put_sheet(&mut bytes, &answer.unwrap_or(Sheet::zeros()));
    bytes
}

fn write_answer(writing: &Writing) -> Vec<u8> {
    let mut buffer = vec![BUFFER_SENTINEL; usize::from(writing.room)];
    let answer = write(&writing.sheet(), &mut buffer);
    let mut bytes = Vec::new();
    put_verdict(&mut bytes, &answer);
    bytes.extend(answer.unwrap_or(0).to_le_bytes());
    bytes.extend(buffer);
    bytes
}

fn change_over_answer(standing: &[u8], proposed: &[u8]) -> Vec<u8> {
    let part = change_over(standing, proposed);
    let mut bytes = vec![match part.which {
        Which::Standing => 0,
        Which::Proposed => 1,
    }];
    bytes.extend((part.offset as u16).to_le_bytes());
    bytes.extend((part.length as u16).to_le_bytes());
    bytes.extend(part.of(standing, proposed));
    bytes
}

fn wide_answer(table: &WideTable, rooms: Rooms) -> Vec<u8> {
    let (mut periods, mut cores) = lent_outputs(rooms);
    let answer = find_wide(&table.question(), &mut periods, &mut cores);
    let mut bytes = Vec::new();
    put_verdict(&mut bytes, &answer);
    bytes.extend(answer.unwrap_or(0).to_le_bytes());
    put_outputs(&mut bytes, &periods, &cores);
    bytes
}

fn check_answer(sheet: &[u8]) -> Vec<u8> {
    let mut bytes = Vec::new();
    put_verdict(&mut bytes, &check(sheet));
    bytes.extend(told(sheet));
    bytes
}

fn import_answer(entries: u8, text: &[u8]) -> Vec<u8> {
    let mut output = vec![ROW_SENTINEL; usize::from(entries)];
    let answer = import(text, &mut output);
    let mut bytes = Vec::new();
    put_verdict(&mut bytes, &answer);
    bytes.extend(answer.unwrap_or(0).to_le_bytes());
    put_rows(&mut bytes, &output);
    bytes
}

fn export_answer(exporting: &Exporting) -> Vec<u8> {
    let mut buffer = vec![BUFFER_SENTINEL; usize::from(exporting.room)];
    let answer = export(usize::from(exporting.count), &exporting.rows, &mut buffer);
    let mut bytes = Vec::new();
    put_verdict(&mut bytes, &answer);
    bytes.extend(answer.unwrap_or(0).to_le_bytes());
    bytes.extend(buffer);
    bytes
}

fn proposal_answer(proposing: &Proposing) -> Vec<u8> {
    let Proposing { table, step, proposal, room } = proposing;
    let mut loads = vec![PERIOD_SENTINEL; usize::from(*room)];
    let answer = check_proposal(&table.question(), *step, proposal, &mut loads);
    let mut bytes = Vec::new();
    put_verdict(&mut bytes, &answer);
    put_outputs(&mut bytes, &loads, &[]);
    bytes
}

fn relief_answer(table: &Table, room: u8) -> Vec<u8> {
    let mut without = vec![PERIOD_SENTINEL; usize::from(room)];
    let answer = relief(&table.question(), &mut without);
    let mut bytes = Vec::new();
    put_verdict(&mut bytes, &answer);
    let told = answer.unwrap_or_default();
    bytes.extend([told.least, told.more].into_iter().flat_map(u32::to_le_bytes));
    put_outputs(&mut bytes, &without, &[]);
    bytes
}

fn record_answer(settings: Settings, step: u32, record: Record) -> Vec<u8> {
    let Settings { w, q, .. } = settings;
    let mut bytes = vec![reason(record, w, q)];
    bytes.extend(share(record, w, q, step).to_le_bytes());
    bytes
}

fn wide_record_answer(record: WideRecord) -> Vec<u8> {
    vec![wide_reason(record)]
}

/// The answer's bytes, without their length.
pub fn answer(call: &Call) -> Vec<u8> {
    match call {
        Call::Plain(table, rooms) => plain_answer(table, *rooms),
        Call::Quick(table, rooms) => quick_answer(table, *rooms),
        Call::Margin(table, step) => margin_answer(table, *step),
        Call::Read(sheet) => read_answer(sheet),
        Call::Write(writing) => write_answer(writing),
        Call::ChangeOver { standing, proposed } => change_over_answer(standing, proposed),
        Call::Program(input) => program(input),
        Call::Wide(table, rooms) => wide_answer(table, *rooms),
        Call::Check(sheet) => check_answer(sheet),
        Call::Clock(run) => run.answer(),
        Call::Import { entries, text } => import_answer(*entries, text),
        Call::Export(exporting) => export_answer(exporting),
        Call::Proposal(proposing) => proposal_answer(proposing),
        Call::Keep(keeping) => keeping.answer(),
        Call::Relief(table, room) => relief_answer(table, *room),
        Call::Record { settings, step, record } => record_answer(*settings, *step, *record),
        Call::WideRecord(record) => wide_record_answer(*record),
    }
}
