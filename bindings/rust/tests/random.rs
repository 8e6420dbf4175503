//! The bench cases and the edges of the second program, and 2,000 random calls of a fresh seed (or of the seed that SEED names), compared with
//! its definitions.

use eelbasket::{
    change_over, check, check_proposal, check_proposal_into, export, filled, import, margin, plain,
    quick, reason, relief, relief_into, share, wide, wide_reason, Clock, Edition, Granted, Index,
    Kept, Looked, Policy, Reason, Refusal, Relief, Sheet, Station, Task, Which, WideReason,
    WideTask,
};
use second::answer::{BUFFER_SENTINEL, PERIOD_SENTINEL, PROCESSOR_SENTINEL, ROW_SENTINEL};
use second::call::{Call, Proposing, Rooms, Settings, Table, WideTable, Writing};
use second::clock_run::{Beginning, Run};
use second::definition as by;
use second::definition::keep::Change;
use second::definition::kinds::Record;
use second::definition::wide::WideRecord;
use second::generator::Calls;
use second::keeping::Keeping;
use std::time::{SystemTime, UNIX_EPOCH};

const RANDOM_CALLS: usize = 2_000;

type Other = by::kinds::Refusal;

/// An answer of the second program, with its refusal as ours.
fn ours<T>(answer: Result<T, Other>) -> Result<T, Refusal> {
    answer.map_err(|refusal| {
        Refusal::of(u32::from(refusal.number), refusal.place as usize).expect("a known number")
    })
}

fn task(record: &Record) -> Task {
    Task::new(record.c, record.tmin, record.tmax, record.e)
}

fn wide_task(record: &WideRecord) -> WideTask {
    let WideRecord { c, l, tmin, tmax, e } = *record;
    WideTask { c, l, tmin, tmax, e }
}

fn granted(granted: &by::kinds::Granted) -> Granted {
    Granted { period: granted.period, processor: granted.processor }
}

/// So many rows: those that the call has, and zeros after them.
fn rows<R, T: Copy + Default>(given: &[R], count: u16, row: impl Fn(&R) -> T) -> Vec<T> {
    let mut all: Vec<T> = given.iter().map(row).collect();
    all.resize(usize::from(count), T::default());
    all
}

fn station(settings: Settings) -> Station {
    let policy = match settings.further {
        true => Policy::Further(settings.number),
        false => Policy::of(settings.number),
    };
    let Settings { m, w, q, edition, .. } = settings;
    Station { policy, m, w, q, edition: Edition::of(edition) }
}

/// Two lent outputs.
fn lent(rooms: Rooms) -> (Vec<u32>, Vec<u16>) {
    (
        vec![PERIOD_SENTINEL; usize::from(rooms.periods)],
        vec![PROCESSOR_SENTINEL; usize::from(rooms.processors)],
    )
}

fn same_plain(table: &Table, rooms: Rooms) {
    let ((mut periods, mut processors), mut due) = (lent(rooms), lent(rooms));
    let tasks = rows(&table.rows, table.count, task);
    let answer = plain(&tasks, station(table.settings), &mut periods, &mut processors);
    assert_eq!(answer, ours(by::finder::plain(&table.question(), &mut due.0, &mut due.1)));
    assert_eq!((periods, processors), due);
}

fn same_quick(table: &Table, rooms: Rooms) {
    let ((mut periods, mut processors), mut due) = (lent(rooms), lent(rooms));
    let tasks = rows(&table.rows, table.count, task);
    let looked = quick(&tasks, station(table.settings), &mut periods, &mut processors);
    let (answer, looks) = by::finder::quick(&table.question(), &mut due.0, &mut due.1);
    assert_eq!(looked, Looked { answer: ours(answer), looks: u32::from(looks) });
    assert_eq!((periods, processors), due);
}

/// What is told and the output; with room for just the tasks, the steps that both tell.
fn same_relief(table: &Table, room: u8) {
    let tasks = rows(&table.rows, table.count, task);
    let mut without = vec![PERIOD_SENTINEL; usize::from(room)];
    let mut other = without.clone();
    let told = relief_into(&tasks, station(table.settings), &mut without);
    let answer = ours(by::relief::relief(&table.question(), &mut other));
    let step = |number: u32| number.checked_sub(1);
    assert_eq!(told, answer.map(|told| (step(told.least), step(told.more))));
    assert_eq!(without, other);
    if tasks.len() == usize::from(room) {
        let steps = |(least, more)| {
            let without = other.into_iter().map(step).collect();
            Relief { least, more, without }
        };
        assert_eq!(relief(&tasks, station(table.settings)), told.map(steps));
    }
}

fn same_record(settings: Settings, step: u32, record: &Record) {
    let Settings { w, q, .. } = settings;
    let number = reason(task(record), w, q).map_or(0, Reason::number);
    assert_eq!(number, u32::from(by::reason::reason(*record, w, q)));
    let parts = share(task(record), station(settings), step).unwrap_or(0);
    assert_eq!(parts, by::share::share(*record, w, q, step));
}

fn same_wide_record(record: &WideRecord) {
    let number = wide_reason(wide_task(record)).map_or(0, WideReason::number);
    assert_eq!(number, u32::from(by::reason::wide_reason(*record)));
}

fn same_margin(table: &Table, step: u32) {
    let tasks = rows(&table.rows, table.count, task);
    let answer = margin(&tasks, station(table.settings), step);
    assert_eq!(answer, ours(by::margin::margin(&table.question(), step)));
}

fn same_proposal(asked: &Proposing) {
    let Proposing { table, step, proposal, room } = asked;
    let (tasks, station) = (rows(&table.rows, table.count, task), station(table.settings));
    let mut loads = vec![PERIOD_SENTINEL; usize::from(*room)];
    let mut due = loads.clone();
    let answer = by::proposal::check_proposal(&table.question(), *step, proposal, &mut due);
    assert_eq!(check_proposal_into(&tasks, station, *step, proposal, &mut loads), ours(answer));
    assert_eq!(loads, due);
    // with an output of just m
    let mut due = vec![0; usize::from(station.m)];
    let answer = by::proposal::check_proposal(&table.question(), *step, proposal, &mut due);
    let answer = ours(answer).map(|()| due);
    assert_eq!(check_proposal(&tasks, station, *step, proposal), answer);
}

/// A sheet of the second program as ours.
fn sheet(sheet: &by::kinds::Sheet) -> Sheet {
    let (policy, edition) = (Policy::of(sheet.policy.number()), Edition::of(sheet.edition));
    Sheet {
        settings_count: usize::from(sheet.settings_count),
        station: Station { policy, m: sheet.m, w: sheet.w, q: sheet.q, edition },
        tasks: sheet.rows[..usize::from(sheet.task_count)].iter().map(task).collect(),
        results: sheet.results[..usize::from(sheet.result_count)].iter().map(granted).collect(),
    }
}

fn same_read(bytes: &[u8]) {
    assert_eq!(Sheet::read(bytes), ours(by::reader::read(bytes)).map(|read| sheet(&read)));
}

fn same_write(writing: &Writing) {
    let asked = Sheet {
        settings_count: usize::from(writing.settings.count),
        station: station(writing.settings),
        tasks: rows(&writing.rows, writing.task_count, task),
        results: rows(&writing.results, writing.result_count, granted),
    };
    let mut out = vec![BUFFER_SENTINEL; usize::from(writing.room)];
    let mut due = out.clone();
    let answer = ours(by::writer::write(&writing.sheet(), &mut due)).map(usize::from);
    assert_eq!(asked.write(&mut out), answer);
    assert_eq!(out, due);
}

fn same_change_over(standing: &[u8], proposed: &[u8]) {
    let part = change_over(standing, proposed);
    let due = by::change_over::change_over(standing, proposed);
    let which = match due.which {
        by::change_over::Which::Standing => Which::Standing,
        by::change_over::Which::Proposed => Which::Proposed,
    };
    assert_eq!((part.which, part.place), (which, due.offset));
    assert_eq!(part.bytes, due.of(standing, proposed));
}

/// What the program would write.
fn same_fill(input: &[u8]) {
    let wrote = match filled(input) {
        Ok(bytes) => bytes,
        Err(refusal) => {
            format!("refused {} at {}\n", refusal.number(), refusal.place()).into_bytes()
        }
    };
    assert_eq!(wrote, by::program::program(input));
}

fn same_wide(table: &WideTable, rooms: Rooms) {
    let ((mut periods, mut cores), mut due) = (lent(rooms), lent(rooms));
    let tasks = rows(&table.rows, table.count, wide_task);
    let answer = wide(&tasks, table.m, &mut periods, &mut cores);
    assert_eq!(answer, ours(by::wide::find_wide(&table.question(), &mut due.0, &mut due.1)));
    assert_eq!((periods, cores), due);
}

/// A kept table of the second program as ours, with what stands past its ends.
fn kept(kept: &by::keep::Kept) -> Kept {
    Kept {
        table: eelbasket::Table {
            rows: kept.rows.each_ref().map(task),
            n: usize::from(kept.count),
        },
        index: Index { entries: kept.index, n: usize::from(kept.entries) },
    }
}

fn same_keep(asked: &Keeping) {
    let (mut ours_now, mut theirs) = (kept(&asked.kept), asked.kept.clone());
    let answer = match asked.change {
        Change::Join(joining) => ours_now.join(asked.w, asked.q, task(&joining)),
        Change::Leave(record) => ours_now.leave(asked.w, asked.q, usize::from(record)),
    };
    assert_eq!(answer, ours(theirs.change(asked.w, asked.q, asked.change)));
    assert_eq!(ours_now, kept(&theirs));
}

fn clock(clock: by::clock::Clock) -> Clock {
    Clock { periods: clock.periods, next: clock.next, n: usize::from(clock.count) }
}

fn same_run(run: &Run) {
    let (begun, due) = match &run.beginning {
        Beginning::Given(given) => (Ok(clock(given.clone())), Ok(given.clone())),
        Beginning::Started { tick, periods } => {
            (Clock::start(periods, *tick), by::clock::start(periods, *tick))
        }
    };
    assert_eq!(begun, ours(due.clone()).map(clock));
    let (Ok(mut ours_now), Ok(mut theirs)) = (begun, due) else {
        return;
    };
    for tick in &run.ticks {
        assert_eq!(ours_now.call(*tick), ours(theirs.call(*tick)));
        assert_eq!(ours_now, clock(theirs.clone()));
    }
}

fn same_import(entries: u8, text: &[u8]) {
    let mut due = vec![ROW_SENTINEL; usize::from(entries)];
    let mut out: Vec<Task> = due.iter().map(task).collect();
    let answer = ours(by::office::import(text, &mut due)).map(usize::from);
    assert_eq!(import(text, &mut out), answer);
    assert_eq!(out, due.iter().map(task).collect::<Vec<_>>());
}

fn same_export(asked: &second::call::Exporting) {
    let mut out = vec![BUFFER_SENTINEL; usize::from(asked.room)];
    let mut due = out.clone();
    let answer = by::office::export(usize::from(asked.count), &asked.rows, &mut due);
    let tasks = rows(&asked.rows, asked.count, task);
    assert_eq!(export(&tasks, &mut out), ours(answer).map(usize::from));
    assert_eq!(out, due);
}

fn same(call: &Call) {
    match call {
        Call::Plain(table, rooms) => same_plain(table, *rooms),
        Call::Quick(table, rooms) => same_quick(table, *rooms),
        Call::Margin(table, step) => same_margin(table, *step),
        Call::Read(bytes) => same_read(bytes),
        Call::Write(writing) => same_write(writing),
        Call::ChangeOver { standing, proposed } => same_change_over(standing, proposed),
        Call::Program(input) => same_fill(input),
        Call::Wide(table, rooms) => same_wide(table, *rooms),
        Call::Check(bytes) => assert_eq!(check(bytes), ours(by::checked::check(bytes))),
        Call::Clock(run) => same_run(run),
        Call::Import { entries, text } => same_import(*entries, text),
        Call::Export(asked) => same_export(asked),
        Call::Proposal(asked) => same_proposal(asked),
        Call::Keep(asked) => same_keep(asked),
        Call::Relief(table, room) => same_relief(table, *room),
        Call::Record { settings, step, record } => same_record(*settings, *step, record),
        Call::WideRecord(record) => same_wide_record(record),
    }
}

#[test]
fn calls_are_answered_as_the_second_program_answers_them() {
    let fresh =
        SystemTime::now().duration_since(UNIX_EPOCH).map_or(1, |time| time.as_nanos() as u64);
    let seed = std::env::var("SEED").ok().and_then(|seed| seed.parse().ok()).unwrap_or(fresh);
    println!("seed {seed}");
    let calls = Calls::of_seed(seed);
    for index in 0..calls.fixed_count() + RANDOM_CALLS {
        let call = calls.call(index);
        if std::panic::catch_unwind(|| same(&call)).is_err() {
            panic!("SEED={seed}, call {index}: {}", second::readable::call_text(&call));
        }
    }
}
