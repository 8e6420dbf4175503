//! One random call: its kind, its settings, its table or sheet, its outputs.

use super::clock_runs::random_run;
use super::keepings::random_keeping;
use super::office_texts;
use super::proposals;
use super::sheets::{damaged, overlong, random_results, random_sheet, SETTINGS_COUNTS};
use super::tables::{
    crossing, exact, exact_first_fit, general, huge, pay_swaps, set_notches, spoil, telling_step,
    tied, turning_step, wavering, Aim,
};
use super::wide_tables::random_wide;
use crate::call::{present, Call, Rooms, Settings, Table, Writing};
use crate::definition::kinds::{Record, Sheet, MOST_TASKS};
use crate::definition::program::program;
use crate::definition::share::springs;
use crate::random::Random;

/// One call in that many is a plain finder's scan of nearly a million steps.
const LONG_SCAN_EVERY: usize = 5_000;

/// The numbers of every policy that is served, and of those that have a formula.
const EVERY: [u16; 4] = [1, 2, 4, 5];
const FORMULAS: [u16; 3] = [1, 2, 5];

pub fn random_call(random: &mut Random, index: usize) -> Call {
    if index % LONG_SCAN_EVERY == LONG_SCAN_EVERY / 2 {
        return long_scan(random);
    }
    match random.between(0, 99) {
        0..=15 => plain(random),
        16..=31 => quick(random),
        32..=34 => relief(random),
        35 => record(random),
        36..=45 => margin(random),
        46..=50 => Call::Read(sheet(random)),
        51..=55 => Call::Write(writing(random)),
        56..=61 => Call::ChangeOver { standing: sheet(random), proposed: sheet(random) },
        62..=66 => Call::Program(sheet(random)),
        67..=71 => Call::Check(checked_sheet(random)),
        72..=76 => Call::Clock(random_run(random)),
        77..=80 => several_cores(random),
        81..=83 => office_texts::import(random),
        84..=85 => office_texts::export(random),
        86..=92 => proposal(random),
        _ => Call::Keep(random_keeping(random)),
    }
}

/// "E = 1 with a huge range" for the plain finder.
fn long_scan(random: &mut Random) -> Call {
    let (number, edition) = (random.pick(&FORMULAS), random.pick(&[1, 2]));
    let table = Table::new(number, 1, &huge(random, 3)).with_edition(edition);
    let rooms = Rooms::just(&table);
    Call::Plain(table, rooms)
}

fn plain(random: &mut Random) -> Call {
    let table = table(random, &EVERY);
    let rooms = rooms(random, table.rows.len());
    Call::Plain(table, rooms)
}

fn quick(random: &mut Random) -> Call {
    let table = if random.one_in(12) { huge_table(random) } else { table(random, &FORMULAS) };
    let rooms = rooms(random, table.rows.len());
    Call::Quick(table, rooms)
}

fn several_cores(random: &mut Random) -> Call {
    let table = random_wide(random);
    let rooms = rooms(random, table.rows.len());
    Call::Wide(table, rooms)
}

/// A table that a processor was taken from or a task put among, or as it comes, so that many are refused by 7.
fn relief(random: &mut Random) -> Call {
    let mut table = table(random, &EVERY);
    let rows = &mut table.rows;
    match random.between(0, 5) {
        0..=1 if table.settings.m > 1 => table.settings.m -= 1,
        0..=3 if rows.len() < MOST_TASKS && usize::from(table.count) == rows.len() => {
            let Settings { w, q, .. } = table.settings;
            rows.insert(random.place(rows.len() + 1), added(random, w, q));
            table.count += 1;
        }
        _ => {}
    }
    let room = rooms(random, table.rows.len()).periods;
    Call::Relief(table, room)
}

/// A rigid task on a notch, with any load.
fn added(random: &mut Random, w: u16, q: u16) -> Record {
    let period = u32::from(q.max(1)) * random.small(1, 1_000);
    let cost = random.between(1, u64::from(period)).saturating_sub(2 * u64::from(w));
    Record::new(cost as u32, period, period, 0)
}

/// A record of a table, good or spoilt, at any step; or a task that needs several cores.
fn record(random: &mut Random) -> Call {
    if random.one_in(3) {
        let table = random_wide(random);
        return Call::WideRecord(table.rows.last().copied().unwrap_or_default());
    }
    let mut table = table(random, &EVERY);
    if random.one_in(2) && !table.rows.is_empty() {
        spoil(random, &mut table.rows, table.settings.w);
    }
    let record = table.rows.last().copied().unwrap_or_else(|| any_record(random));
    let step = if random.one_in(4) { 0 } else { random.of_any_size(u32::MAX) };
    Call::Record { settings: table.settings, step, record }
}

/// A proposal for a table of any policy, at which the checker does not look; first-fit tables come often, since theirs nearly fit.
fn proposal(random: &mut Random) -> Call {
    let number = random.pick(&[0, 1, 2, 3, 4, 5, 65535]);
    if random.one_in(4) {
        return Call::Proposal(proposals::filled_up(random, number));
    }
    let numbers: &[u16] = if random.one_in(3) { &EVERY } else { &[4] };
    let mut table = table(random, numbers);
    table.settings.number = number;
    Call::Proposal(proposals::for_table(random, table))
}

fn margin(random: &mut Random) -> Call {
    let table = if random.one_in(6) { huge_table(random) } else { table(random, &FORMULAS) };
    let Settings { w, q, .. } = table.settings;
    let good = table.rows.iter().all(|row| row.is_good(w, q));
    let step = match random.between(0, 7) {
        0 => u32::MAX - random.small(0, 1),
        1 => random.of_any_size(u32::MAX),
        2 => turning_step(random, &table.rows),
        _ if good => telling_step(random, &springs(&table.rows, w)),
        _ => 0,
    };
    Call::Margin(table, step)
}

fn huge_table(random: &mut Random) -> Table {
    let number = random.pick(&FORMULAS);
    let m = processors(random, number);
    let mut table = Table::new(number, m, &huge(random, 5));
    if random.one_in(3) {
        table = table.with_edition(2);
    }
    with_notches(random, table)
}

/// The table, one time in three with notches.
fn with_notches(random: &mut Random, mut table: Table) -> Table {
    if !random.one_in(3) {
        return table;
    }
    let q = set_notches(random, &mut table.rows, table.settings.w);
    table.with_notches(q)
}

/// Mostly few processors; one comes often, and policy 5 seldom with more.
fn processors(random: &mut Random, number: u16) -> u16 {
    if number == 5 && !random.one_in(12) {
        return 1;
    }
    match random.between(0, 9) {
        0 => 16,
        1 => random.small(5, 15) as u16,
        2..=5 => 1,
        _ => random.small(2, 4) as u16,
    }
}

fn most_steps(random: &mut Random) -> u32 {
    random.pick(&[1, 3, 20, 100, 300, 1_000, 4_000])
}

/// A table under one of some policies, seldom with settings, count or records that are refused.
fn table(random: &mut Random, numbers: &[u16]) -> Table {
    let mut table = good_table(random, numbers);
    if random.one_in(2) {
        let w = pay_swaps(random, &mut table.rows);
        table = table.with_swaps(w);
    }
    table = with_notches(random, table);
    if random.one_in(40) {
        table = table.with_notches(0);
    }
    if random.one_in(40) {
        table = table.with_edition(random.pick(&[0, 3, 257, 258, 65535]));
    }
    if random.one_in(10) {
        table.settings.count = random.pick(&SETTINGS_COUNTS);
    }
    table.settings.further = random.one_in(8);
    if random.one_in(15) {
        table.settings.number = random.pick(&[0, 3, 3, 3, 4, 5, 6, 256, 257, 65535]);
    }
    if random.one_in(25) {
        table.settings.m = random.pick(&[0, 17, 18, 256, 65535]);
    }
    if random.one_in(15) && !table.rows.is_empty() {
        spoil(random, &mut table.rows, table.settings.w);
    }
    if random.one_in(40) {
        table.rows.resize(32, Record::new(1, 10, 20, 1000));
        table.count = random.pick(&[32, 33, 34, 40, 64, 65535]);
    }
    table
}

fn good_table(random: &mut Random, numbers: &[u16]) -> Table {
    let number = random.pick(numbers);
    let (m, edition) = (processors(random, number), random.pick(&[1, 1, 2]));
    let aim = Aim { number, m, edition, most_steps: most_steps(random) };
    let table = if number == 4 { first_fit_table(random, aim) } else { formula_table(random, aim) };
    // the first edition is meant also where it is not said
    if edition == 1 && !random.one_in(8) {
        table
    } else {
        table.with_edition(edition)
    }
}

fn formula_table(random: &mut Random, aim: Aim) -> Table {
    let rows = match random.between(0, 9) {
        0..=2 => exact(random, aim),
        3..=4 => crossing(random, aim),
        5..=6 => tied(random, aim),
        _ => general(random, aim),
    };
    Table::new(aim.number, aim.m, &rows)
}

fn first_fit_table(random: &mut Random, aim: Aim) -> Table {
    let (m, rows) = match random.between(0, 9) {
        0..=2 => wavering(random, aim.edition),
        3..=4 => (aim.m, exact_first_fit(random, aim)),
        5 => (aim.m, tied(random, aim)),
        _ => (aim.m, general(random, aim)),
    };
    Table::new(aim.number, m, &rows)
}

/// The entries lent: just enough, more, or too few in one of the two outputs or in both.
fn rooms(random: &mut Random, rows: usize) -> Rooms {
    let mut entries = || {
        let needed = rows as u32;
        match random.between(0, 29) {
            0 => needed.saturating_sub(1) as u8,
            1 => random.small(0, 40) as u8,
            2..=9 => random.small(needed, 40) as u8,
            _ => needed as u8,
        }
    };
    Rooms { periods: entries(), processors: entries() }
}

/// A sheet: mostly honest, else damaged or longer than any sheet may be.
fn sheet(random: &mut Random) -> Vec<u8> {
    let mut table = table(random, &EVERY);
    table.count = table.rows.len() as u16;
    let raw = random_sheet(random, &table);
    match random.between(0, 19) {
        0..=4 => damaged(random, &raw),
        5 => overlong(random, &raw),
        _ => raw.bytes(),
    }
}

/// A sheet for the checker: mostly one that the program filled, as it is or with a byte changed; else any.
fn checked_sheet(random: &mut Random) -> Vec<u8> {
    let mut bytes = program(&sheet(random));
    match random.between(0, 9) {
        0..=1 => return sheet(random),
        2..=6 => {
            let last = bytes.len() - 1;
            let place = if random.one_in(4) { 0 } else { last.saturating_sub(40) };
            let at = random.between(place as u64, last as u64) as usize;
            bytes[at] = bytes[at].wrapping_add(random.small(1, 255) as u8);
        }
        _ => {}
    }
    bytes
}

/// A record that nobody judges: a writer and a reader take any numbers.
fn any_record(random: &mut Random) -> Record {
    let mut number = || random.of_any_size(u32::MAX) - 1;
    Record::new(number(), number(), number(), number())
}

/// A sheet to be written, seldom with wrong counts or a short buffer.
fn writing(random: &mut Random) -> Writing {
    let task_count = if random.one_in(8) { random.small(7, 32) } else { random.small(0, 6) } as u16;
    let result_count = if random.one_in(3) { 0 } else { task_count };
    let counts: &[u16] = if random.one_in(8) { &SETTINGS_COUNTS } else { &Sheet::SETTINGS_COUNTS };
    let settings = Settings {
        number: random.pick(&[0, 1, 2, 3, 4, 5, 6, 258, 65535]),
        further: random.one_in(2),
        m: random.pick(&[0, 1, 2, 16, 17, 65535]),
        count: random.pick(counts),
        w: random.pick(&[0, 1, 2, 255, 256, 65535]),
        q: random.pick(&[0, 1, 2, 255, 256, 65535]),
        edition: random.pick(&[0, 1, 2, 3, 258, 65535]),
    };
    let needed = Sheet::bytes_needed(
        usize::from(settings.count.min(5)),
        usize::from(task_count),
        usize::from(result_count),
    ) as u32;
    let mut writing = Writing {
        settings,
        task_count,
        result_count,
        room: needed as u16,
        rows: (0..task_count).map(|_| any_record(random)).collect(),
        results: random_results(random, usize::from(result_count)),
    };
    writing.room = match random.between(0, 9) {
        0 => random.small(0, needed) as u16,
        1 => (needed - 1) as u16,
        2..=5 => random.small(needed, needed + 80) as u16,
        _ => needed as u16,
    };
    if random.one_in(10) {
        writing.result_count = random.pick(&[1, 2, 5, 31, 32, 33, 40, 65535]);
        writing.results = random_results(random, present(writing.result_count));
    }
    if random.one_in(15) {
        writing.task_count = random.pick(&[32, 33, 40, 256, 65535]);
        writing.rows.resize(32, Record::default());
    }
    writing
}
