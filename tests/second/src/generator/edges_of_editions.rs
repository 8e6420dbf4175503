//! The edges of the editions: numbers that are none, what each edition tests, every small range that is halved, and settings counts beside.

use super::bench::{case_k_rows, HUGE_RANGE};
use super::edges_of_finders::ask;
use super::sheets::{sheet_of, SETTINGS_COUNTS};
use super::tables::rigid;
use crate::call::{Call, Proposing, Rooms, Settings, Table};
use crate::definition::kinds::{Record, SCALE};

const TASK: Record = Record::new(6, 10, 20, 1000);

pub fn calls() -> Vec<Call> {
    let mut calls = no_such_edition();
    calls.extend(counts());
    calls.extend(both());
    calls.extend(halvings());
    calls.extend(proposals());
    calls.extend(huge_ranges());
    calls
}

/// The proposal of one processor for all tasks.
fn proposed(table: &Table, step: u32, processor: u16) -> Call {
    let (proposal, room) = (vec![processor; table.rows.len()], table.settings.m.min(40) as u8);
    Call::Proposal(Proposing { table: table.clone(), step, proposal, room })
}

/// "another number is refused by 2", after 1 or 15 and before 3, 4, 5 and 6, in the finders, the margin and the checker of proposals.
fn no_such_edition() -> Vec<Call> {
    let mut calls = Vec::new();
    for edition in [0, 2, 3, 257, 65535] {
        for (number, m, q) in [(1, 1, 1), (3, 1, 1), (4, 2, 1), (5, 2, 1), (1, 1, 0)] {
            let rows = [TASK, Record::new(0, 0, 0, 0)];
            let few = Table::new(number, m, &rows).with_notches(q).with_edition(edition);
            let many = Table { count: 33, rows: vec![TASK; 32], ..few.clone() };
            let good = Table { count: 1, rows: vec![TASK], ..few.clone() };
            calls.extend(ask(&few, Rooms { periods: 1, processors: 2 }, 0));
            calls.extend(ask(&many, Rooms::just(&many), 0));
            calls.extend(ask(&good, Rooms::just(&good), 0));
            calls.extend([&few, &many, &good].map(|table| proposed(table, 0, 1)));
            calls.push(Call::Program(sheet_of(&good)));
        }
        let empty = Table::new(1, 1, &[]).with_edition(edition);
        calls.extend(ask(&empty, Rooms::just(&empty), 0));
        calls.push(proposed(&empty, 0, 1));
    }
    calls
}

/// The finders use the edition whatever the count says: every settings count in the settings of a call and on a sheet.
fn counts() -> Vec<Call> {
    let mut calls = Vec::new();
    for count in SETTINGS_COUNTS {
        for edition in [0, 2, 3] {
            let settings = Settings { count, edition, ..Settings::new(1, 1) };
            let table = Table { settings, count: 2, rows: vec![TASK; 2] };
            calls.extend(ask(&table, Rooms::just(&table), 55));
            let sheet = sheet_of(&table);
            calls.push(Call::Read(sheet.clone()));
            calls.push(Call::Program(sheet.clone()));
            calls.push(Call::Check(sheet.clone()));
            let standing = sheet_of(&Table::new(1, 1, &[TASK]).with_edition(2));
            calls.push(Call::ChangeOver { standing, proposed: sheet });
        }
    }
    calls
}

/// Tables on which the editions differ, in both: periods of many ticks and of few, notches and swaps, under every policy.
fn both() -> Vec<Call> {
    let mut tables = Vec::new();
    for (number, m) in [(1, 1), (1, 2), (2, 2), (2, 3), (4, 2), (4, 3), (5, 1)] {
        for rows in [
            vec![TASK; 2 + usize::from(m)],
            vec![Record::new(6, 10, 11, 1000), Record::new(6, 10, 30, 1000), TASK],
            vec![Record::new(7, 10, 30, 777), Record::new(30, 40, 1000, 40), rigid(SCALE / 3)],
            case_k_rows(),
        ] {
            tables.push(Table::new(number, m, &rows));
            tables.push(Table::new(number, m, &rows).with_swaps(1).with_notches(5));
        }
    }
    let mut calls = Vec::new();
    for table in tables {
        for edition in [1, 2] {
            let table = table.clone().with_edition(edition);
            calls.extend(ask(&table, Rooms::just(&table), 7));
        }
        let table = table.with_edition(2);
        calls.extend([1, 60].map(|step| Call::Margin(table.clone(), step)));
        calls.push(Call::Program(sheet_of(&table)));
    }
    calls
}

/// A task of 1,000,000 ticks or more, whose charge falls as its share does, a part at a step, and whose full compression is `last`.
fn by_parts(last: u32) -> Record {
    let half = SCALE / 2;
    let tmax = (half * SCALE).div_ceil(half - u64::from(last));
    Record::new(half as u32, SCALE as u32, tmax as u32, 1)
}

/// Full compressions of 0 to 9 and around powers of two, with the first step that passes at every place of the shorter ranges, at both ends
/// of the longer ones, and nowhere: beside such a task stands one that leaves room for its share at that step.
fn halvings() -> Vec<Call> {
    let mut calls = Vec::new();
    for last in [0, 1, 2, 3, 4, 5, 6, 7, 8, 9, 62, 63, 64, 1_022, 1_023, 1_024] {
        let firsts: Vec<u32> = match last {
            0..=9 => (0..=last + 1).collect(),
            _ => vec![0, 1, 2, last / 2, last / 2 + 1, last - 1, last, last + 1],
        };
        for first in firsts {
            let room = SCALE / 2 + u64::from(first);
            let table = Table::new(1, 1, &[by_parts(last), rigid(room)]).with_edition(2);
            calls.push(Call::Quick(table.clone(), Rooms::just(&table)));
            calls.push(Call::Plain(table.clone(), Rooms::just(&table)));
        }
    }
    calls
}

/// Loads by charge: case B on one processor around the steps at which each edition lets it pass, with notches and swaps too.
fn proposals() -> Vec<Call> {
    let mut calls = Vec::new();
    for edition in [1, 2] {
        for (w, q) in [(0, 1), (1, 1), (0, 5), (1, 5)] {
            let table = Table::new(9, 2, &[TASK; 2]).with_swaps(w).with_notches(q);
            let table = table.with_edition(edition);
            for step in [0, 1, 54, 55, 99, 100, 233, 234, 299, 300, u32::MAX] {
                calls.push(proposed(&table, step, 2));
            }
        }
        let case_k = Table::new(4, 3, &case_k_rows()).with_edition(edition);
        for step in 0..=16 {
            let proposal = vec![1, 2, 2, 3, 1, 2, 3];
            let table = case_k.clone();
            calls.push(Call::Proposal(Proposing { table, step, proposal, room: 3 }));
        }
    }
    calls
}

/// The most looks: full compression 999,999, with an answer at either end, and with none.
fn huge_ranges() -> Vec<Call> {
    let full = Table::new(1, 1, &[rigid(SCALE), rigid(1), HUGE_RANGE]);
    let last = Table::new(1, 1, &[HUGE_RANGE, rigid(SCALE - 1)]);
    let none = Table::new(2, 2, &[HUGE_RANGE, rigid(SCALE), rigid(SCALE)]);
    let mut calls = Vec::new();
    for table in [full, last, none] {
        let table = table.with_edition(2);
        calls.extend(ask(&table, Rooms::just(&table), 999_999));
        calls.push(Call::Margin(table, 999_998));
    }
    for (number, m, count) in [(1, 1, 32), (1, 16, 32), (2, 16, 32), (5, 1, 2), (5, 1, 32)] {
        let table = Table::new(number, m, &vec![HUGE_RANGE; count]).with_edition(2);
        calls.extend(ask(&table, Rooms::just(&table), 1));
    }
    calls
}
