//! The edges of the relief: the order of the checks, tables that one processor more or one task fewer lets pass, and those that nothing does.

use super::bench::{case_k_rows, HUGE_RANGE};
use super::tables::rigid;
use crate::call::{Call, Settings, Table};
use crate::definition::kinds::{Record, SCALE};

pub fn calls() -> Vec<Call> {
    let mut calls = order_of_checks();
    calls.extend(lengths());
    calls.extend(processors());
    calls.extend(tasks());
    calls.extend(editions());
    calls
}

/// A call with an output of just as many entries as there are rows.
fn just(table: Table) -> Call {
    let room = table.rows.len() as u8;
    Call::Relief(table, room)
}

/// Every combination of things that are refused, in three tasks on two processors that no step passes.
fn order_of_checks() -> Vec<Call> {
    let mut calls = Vec::new();
    for wrong in 0_u32..128 {
        let is_wrong = |check: u32| wrong & (1 << check) != 0;
        let number = match (is_wrong(0), is_wrong(1)) {
            (true, _) => 9,
            (_, true) => 3,
            _ => [1, 2, 4][wrong as usize % 3],
        };
        let m = if is_wrong(2) { 17 } else { 2 };
        let mut rows = vec![Record::new(10, 10, 10, 0); 3];
        if is_wrong(3) {
            rows[1].tmax = 9;
        }
        let mut table = Table::new(number, m, &rows);
        if is_wrong(4) {
            table.rows.resize(32, rows[0]);
            table.count = 33;
        }
        if is_wrong(5) {
            table = table.with_edition(3);
        }
        table.settings.further = wrong % 2 == 1;
        calls.push(Call::Relief(table, if is_wrong(6) { 2 } else { 40 }));
    }
    calls
}

/// Outputs that are one entry short, just long enough and longer, for no task to 32, of a table that passes and of one that does not.
fn lengths() -> Vec<Call> {
    let mut calls = Vec::new();
    for tasks in [0, 1, 2, 31, 32] {
        for parts in [SCALE / 32, SCALE] {
            let table = Table::new(1, 1, &vec![rigid(parts); tasks]);
            for room in [tasks.saturating_sub(1), tasks, tasks + 1, 40] {
                calls.push(Call::Relief(table.clone(), room as u8));
            }
        }
    }
    calls
}

/// One processor more is just enough, and just not, under each policy; past 16, and under policy 5 past one, there is none.
fn processors() -> Vec<Call> {
    let mut calls = Vec::new();
    for number in [1, 2, 4, 5] {
        for m in [1, 2, 15, 16] {
            for parts in [SCALE / 2, SCALE / 2 + 1, SCALE] {
                for tasks in [usize::from(m) + 1, 2 * usize::from(m) + 1, 2 * usize::from(m) + 2] {
                    let rows = vec![rigid(parts); tasks.min(32)];
                    let mut table = Table::new(number, m, &rows);
                    table.settings.further = tasks % 2 == 0;
                    calls.push(just(table));
                }
            }
        }
    }
    calls
}

/// One task is too much: the first, a middle or the last; none is, or each is; and the step without it is 0, a small one or a great one.
fn tasks() -> Vec<Call> {
    let spring = Record::new(6, 10, 20, 1000);
    let mut calls = Vec::new();
    for number in [1, 2, 4, 5] {
        for place in 0..4 {
            for too_much in [rigid(SCALE), rigid(SCALE / 2), Record::new(9, 10, 11, 70)] {
                let mut rows = vec![spring; 3];
                rows.insert(place, too_much);
                calls.push(just(Table::new(number, 1, &rows)));
            }
        }
    }
    // under policy 4 the steps that pass waver
    for parts in [400_000, 700_000, SCALE] {
        let mut rows = case_k_rows();
        rows.push(rigid(parts));
        calls.push(just(Table::new(4, 3, &rows)));
        rows.rotate_right(1);
        calls.push(just(Table::new(4, 3, &rows)));
    }
    // a scan of nearly a million steps
    calls.push(just(Table::new(1, 1, &[HUGE_RANGE, rigid(SCALE), HUGE_RANGE])));
    calls
}

/// Under edition 2 a task uses less than its share; swaps and notches count as they do in the finders.
fn editions() -> Vec<Call> {
    let mut calls = Vec::new();
    for (edition, w, q) in
        [(1, 0, 1), (2, 0, 1), (1, 1, 1), (2, 1, 1), (1, 0, 5), (2, 0, 5), (2, 1, 5)]
    {
        for number in [1, 2, 4, 5] {
            let rows = [
                Record::new(3, 10, 15, 900),
                Record::new(5, 10, 25, 500),
                Record::new(4, 5, 10, 100),
            ];
            let settings =
                Settings::new(number, 1).with_swaps(w).with_notches(q).with_edition(edition);
            let table = Table { settings, count: 3, rows: rows.to_vec() };
            calls.push(just(table));
        }
    }
    calls
}
