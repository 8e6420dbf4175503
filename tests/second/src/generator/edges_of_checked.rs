//! The edges of the checker: filled sheets of our own, with one thing wrong in every place.

use super::bench::{case_l, cases};
use super::sheets::{made_up_results, Raw};
use crate::call::{Call, Table};
use crate::definition::kinds::Record;
use crate::definition::program::program;

pub fn calls() -> Vec<Call> {
    let mut tables: Vec<Table> = cases().into_iter().map(|(_, table)| table).collect();
    tables.extend(case_l());
    let mut calls: Vec<Call> = tables.iter().flat_map(around).collect();
    calls.extend(refused_first());
    calls.extend(overlong());
    calls
}

/// What the program writes for a table: the filled sheet, or the line of its refusal.
fn filled(table: &Table) -> Vec<u8> {
    program(&Raw::honest(table, &[]).bytes())
}

/// The filled sheet of a table, without results, with other counts of them, cut short, longer, and with each byte of its results section
/// changed; and the table with results that nobody granted.
fn around(table: &Table) -> Vec<Call> {
    let whole = filled(table);
    let empty = Raw::honest(table, &[]);
    let mut calls = vec![Call::Check(whole.clone()), Call::Check(empty.bytes())];
    calls.push(Call::Check(Raw::honest(table, &made_up_results(table.rows.len())).bytes()));
    if whole.starts_with(b"refused") {
        return calls;
    }
    let place = empty.bytes().len() - 2;
    for count in [0, 1, table.count + 1, 33, 65535] {
        let mut bytes = whole.clone();
        bytes[place..place + 2].copy_from_slice(&count.to_le_bytes());
        calls.push(Call::Check(bytes));
    }
    calls.push(Call::Check(whole[..whole.len() - 1].to_vec()));
    calls.push(Call::Check([&whole[..], &[0]].concat()));
    // of the longest tables every third byte
    let every = if table.count > 20 { 3 } else { 1 };
    for at in (place..whole.len()).step_by(every) {
        let mut bytes = whole.clone();
        bytes[at] = bytes[at].wrapping_add(1 << (at % 8));
        calls.push(Call::Check(bytes));
    }
    calls
}

/// "Reader and finder refusals come first", also where results are missing or wrong.
fn refused_first() -> Vec<Call> {
    let good = Record::new(6, 10, 20, 1000);
    let tables = [
        Table::new(0, 1, &[good]),
        Table::new(6, 1, &[good]),
        Table::new(3, 2, &[good]),
        Table::new(3, 0, &[good]),
        Table::new(5, 2, &[good]),
        Table::new(1, 0, &[good]),
        Table::new(1, 17, &[good]),
        Table::new(1, 1, &[good, Record::new(11, 10, 20, 0)]),
        Table::new(1, 1, &[Record::new(10, 10, 10, 0), good]),
        Table::new(1, 1, &[good, Record::new(5, 10, 20, 0)]).with_swaps(3),
        Table::new(1, 1, &[Record::new(0, 10, 20, 0), good]).with_swaps(1),
        Table::new(1, 1, &[good]).with_notches(0),
        Table::new(3, 1, &[good]).with_notches(0),
        Table::new(1, 1, &[good, Record::new(6, 10, 21, 0)]).with_notches(5),
        Table::new(1, 1, &[Record::new(6, 11, 20, 0), good]).with_notches(5),
        Table::new(1, 1, &[good]).with_edition(0),
        Table::new(3, 1, &[good]).with_edition(3),
        Table::new(1, 1, &[good, good]).with_edition(3),
        Table::new(0, 0, &[]),
    ];
    let mut calls = Vec::new();
    for table in tables {
        for results in [0, table.rows.len()] {
            calls.push(Call::Check(Raw::honest(&table, &made_up_results(results)).bytes()));
        }
    }
    calls
}

/// Inputs past the longest sheet of two to five settings: a full one that agrees, then zeros.
fn overlong() -> Vec<Call> {
    let rows: Vec<Record> = (1..=32).map(|c| Record::new(c, 500, 1000, 100 * c)).collect();
    let two = Table::new(2, 3, &rows);
    let mut calls = Vec::new();
    let (three, four) = (two.clone().with_swaps(1), two.clone().with_notches(250));
    let five = four.clone().with_edition(2);
    for whole in [two, three, four, five].map(|table| filled(&table)) {
        for more in [0, 1, 2, 3, 4, 5, 6, 7, 80] {
            calls.push(Call::Check([&whole[..], &vec![0; more][..]].concat()));
        }
    }
    calls
}
