//! The edges of the notches: q of 0, periods off the notch, periods that round up to one, the greatest q, and settings counts beside it.

use super::edges_of_finders::ask;
use super::sheets::{sheet_of, SETTINGS_COUNTS};
use crate::call::{Call, Rooms, Settings, Table};
use crate::definition::kinds::Record;

const TOP: u32 = Record::GREATEST_PERIOD;

/// The least, one between, and the greatest.
const NOTCHES: [u16; 3] = [1, 5, 65_535];

pub fn calls() -> Vec<Call> {
    let mut calls = no_notch();
    calls.extend(records());
    calls.extend(rounded());
    calls.extend(first_bad());
    calls.extend(counts());
    calls.extend(huge_range());
    calls
}

/// "q = 0 is refused by 2" in every call, after 1 or 15 and before 3, 4, 5 and 6.
fn no_notch() -> Vec<Call> {
    let rows = [Record::new(6, 10, 20, 1000), Record::new(0, 0, 0, 0)];
    let mut calls = Vec::new();
    for number in [0, 1, 3, 4, 5] {
        for m in [0, 1] {
            for q in [0, 1] {
                let few = Table::new(number, m, &rows).with_notches(q);
                let many = Table { count: 33, rows: vec![rows[0]; 32], ..few.clone() };
                let good = Table::new(number, m, &rows[..1]).with_notches(q);
                calls.extend(ask(&few, Rooms { periods: 1, processors: 2 }, 0));
                calls.extend(ask(&many, Rooms::just(&many), 0));
                calls.extend(ask(&good, Rooms::just(&good), 0));
                calls.push(Call::Program(sheet_of(&good)));
            }
        }
    }
    for settings in [Settings::new(1, 1).with_notches(0), Settings::new(4, 2).with_notches(0)] {
        let empty = Table { settings, count: 0, rows: vec![] };
        calls.extend(ask(&empty, Rooms::just(&empty), 0));
    }
    calls
}

/// Records whose periods are multiples of a notch, or one off it; 0 is a multiple and no good period.
fn records_around(q: u16) -> Vec<Record> {
    let q = u32::from(q);
    let last = TOP / q * q;
    let mut records = vec![Record::new(0, 0, 0, 0), Record::new(1, 0, q, 1000)];
    for (tmin, tmax) in [(q, q), (q, 2 * q), (2 * q, 5 * q), (q, last), (last, last)] {
        for (less, more) in [(0, 0), (0, 1), (1, 0), (1, 1)] {
            records.push(Record::new(1, tmin.saturating_sub(less), tmax + more, 1000));
            records.push(Record::new(1, tmin + less, tmax.saturating_sub(more), 1000));
        }
    }
    // the first multiple past the longest period
    records.push(Record::new(1, q, last + q, 1000));
    records
}

/// Each such record alone, and on a sheet as the second of two behind one that is good, under policies by turns.
fn records() -> Vec<Call> {
    let mut calls = Vec::new();
    for q in NOTCHES {
        let light = Record::new(1, 100 * u32::from(q), 300 * u32::from(q), 1000);
        for (index, record) in records_around(q).into_iter().enumerate() {
            let alone = Table::new([1, 2, 4, 5][index % 4], 1, &[record]).with_notches(q);
            let among = Table::new([1, 2, 4][index % 3], 2, &[light, record]).with_notches(q);
            calls.extend(ask(&alone, Rooms::just(&alone), 1));
            calls.push(Call::Program(sheet_of(&among)));
        }
    }
    calls
}

/// Periods that round up to a notch, among them such as are one themselves: tables that ask for more than there is by ever more, with
/// divisors of 720,720 as the notch.
fn rounded() -> Vec<Call> {
    const WHOLE: u32 = 720_720;
    let mut calls = Vec::new();
    for q in [1, 7, 1_001, 65_520] {
        for (number, m) in [(1, 1), (2, 2), (4, 2), (5, 1)] {
            for asked in [40_040, 65_520, 65_521, 200_000, 333_333] {
                let rows: Vec<Record> = (1..=4)
                    .map(|i| {
                        let c = (WHOLE / 4 * u32::from(m) + asked * i / 4).min(WHOLE) - 2;
                        Record::new(c, WHOLE, 3 * WHOLE, 100 * i)
                    })
                    .collect();
                let table = Table::new(number, m, &rows).with_swaps(1).with_notches(q);
                calls.extend(ask(&table, Rooms::just(&table), asked / 1_000));
            }
        }
    }
    // case B's task with twice its ticks: 24 is the period without notches, and 3, 8 and 40 do not divide 20
    for q in [1, 2, 3, 4, 5, 8, 10, 20, 40] {
        let table = Table::new(1, 1, &[Record::new(12, 20, 40, 1000); 2]).with_notches(q);
        calls.extend(ask(&table, Rooms::just(&table), 100));
        calls.push(Call::Program(sheet_of(&table)));
    }
    calls
}

/// "refusal 6 names the record": the first bad one, whatever is bad about it.
fn first_bad() -> Vec<Call> {
    let good = Record::new(6, 10, 20, 1000);
    let dear = Record { c: 11, ..good };
    let (low, high) = (Record { tmin: 9, ..good }, Record { tmax: 21, ..good });
    let mut calls = Vec::new();
    for rows in [
        [good, low, dear],
        [good, dear, low],
        [good, good, high],
        [high, dear, good],
        [good, high, low],
    ] {
        for q in [1, 5, 10] {
            let table = Table::new(2, 2, &rows).with_notches(q);
            calls.extend(ask(&table, Rooms::just(&table), 0));
            calls.push(Call::Program(sheet_of(&table)));
        }
    }
    calls
}

/// The finders use q whatever the count says: every settings count in the settings of a call and on a sheet.
fn counts() -> Vec<Call> {
    let rows = [Record::new(6, 10, 20, 1000); 2];
    let mut calls = Vec::new();
    for count in SETTINGS_COUNTS {
        for q in [0, 5, 7] {
            let settings = Settings { count, w: 1, q, ..Settings::new(1, 1) };
            let table = Table { settings, count: 2, rows: rows.to_vec() };
            calls.extend(ask(&table, Rooms::just(&table), 300));
            let sheet = sheet_of(&table);
            calls.push(Call::Read(sheet.clone()));
            calls.push(Call::Program(sheet.clone()));
            calls.push(Call::Check(sheet.clone()));
            let standing = sheet_of(&Table::new(1, 1, &rows[..1]).with_notches(10));
            calls.push(Call::ChangeOver { standing, proposed: sheet });
        }
    }
    calls
}

/// Case J's range with notches, the greatest among them: Tmin is a notch, and Tmax the last one.
fn huge_range() -> Vec<Call> {
    let mut calls = Vec::new();
    for q in [2, 65_535] {
        let notch = u32::from(q);
        let row = Record::new(notch, notch, TOP / notch * notch, 1);
        let table = Table::new(1, 1, &[row; 2]).with_notches(q);
        calls.extend(ask(&table, Rooms::just(&table), 500_000));
    }
    calls
}
