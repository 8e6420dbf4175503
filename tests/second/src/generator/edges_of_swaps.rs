//! The edges of the swap cost: C + 2w around Tmin, C of 0, sums that 32 bits do not hold, and settings counts beside it.

use super::edges_of_finders::ask;
use super::sheets::{sheet_of, SETTINGS_COUNTS};
use super::tables::rigid;
use crate::call::{Call, Rooms, Settings, Table};
use crate::definition::kinds::{Record, SCALE};

const TOP: u32 = Record::GREATEST_PERIOD;

/// None, the least and the greatest.
const SWAPS: [u16; 3] = [0, 1, 65_535];

pub fn calls() -> Vec<Call> {
    let mut calls = records();
    calls.extend(fits());
    calls.extend(counts());
    calls.extend(huge_range());
    calls
}

/// Records whose C + 2w is at a limit, or one off it.
fn records_around(w: u16) -> Vec<Record> {
    let swaps = 2 * u32::from(w);
    let mut records = Vec::new();
    for tmin in [1, 3, 131_071, TOP] {
        // C + 2w is Tmin − 1, Tmin and Tmin + 1; C itself may be 0 there
        for cost in [tmin - 1, tmin, tmin + 1] {
            if let Some(c) = cost.checked_sub(swaps) {
                records.push(Record::new(c, tmin, tmin.saturating_mul(2).min(TOP), 1000));
            }
        }
        records.push(Record::new(0, tmin, TOP, 1000));
    }
    // C + 2w is 2^32 − 1, then 2^32 and so on, of which 32 bits would keep 0, 1 and 7
    for past in [0, 1, 2, 8] {
        if let Some(c) = (u32::MAX - swaps).checked_add(past) {
            records.push(Record::new(c, 10, 20, 1000));
            records.push(Record::new(c, TOP, TOP, 0));
        }
    }
    records.push(Record::new(u32::MAX, 10, 20, 1000));
    records.push(Record::new(u32::MAX, u32::MAX, u32::MAX, 0));
    records
}

/// Each such record alone, and on a sheet as the second of two behind one that is good with every swap cost, under policies by turns.
fn records() -> Vec<Call> {
    let light = Record::new(1, 2_000_000, 4_000_000, 1000);
    let mut calls = Vec::new();
    for w in SWAPS {
        for (index, record) in records_around(w).into_iter().enumerate() {
            let alone = Table::new([1, 2, 4, 5][index % 4], 1, &[record]).with_swaps(w);
            let among = Table::new([1, 2, 4][index % 3], 2, &[light, record]).with_swaps(w);
            calls.extend(ask(&alone, Rooms::just(&alone), 1));
            calls.push(Call::Program(sheet_of(&among)));
        }
    }
    calls
}

/// Rigid tasks a part under, at and over a full processor, of which each pays two swaps.
fn fits() -> Vec<Call> {
    let mut calls = Vec::new();
    for (number, m) in [(1, 1), (2, 1), (4, 1), (5, 1)] {
        for w in [1, 65_535] {
            for off in 0..3 {
                let whole = if number == 5 { 828_427 } else { SCALE };
                let mut rows = [rigid(whole / 2), rigid(whole - whole / 2 + off - 1)];
                rows.iter_mut().for_each(|row| row.c -= 2 * u32::from(w));
                let table = Table::new(number, m, &rows).with_swaps(w);
                calls.extend(ask(&table, Rooms::just(&table), 0));
            }
        }
    }
    calls
}

/// "Finders use w whatever the count says": every settings count in the settings of a call and on a sheet.
fn counts() -> Vec<Call> {
    let rows = [Record::new(6, 10, 20, 1000); 2];
    let mut calls = Vec::new();
    for count in SETTINGS_COUNTS {
        for w in [1, 3] {
            let settings = Settings { count, w, ..Settings::new(1, 1) };
            let table = Table { settings, count: 2, rows: rows.to_vec() };
            calls.extend(ask(&table, Rooms::just(&table), 300));
            let sheet = sheet_of(&table);
            calls.push(Call::Program(sheet.clone()));
            calls.push(Call::Check(sheet.clone()));
            let standing = sheet_of(&Table::new(1, 1, &rows[..1]).with_swaps(1));
            calls.push(Call::ChangeOver { standing, proposed: sheet });
        }
    }
    calls
}

/// Case J's range with swaps: C + 2w is Tmin, and full compression is 999,999 still.
fn huge_range() -> Vec<Call> {
    let table = Table::new(1, 1, &[Record::new(1, 3, TOP, 1); 2]).with_swaps(1);
    ask(&table, Rooms::just(&table), 999_998).to_vec()
}
