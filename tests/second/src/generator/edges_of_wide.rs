//! The edges of the finder of tasks that need several cores: settings, records, outputs, the widest range.

use crate::call::{Call, Rooms, WideTable};
use crate::definition::wide::WideRecord;

/// Ask 4's job: 5 cores at T = 10, 2 at T = 20.
pub const VISION: WideRecord = WideRecord::new(30, 5, 10, 20, 1000);

/// Full compression 14,999,999.
pub const WIDEST: WideRecord = WideRecord::new(1_000_000_000, 1, 62_500_000, 999_999_999, 1);

pub fn calls() -> Vec<Call> {
    let mut calls = settings();
    calls.extend(records());
    calls.extend(outputs());
    calls.extend(widest());
    calls
}

fn just(m: u16, rows: &[WideRecord]) -> Call {
    let entries = rows.len() as u8;
    Call::Wide(WideTable::new(m, rows), Rooms { periods: entries, processors: entries })
}

/// Every number of processors around the limits and around the cores of one to nine jobs, and counts above 32.
fn settings() -> Vec<Call> {
    let mut calls = Vec::new();
    for m in (0..=18).chain([255, 256, 65535]) {
        for jobs in [0, 1, 2, 8, 9, 32] {
            calls.push(just(m, &vec![VISION; jobs]));
        }
    }
    for count in [33, 34, 40, 65535] {
        for m in [0, 1, 16, 17] {
            let table = WideTable { m, count, rows: vec![VISION; 32] };
            calls.push(Call::Wide(table, Rooms { periods: 40, processors: 40 }));
        }
    }
    calls
}

/// Each limit of a record reached, and passed by one.
pub fn records_at_limits() -> Vec<WideRecord> {
    let most = 1_000_000_000;
    vec![
        WideRecord::new(30, 1, 10, 20, 1000),
        WideRecord::new(30, 0, 10, 20, 1000),
        WideRecord::new(30, 9, 10, 20, 1000),
        WideRecord::new(30, 10, 10, 20, 1000),
        WideRecord::new(160, 5, 10, 20, 1000),
        WideRecord::new(161, 5, 10, 20, 1000),
        WideRecord::new(30, 5, 10, 29, 1000),
        WideRecord::new(30, 5, 10, 30, 1000),
        WideRecord::new(30, 5, 10, 10, 1000),
        WideRecord::new(30, 5, 11, 10, 1000),
        WideRecord::new(30, 5, 10, 20, 0),
        WideRecord::new(30, 5, 10, 20, 1_000_000),
        WideRecord::new(30, 5, 10, 20, 1_000_001),
        WideRecord::new(2_000_000_000, 5, 200_000_000, most, 1000),
        WideRecord::new(2_000_000_000, 5, 200_000_000, most + 1, 1000),
        WideRecord::new(16_000_000_000, most - 1, most, most, 0),
        WideRecord::new(16_000_000_000, 1, most, most, 0),
        WideRecord::new(16_000_000_001, 1, most, most, 0),
        WideRecord::new(u64::MAX, u32::MAX, u32::MAX, u32::MAX, u32::MAX),
        WideRecord::default(),
    ]
}

fn records() -> Vec<Call> {
    let mut calls = Vec::new();
    for record in records_at_limits() {
        for m in [1, 2, 4, 15, 16] {
            calls.push(just(m, &[record]));
            calls.push(just(m, &[VISION, record]));
        }
    }
    calls
}

/// Outputs around the count, one or both too short; short outputs come before a bad record.
fn outputs() -> Vec<Call> {
    let mut calls = Vec::new();
    for (periods, processors) in [(1, 2), (2, 1), (2, 2), (3, 2), (2, 3), (40, 40), (0, 0)] {
        for rows in [[VISION, VISION], [VISION, WideRecord::default()]] {
            for m in [3, 4, 10, 0] {
                calls.push(Call::Wide(WideTable::new(m, &rows), Rooms { periods, processors }));
            }
        }
    }
    calls
}

/// "a plain scan can be 15 million steps"
fn widest() -> Vec<Call> {
    vec![just(2, &[WIDEST]), just(1, &[WIDEST]), just(16, &[WIDEST; 8])]
}
