//! The edges of the calls on one record: each limit kept and broken beside each other one, and shares at the steps that tell.

use super::edges_of_wide::{records_at_limits, VISION};
use crate::call::{Call, Settings};
use crate::definition::kinds::Record;
use crate::definition::wide::WideRecord;

pub fn calls() -> Vec<Call> {
    let mut calls = limits();
    calls.extend(shares());
    calls.extend(wide_limits());
    calls.extend(records_at_limits().into_iter().map(Call::WideRecord));
    calls
}

fn asked(settings: Settings, step: u32, record: Record) -> Call {
    Call::Record { settings, step, record }
}

/// Every combination of limits that are broken, by one where that can be; of two that cannot be broken at once the later is left as it is.
fn limits() -> Vec<Call> {
    let mut calls = Vec::new();
    for wrong in 0_u32..256 {
        let is_wrong = |limit: u32| wrong & (1 << limit) != 0;
        let (mut record, mut q) = (Record::new(8, 10, 20, 1_000_000), 5);
        if is_wrong(3) {
            record.tmax = 1_000_000_005;
        }
        if is_wrong(2) {
            record.tmin = record.tmax + 5;
        }
        if is_wrong(5) {
            record.tmin += 1;
        }
        if is_wrong(6) {
            record.tmax += 1;
        }
        if is_wrong(1) {
            record.c = record.tmin - 1;
        }
        if is_wrong(0) {
            record.c = 0;
        }
        if is_wrong(4) {
            record.e += 1;
        }
        if is_wrong(7) {
            q = 0;
        }
        let settings = Settings::new(1, 1).with_swaps(1).with_notches(q);
        calls.push(asked(settings, wrong % 7, record));
    }
    // a cost that 32 bits would turn over, the greatest record, and none at all
    for w in [0, 1, 32_767, 32_768, 65_535] {
        for record in [
            Record::new(u32::MAX - 2 * u32::from(w), u32::MAX, u32::MAX, u32::MAX),
            Record::new(u32::MAX, 10, 20, 0),
            Record::new(1_000_000_000, 1_000_000_000, 1_000_000_000, 1_000_000),
            Record::default(),
        ] {
            calls.push(asked(Settings::new(1, 1).with_swaps(w), 0, record));
        }
    }
    calls
}

/// Shares around the saturation step, without elasticity, with swaps; no setting but w and q counts.
fn shares() -> Vec<Call> {
    let mut calls = Vec::new();
    for step in [0, 1, 2, 299, 300, 301, 999_999, u32::MAX] {
        for record in [
            Record::new(6, 10, 20, 1_000),
            Record::new(6, 10, 20, 0),
            Record::new(4, 10, 20, 1_000_000),
            Record::new(1, 1, 1_000_000_000, 1),
            Record::new(1, 3, 7, 11),
        ] {
            for (number, m, w, edition) in [(1, 1, 0, 1), (9, 0, 1, 3), (4, 17, 2, 2)] {
                let settings = Settings::new(number, m).with_swaps(w).with_edition(edition);
                calls.push(asked(settings, step, record));
            }
        }
    }
    calls
}

/// Every combination of limits of several cores that are broken, as far as they can be broken at once.
fn wide_limits() -> Vec<Call> {
    let mut calls = Vec::new();
    for wrong in 0_u32..256 {
        let is_wrong = |limit: u32| wrong & (1 << limit) != 0;
        let mut record = WideRecord { e: 1_000_000, ..VISION };
        if is_wrong(6) {
            record.tmax = 1_000_000_001;
            record.c = 1_000_000_002;
            record.tmin = 999_999_999;
        }
        if is_wrong(5) {
            record.tmin = record.tmax + 1;
        }
        if is_wrong(4) {
            record.c = WideRecord::MOST_TMINS * u64::from(record.tmin) + 1;
        }
        if is_wrong(3) {
            record.c = u64::from(record.tmax);
        }
        if is_wrong(1) {
            record.l = record.tmin;
        }
        if is_wrong(2) {
            record.c = u64::from(record.l);
        }
        if is_wrong(0) {
            record.l = 0;
        }
        if is_wrong(7) {
            record.e += 1;
        }
        calls.push(Call::WideRecord(record));
    }
    calls
}
