//! The calls on one record: the reason for which it is not good, and its share.

use super::HALF_SPRING;
use crate::answer::answer;
use crate::call::{Call, Settings};
use crate::definition::kinds::Record;
use crate::definition::reason::{reason, wide_reason};
use crate::definition::share::share;
use crate::definition::wide::WideRecord;
use crate::generator::edges_of_wide::VISION;

#[test]
fn each_limit_of_a_record_has_its_number() {
    let record = HALF_SPRING;
    assert_eq!(reason(record, 2, 10), 0);
    assert_eq!(reason(Record { c: 0, ..record }, 0, 1), 1);
    assert_eq!(reason(record, 3, 1), 2);
    assert_eq!(reason(Record { tmax: 9, ..record }, 0, 1), 3);
    assert_eq!(reason(Record { tmax: 1_000_000_001, ..record }, 0, 1), 4);
    assert_eq!(reason(Record { e: 1_000_001, ..record }, 0, 1), 5);
    assert_eq!(reason(record, 0, 3), 6);
    assert_eq!(reason(Record { tmin: 8, ..record }, 0, 8), 7);
    assert_eq!(reason(record, 0, 0), 8);
    // the earlier first
    assert_eq!(reason(Record::new(0, 0, 0, u32::MAX), 0, 0), 1);
    assert_eq!(reason(Record::new(1, 2, 3, u32::MAX), 0, 0), 5);
}

#[test]
fn each_limit_of_several_cores_has_its_number() {
    assert_eq!(wide_reason(VISION), 0);
    assert_eq!(wide_reason(WideRecord { l: 0, ..VISION }), 1);
    assert_eq!(wide_reason(WideRecord { l: 10, ..VISION }), 2);
    assert_eq!(wide_reason(WideRecord { c: 5, ..VISION }), 3);
    assert_eq!(wide_reason(WideRecord { c: 20, ..VISION }), 4);
    assert_eq!(wide_reason(WideRecord { c: 161, ..VISION }), 5);
    assert_eq!(wide_reason(WideRecord { tmax: 9, ..VISION }), 6);
    let long = WideRecord::new(1_000_000_002, 5, 999_999_999, 1_000_000_001, 0);
    assert_eq!(wide_reason(long), 7);
    assert_eq!(wide_reason(WideRecord { e: 1_000_001, ..VISION }), 8);
}

#[test]
fn a_share_falls_to_the_least_and_a_bad_record_has_none() {
    assert_eq!(share(HALF_SPRING, 0, 1, 0), 600_000);
    assert_eq!(share(HALF_SPRING, 1, 1, 0), 800_000);
    assert_eq!(share(HALF_SPRING, 0, 1, 100), 500_000);
    assert_eq!(share(HALF_SPRING, 0, 1, u32::MAX), 300_000);
    assert_eq!(share(HALF_SPRING, 3, 1, 0), 0);
    assert_eq!(share(HALF_SPRING, 0, 0, 0), 0);
}

#[test]
fn calls_on_one_record_and_their_answers_byte_by_byte() {
    let settings = Settings::new(1, 1).with_swaps(1);
    let call = Call::Record { settings, step: 100, record: HALF_SPRING };
    let row = [6, 0, 0, 0, 10, 0, 0, 0, 20, 0, 0, 0, 0xE8, 3, 0, 0];
    let head = [16, 1, 0, 0, 1, 0, 3, 0, 1, 0, 1, 0, 1, 0, 100, 0, 0, 0];
    assert_eq!(call.payload(), [&head[..], &row].concat());
    assert_eq!(answer(&call), [0, 0x60, 0xAE, 0x0A, 0]);
    let call = Call::WideRecord(WideRecord { e: 1_000_001, ..VISION });
    let row = [30, 0, 0, 0, 0, 0, 0, 0, 5, 0, 0, 0, 10, 0, 0, 0, 20, 0, 0, 0, 0x41, 0x42, 0x0F, 0];
    assert_eq!(call.payload(), [&[17][..], &row].concat());
    assert_eq!(answer(&call), [8]);
}
