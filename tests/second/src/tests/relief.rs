//! The relief: what is told of a table, and that a refusal tells nothing.

use super::{refused, step_of, HALF_SPRING};
use crate::answer::answer;
use crate::call::{Call, Table};
use crate::definition::kinds::{Record, Refusal, SCALE};
use crate::definition::relief::{relief, Told};
use crate::generator::bench::case_k_rows;
use crate::generator::tables::rigid;
use crate::generator::Calls;

const KEPT: u32 = 77;

/// What is told, and the whole output, of so many entries.
fn relieved(table: &Table, room: usize) -> (Result<Told, Refusal>, Vec<u32>) {
    let mut without = vec![KEPT; room];
    let answer = relief(&table.question(), &mut without);
    (answer, without)
}

fn told<T>(least: u32, more: u32, without: T) -> (Result<Told, Refusal>, T) {
    (Ok(Told { least, more }), without)
}

#[test]
fn case_i_is_relieved_by_a_processor_or_by_any_task() {
    // each share is 333,334 and the sum 1,000,002
    let table = Table::new(1, 1, &[Record::new(1, 3, 3, 0); 3]);
    assert_eq!(relieved(&table, 5), told(0, 1, vec![1, 1, 1, KEPT, KEPT]));
}

#[test]
fn case_b_with_a_rigid_task_needs_case_b_s_step_without_it() {
    let table = Table::new(1, 1, &[HALF_SPRING, rigid(SCALE), HALF_SPRING]);
    // two processors have room for step 100, on which the two springs take one
    assert_eq!(relieved(&table, 3), told(0, 101, vec![0, 101, 0]));
    assert_eq!(step_of(&Table::new(1, 1, &[HALF_SPRING; 2])), Ok(100));
}

#[test]
fn a_table_that_passes_is_told_too_and_one_that_is_refused_tells_and_writes_nothing() {
    let passing = Table::new(1, 1, &[HALF_SPRING; 2]);
    assert_eq!(relieved(&passing, 3), told(101, 1, vec![1, 1, KEPT]));
    assert_eq!(relieved(&passing, 1), (refused(5, 2), vec![KEPT; 1]));
    let mut full = Table::new(1, 1, &[rigid(SCALE), rigid(SCALE)]);
    assert_eq!(relieved(&full, 1), (refused(5, 2), vec![KEPT; 1]));
    full.rows[1].c = 0;
    assert_eq!(relieved(&full, 2), (refused(6, 1), vec![KEPT; 2]));
    full.settings.m = 0;
    assert_eq!(relieved(&full, 2), (refused(2, 0), vec![KEPT; 2]));
    full.settings.number = 3;
    assert_eq!(relieved(&full, 2), (refused(15, 0), vec![KEPT; 2]));
    full.settings.number = 6;
    assert_eq!(relieved(&full, 2), (refused(1, 0), vec![KEPT; 2]));
}

#[test]
fn there_is_no_processor_past_16_and_none_past_one_under_policy_5() {
    let tasks = vec![rigid(SCALE); 17];
    assert_eq!(relieved(&Table::new(4, 16, &tasks), 17), told(0, 0, vec![1; 17]));
    assert_eq!(relieved(&Table::new(4, 15, &tasks[1..]), 16), told(0, 1, vec![1; 16]));
    let two = [rigid(SCALE); 2];
    assert_eq!(relieved(&Table::new(5, 1, &two), 2), told(0, 0, vec![1; 2]));
}

#[test]
fn case_k_with_a_full_task_is_relieved_by_a_processor_more_or_without_that_task() {
    let mut rows = case_k_rows();
    rows.push(rigid(SCALE));
    let (answer, without) = relieved(&Table::new(4, 3, &rows), 8);
    assert_eq!(answer, Ok(Told { least: 0, more: 6 }));
    assert_eq!(without[7], 6);
}

#[test]
fn a_relief_and_its_answer_byte_by_byte() {
    let table = Table::new(1, 1, &[rigid(SCALE), Record { c: 4, ..HALF_SPRING }]);
    let call = Call::Relief(table, 3);
    let first = [0x40, 0x42, 0x0F, 0, 0x40, 0x42, 0x0F, 0, 0x40, 0x42, 0x0F, 0, 0, 0, 0, 0];
    let last = [4, 0, 0, 0, 10, 0, 0, 0, 20, 0, 0, 0, 0xE8, 3, 0, 0];
    let head = [15, 1, 0, 0, 1, 0, 2, 0, 0, 0, 1, 0, 1, 0, 2, 0, 3];
    assert_eq!(call.payload(), [&head[..], &first, &last].concat());
    let told = [0, 0, 0, 0, 0, 0, 0, 0, 0, 1, 0, 0, 0, 1, 0, 0, 0, 1, 0, 0, 0];
    assert_eq!(answer(&call), [&told[..], &[0xA5; 4]].concat());
}

#[test]
fn many_random_calls_tell_a_relief_of_each_kind() {
    let calls = Calls::of_seed(1);
    let from = calls.fixed_count();
    let (mut more, mut none, mut mixed) = (0, 0, 0);
    for call in (from..from + 10_000).map(|index| calls.call(index)) {
        let Call::Relief(table, room) = call else { continue };
        let (Ok(Told { least: 0, more: processor }), without) = relieved(&table, usize::from(room))
        else {
            continue;
        };
        let told = &without[..table.rows.len()];
        more += u32::from(processor > 1);
        none += u32::from(processor == 0 && told.iter().all(|number| *number == 0));
        mixed += u32::from(told.contains(&0) && told.iter().any(|number| *number > 1));
    }
    assert!(more > 5 && none > 5 && mixed > 5, "{more} {none} {mixed}");
}
