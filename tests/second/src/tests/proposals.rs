//! Ask 7's checker: its order, its places, its loads, and what it says of first fit.

use super::{refused, HALF_SPRING};
use crate::answer::answer;
use crate::call::{Call, Proposing, Table};
use crate::definition::finder::shares_at;
use crate::definition::kinds::{Record, Refusal, SCALE};
use crate::definition::load::Loads;
use crate::definition::policy::first_fit;
use crate::definition::proposal::check_proposal;
use crate::definition::share::springs;
use crate::generator::bench::case_k_rows;
use crate::generator::proposals::best_fit;
use crate::generator::tables::rigid;
use crate::generator::Calls;
use std::collections::BTreeMap;

const KEPT: u32 = 77;

/// The checker's verdict and the whole output, of so many entries.
fn checked(
    table: &Table,
    step: u32,
    proposal: &[u16],
    room: usize,
) -> (Result<(), Refusal>, Vec<u32>) {
    let mut output = vec![KEPT; room];
    let verdict = check_proposal(&table.question(), step, proposal, &mut output);
    (verdict, output)
}

fn case_k() -> Table {
    Table::new(4, 3, &case_k_rows())
}

#[test]
fn case_k_as_first_fit_placed_it_and_beyond() {
    let placed = [1, 2, 2, 3, 1, 2, 3];
    // at step 4 the first processor has 710,000 + 300,000
    assert_eq!(checked(&case_k(), 4, &placed, 3), (refused(14, 1), vec![KEPT; 3]));
    assert_eq!(checked(&case_k(), 5, &placed, 3), (Ok(()), vec![SCALE as u32; 3]));
    // first fit fails from step 7 on, and the same packing does not
    let last = vec![900_000, 1_000_000, 1_000_000, KEPT];
    for step in [15, 16, u32::MAX] {
        assert_eq!(checked(&case_k(), step, &placed, 4), (Ok(()), last.clone()));
    }
}

#[test]
fn the_policy_is_not_looked_at() {
    for number in [0, 1, 2, 3, 4, 5, 6, 65535] {
        for further in [false, true] {
            let mut table = Table::new(number, 2, &[HALF_SPRING; 2]);
            table.settings.further = further;
            assert_eq!(checked(&table, 0, &[2, 1], 2), (Ok(()), vec![600_000; 2]));
        }
    }
}

#[test]
fn the_checks_come_in_this_order() {
    let bad = Record::new(11, 10, 20, 0);
    let mut table = Table::new(4, 17, &[HALF_SPRING, HALF_SPRING, bad]);
    let at = |table: &Table, proposal: &[u16], room| checked(table, 0, proposal, room).0;
    table.count = 33;
    assert_eq!(at(&table, &[], 0), refused(2, 0));
    table.settings.m = 0;
    assert_eq!(at(&table, &[], 0), refused(2, 0));
    table.settings.m = 2;
    table.settings.q = 0;
    assert_eq!(at(&table, &[], 0), refused(2, 0));
    table.settings.q = 1;
    assert_eq!(at(&table, &[], 0), refused(3, 33));
    table.count = 3;
    assert_eq!(at(&table, &[1, 1], 1), refused(5, 3));
    assert_eq!(at(&table, &[1, 1, 3], 1), refused(5, 2));
    assert_eq!(at(&table, &[1, 1, 3], 2), refused(6, 2));
    table.rows[2] = HALF_SPRING;
    assert_eq!(at(&table, &[1, 1, 3], 2), refused(13, 2));
    assert_eq!(at(&table, &[0, 1, 3], 2), refused(13, 0));
    assert_eq!(at(&table, &[1, 1, 2], 2), refused(14, 1));
    assert_eq!(at(&table, &[2, 1, 2], 2), refused(14, 2));
    // what follows the tasks is not looked at
    table.settings.m = 3;
    assert_eq!(at(&table, &[1, 2, 3, 0, 65535], 3), Ok(()));
}

#[test]
fn the_lowest_overfull_processor_is_named() {
    let table = Table::new(4, 3, &[rigid(SCALE), rigid(1), rigid(SCALE), rigid(1), rigid(SCALE)]);
    assert_eq!(checked(&table, 0, &[3, 3, 2, 2, 1], 3).0, refused(14, 2));
    assert_eq!(checked(&table, 0, &[2, 3, 3, 1, 1], 3).0, refused(14, 1));
}

#[test]
fn with_no_tasks_m_zeros_are_written() {
    for m in [1, 2, 16] {
        let mut output = vec![0; usize::from(m)];
        output.extend([KEPT; 2]);
        let table = Table::new(9, m, &[]);
        assert_eq!(checked(&table, u32::MAX, &[], output.len()), (Ok(()), output));
    }
}

#[test]
fn a_load_of_just_s_is_accepted_and_one_part_more_is_not() {
    for (last, verdict) in [(399_999, Ok(())), (400_000, Ok(())), (400_001, refused(14, 2))] {
        let table = Table::new(4, 2, &[rigid(600_000), rigid(last)]);
        assert_eq!(checked(&table, 0, &[2, 2], 2).0, verdict);
    }
}

#[test]
fn a_packing_that_first_fit_does_not_find() {
    let rows = [400_000, 400_000, 600_000, 600_000].map(rigid);
    let shares = shares_at(&springs(&rows, 0), 0);
    assert_eq!(first_fit(2, &shares), None);
    let proposal = best_fit(2, &shares);
    let table = Table::new(4, 2, &rows);
    assert_eq!(checked(&table, 0, &proposal, 2), (Ok(()), vec![SCALE as u32; 2]));
}

/// The random proposals of some seeds.
fn random_proposals() -> impl Iterator<Item = Proposing> {
    (1..=3).flat_map(|seed| {
        let calls = Calls::of_seed(seed);
        let from = calls.fixed_count();
        (from..from + 8_000).filter_map(move |index| match calls.call(index) {
            Call::Proposal(proposing) => Some(proposing),
            _ => None,
        })
    })
}

#[test]
fn random_proposals_are_often_accepted_and_often_refused_by_13_and_14() {
    let mut counts: BTreeMap<u8, usize> = BTreeMap::new();
    for proposing in random_proposals() {
        *counts.entry(answer(&Call::Proposal(proposing))[0]).or_default() += 1;
    }
    let all: usize = counts.values().sum();
    for (number, per_hundred) in [(0, 25), (2, 1), (3, 0), (5, 1), (6, 1), (13, 5), (14, 15)] {
        let times = counts.get(&number).copied().unwrap_or(0);
        assert!(times > 0 && times * 100 >= all * per_hundred, "{number}: {times} of {all}");
    }
}

#[test]
fn loads_handed_back_add_up_to_the_sum_of_what_the_tasks_ask_for() {
    let mut accepted = 0;
    for Proposing { table, step, proposal, .. } in random_proposals() {
        let room = usize::from(table.settings.m.min(16));
        let (verdict, loads) = checked(&table, step, &proposal, room);
        if verdict.is_ok() {
            let asked = Loads::of(&table.question()).at(step);
            let sum: u64 = loads.iter().map(|load| u64::from(*load)).sum();
            assert_eq!(sum, asked.iter().sum::<u64>());
            accepted += 1;
        }
    }
    assert!(accepted > 0);
}

#[test]
fn what_first_fit_places_is_accepted() {
    let mut placed = 0;
    for Proposing { table, step, proposal, .. } in random_proposals() {
        let room = usize::from(table.settings.m.min(16));
        // only tables that come to the loads: their records are good
        if !matches!(
            checked(&table, step, &proposal, room).0,
            Ok(()) | Err(Refusal { number: 14, .. })
        ) {
            continue;
        }
        let asked = Loads::of(&table.question()).at(step);
        if let Some(by_first_fit) = first_fit(table.settings.m, &asked) {
            assert_eq!(checked(&table, step, &by_first_fit, room).0, Ok(()));
            placed += 1;
        }
    }
    assert!(placed > 0);
}
