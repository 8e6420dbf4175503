//! Ask 10: the charge, what the second edition reads it in, and the looks of its quick finder.

use super::{plan_of, quick_of, refused, step_of, HALF_SPRING};
use crate::call::{Call, Table};
use crate::definition::finder::{halve, least_passing_step, plain, quick, shares_at};
use crate::definition::kinds::{Policy, Record, Refusal, SCALE};
use crate::definition::load::{charge_with_share, Loads};
use crate::definition::margin::margin;
use crate::definition::policy::passes;
use crate::definition::proposal::check_proposal;
use crate::definition::share::{full_compression, spring, springs, stepped_period};
use crate::generator::bench::HUGE_RANGE;
use crate::generator::tables::rigid;
use crate::generator::Calls;

/// Case B in an edition.
fn case_b(edition: u16) -> Table {
    Table::new(1, 1, &[HALF_SPRING; 2]).with_edition(edition)
}

/// The tables of random calls of finders and margin whose settings, count and records are good, in any edition.
fn random_tables() -> Vec<Table> {
    let calls = Calls::of_seed(7);
    let from = calls.fixed_count();
    let mut tables = Vec::new();
    for index in from..from + 6_000 {
        let table = match calls.call(index) {
            Call::Plain(table, _) | Call::Quick(table, _) | Call::Margin(table, _) => table,
            _ => continue,
        };
        let room = &mut vec![0; table.rows.len()];
        let verdict = plain(&table.question(), room, &mut vec![0; table.rows.len()]);
        if matches!(verdict, Ok(_) | Err(Refusal { number: 7, .. })) {
            tables.push(table);
        }
    }
    assert!(tables.len() > 1_000);
    tables
}

#[test]
fn another_number_is_refused_by_2_in_four_calls() {
    for edition in [0, 3, 257, 258, 65535] {
        for (number, m, count) in [(1, 1, 2), (2, 16, 33), (4, 2, 2), (5, 1, 40), (1, 1, 0)] {
            let mut table = Table::new(number, m, &[HALF_SPRING; 32]).with_edition(edition);
            table.rows.truncate(usize::from(count));
            table.count = count;
            let question = table.question();
            assert_eq!(plain(&question, &mut [], &mut []), refused(2, 0));
            assert_eq!(quick(&question, &mut [], &mut []), (refused(2, 0), 0));
            assert_eq!(margin(&question, 0), refused(2, 0));
            assert_eq!(check_proposal(&question, 0, &[], &mut []), refused(2, 0));
        }
        for (number, first) in [(0, 1), (3, 15), (6, 1)] {
            let table = Table::new(number, 1, &[HALF_SPRING]).with_edition(edition);
            assert_eq!(step_of(&table), refused(first, 0));
            assert_eq!(quick_of(&table), (refused(first, 0), 0));
            assert_eq!(margin(&table.question(), 0), refused(first, 0));
        }
    }
}

#[test]
fn the_finders_use_the_edition_whatever_the_settings_count_says() {
    for count in [0, 1, 2, 3, 4, 5, 6, 65535] {
        let mut table = case_b(2);
        table.settings.count = count;
        assert_eq!((step_of(&table), plan_of(&table).0), (Ok(55), vec![12, 12]));
        table.settings.edition = 0;
        assert_eq!(step_of(&table), refused(2, 0));
    }
}

#[test]
fn a_charge_goes_by_the_period_that_is_granted() {
    // 600,000 parts at 10 ticks; the share of step 1 asks for 11 ticks, which cost 545,455
    let charge = |step: u32, w, q| {
        let spring = spring(HALF_SPRING, w);
        charge_with_share(HALF_SPRING, w, q, spring.share_at(step))
    };
    assert_eq!([0, 1, 54, 55].map(|step| charge(step, 0, 1)), [600_000, 545_455, 545_455, 500_000]);
    // to the next notch, 15 ticks, and with swaps, 8 of 11
    assert_eq!((charge(1, 0, 5), charge(1, 1, 1)), (400_000, 727_273));
    assert_eq!([0, 300, u32::MAX].map(|step| charge(step, 0, 10)), [600_000, 300_000, 300_000]);
}

#[test]
fn a_charge_is_at_most_the_share_never_0_and_never_rises() {
    for table in random_tables() {
        let (w, q) = (table.settings.w, table.settings.q);
        for row in &table.rows {
            let spring = spring(*row, w);
            let mut before = u64::MAX;
            for step in (0..64).chain([100, 1_000, 999_999, u32::MAX]) {
                let share = spring.share_at(step);
                let charge = charge_with_share(*row, w, q, share);
                assert!(1 <= charge && charge <= share && charge <= before);
                before = charge;
            }
            // at step 0 the period is Tmin
            assert_eq!(charge_with_share(*row, w, q, spring.largest), spring.largest);
        }
    }
}

#[test]
fn a_charge_is_that_of_the_period_searched() {
    for (c, tmin, tmax, w, q) in [(6, 10, 20, 0, 1), (7, 11, 990, 2, 11), (5, 40, 4_000, 3, 8)] {
        let record = Record::new(c, tmin, tmax, 1);
        let spring = spring(record, w);
        for share in spring.least..=spring.largest.min(spring.least + 2_000) {
            let period = u64::from(stepped_period(record, w, q, share));
            let charge = (record.cost(w) * SCALE).div_ceil(period);
            assert_eq!(charge_with_share(record, w, q, share), charge);
        }
    }
}

#[test]
fn what_edition_1_passes_edition_2_passes_under_a_formula() {
    for table in random_tables() {
        if table.settings.number == 4 {
            continue;
        }
        let step = |edition| least_passing_step(&table.clone().with_edition(edition).question());
        if let Some(by_share) = step(1) {
            assert!(step(2).expect("a step") <= by_share);
        }
    }
}

#[test]
fn halving_and_scanning_find_the_same_step() {
    let mut halved = 0;
    for table in random_tables() {
        let number = table.settings.number;
        // first fit can pass, fail and pass again, and no quick finder serves it
        if number == 4 {
            continue;
        }
        let question = table.with_edition(2).question();
        let (step, looks) = halve(&question);
        assert_eq!(step, least_passing_step(&question));
        let range = u64::from(full_compression(&question.springs())) + 1;
        let most = u64::BITS - range.leading_zeros();
        assert!(1 <= looks && u32::from(looks) <= most && looks <= 20);
        halved += 1;
    }
    assert!(halved > 500);
}

#[test]
fn k_plus_1_means_none_and_is_not_tested() {
    // K = 0: one test, whether it passes or not
    assert_eq!(quick_of(&Table::new(1, 1, &[rigid(SCALE)]).with_edition(2)), (Ok(0), 1));
    let full = Table::new(1, 1, &[rigid(SCALE), rigid(1)]).with_edition(2);
    assert_eq!(quick_of(&full), (refused(7, 0), 1));
    // K = 1: step 1 is tested first, and step 0 only after a pass
    let one = Record::new(10, 10, 11, 100_000);
    let beside = |parts| Table::new(1, 1, &[one, rigid(parts)]).with_edition(2);
    assert_eq!(full_compression(&springs(&[one], 0)), 1);
    assert_eq!(quick_of(&beside(90_909)), (Ok(1), 2));
    assert_eq!(quick_of(&beside(90_910)), (refused(7, 0), 1));
    // the most looks
    let last = Table::new(1, 1, &[HUGE_RANGE, rigid(SCALE)]).with_edition(2);
    assert_eq!(quick_of(&last), (refused(7, 0), 19));
    assert_eq!(quick_of(&Table::new(1, 1, &[HUGE_RANGE; 2]).with_edition(2)), (Ok(1), 20));
}

#[test]
fn margin_and_checker_read_the_charge() {
    assert_eq!([54, 55].map(|step| margin(&case_b(2).question(), step)), [Ok(-90_910), Ok(0)]);
    assert_eq!(
        [54, 55].map(|step| margin(&case_b(1).question(), step)),
        [Ok(-92_000), Ok(-90_000)]
    );
    let loads = |edition, step| {
        let mut loads = [0];
        check_proposal(&case_b(edition).question(), step, &[1, 1], &mut loads).map(|()| loads[0])
    };
    assert_eq!((loads(1, 55), loads(2, 54)), (refused(14, 1), refused(14, 1)));
    assert_eq!((loads(1, 101), loads(2, 55)), (Ok(998_000), Ok(1_000_000)));
}

#[test]
fn first_fit_places_by_the_charge() {
    // at step 1 the share is 599,000 and the charge 545,455; 454,545 fit beside that alone
    let rows = [HALF_SPRING, rigid(454_545), rigid(401_000), rigid(599_000)];
    let table = |edition| Table::new(4, 2, &rows).with_edition(edition);
    assert_eq!(step_of(&table(2)), Ok(1));
    assert_eq!(plan_of(&table(2)), (vec![11, 1_000_000, 1_000_000, 1_000_000], vec![1, 1, 2, 2]));
    let shares = shares_at(&springs(&rows, 0), 1);
    assert!(!passes(Policy::FirstFit, 2, &shares));
    assert_eq!(Loads::of(&table(2).question()).at(1)[0], 545_455);
    // the share is 545,000 there
    assert_eq!(step_of(&table(1)), Ok(55));
}

#[test]
fn periods_saturation_and_k_stay() {
    for edition in [1, 2] {
        let table = Table::new(1, 2, &[HALF_SPRING; 2]).with_edition(edition);
        assert_eq!((step_of(&table), plan_of(&table).0), (Ok(0), vec![10, 10]));
        assert_eq!(Loads::of(&table.question()).full_compression(), 300);
    }
    // the period of the step found, not of the step that edition 1 finds
    assert_eq!((plan_of(&case_b(1)).0, plan_of(&case_b(2)).0), (vec![12, 12], vec![12, 12]));
    let with_notches = |edition| plan_of(&case_b(edition).with_notches(2)).0;
    assert_eq!((with_notches(1), with_notches(2)), (vec![12, 12], vec![12, 12]));
}
