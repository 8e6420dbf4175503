//! The small readings about finders and margin.

use super::{plan_of, quick_of, refused, step_of, HALF_SPRING};
use crate::call::{Settings, Table};
use crate::definition::bound::{bound, is_within};
use crate::definition::finder::{plain, quick};
use crate::definition::kinds::{Policy, Record};
use crate::definition::margin::margin;
use crate::definition::policy::sides;
use crate::definition::share::{halved_period, springs, stepped_period, worked_out_period};

fn counted(number: u16, m: u16, count: u16) -> Table {
    let rows = vec![HALF_SPRING; usize::from(count).min(32)];
    Table { settings: Settings::new(number, m), count, rows }
}

#[test]
fn the_place_of_refusal_3_is_the_count() {
    for count in [33, 34, 40, 65535] {
        let table = counted(1, 1, count);
        assert_eq!(step_of(&table), refused(3, u32::from(count)));
        assert_eq!(quick_of(&table), (refused(3, u32::from(count)), 0));
        assert_eq!(margin(&table.question(), 0), refused(3, u32::from(count)));
    }
}

#[test]
fn either_output_short_gives_the_count_and_keeps_both() {
    let table = counted(1, 1, 2);
    for (first, second) in [(1, 2), (2, 1), (0, 0), (1, 40)] {
        let (mut periods, mut processors) = (vec![77; first], vec![7; second]);
        let answer = plain(&table.question(), &mut periods, &mut processors);
        assert_eq!(answer, refused(5, 2));
        let answer = quick(&table.question(), &mut periods, &mut processors);
        assert_eq!(answer, (refused(5, 2), 0));
        assert_eq!((periods, processors), (vec![77; first], vec![7; second]));
    }
}

#[test]
fn an_accepted_call_writes_no_further_than_needed() {
    let (mut periods, mut processors) = (vec![77; 4], vec![7; 3]);
    let answer = plain(&counted(1, 1, 2).question(), &mut periods, &mut processors);
    assert_eq!(answer, Ok(100));
    assert_eq!((periods, processors), (vec![12, 12, 77, 77], vec![0, 0, 7]));
}

#[test]
fn refusal_7_keeps_both_outputs() {
    let table = Table::new(1, 1, &[Record::new(1, 1, 1, 0); 2]);
    let (mut periods, mut processors) = (vec![77; 2], vec![7; 2]);
    assert_eq!(plain(&table.question(), &mut periods, &mut processors), refused(7, 0));
    assert_eq!((periods, processors), (vec![77; 2], vec![7; 2]));
}

#[test]
fn a_short_output_comes_before_a_bad_record() {
    let table = Table::new(1, 1, &[Record::new(0, 0, 0, 0)]);
    assert_eq!(plain(&table.question(), &mut [], &mut [0]), refused(5, 1));
    assert_eq!(step_of(&table), refused(6, 0));
}

#[test]
fn the_first_bad_record_is_the_place() {
    let bad = Record::new(11, 10, 20, 0);
    assert_eq!(step_of(&Table::new(1, 1, &[HALF_SPRING, bad, HALF_SPRING, bad])), refused(6, 1));
}

#[test]
fn only_c_at_most_tmin_reads_c_plus_2w() {
    // 1 ≤ C is of C itself
    assert!(!Record::new(0, 10, 20, 0).is_good(5, 1) && !Record::new(0, 10, 20, 0).is_good(1, 1));
    // C + 2w is Tmin, and one more
    assert!(Record::new(6, 10, 20, 0).is_good(2, 1) && !Record::new(7, 10, 20, 0).is_good(2, 1));
    let widest = Record::new(1, 131_071, 131_071, 0);
    assert!(widest.is_good(65_535, 1) && !Record { c: 2, ..widest }.is_good(65_535, 1));
    // 32 bits would keep 7 of this sum
    let past = Record::new(u32::MAX - 131_070 + 8, 10, 20, 0);
    assert_eq!(past.cost(65_535), (1 << 32) + 7);
    assert!(!past.is_good(65_535, 1));
}

#[test]
fn swaps_count_in_shares_periods_and_margin() {
    let at = |w| Table::new(1, 1, &[HALF_SPRING; 2]).with_swaps(w);
    assert_eq!([0, 1, 2].map(|w| step_of(&at(w))), [Ok(100), Ok(300), Ok(500)]);
    assert_eq!([0, 1, 2].map(|w| plan_of(&at(w)).0), [[12, 12], [16, 16], [20, 20]]);
    assert_eq!(step_of(&at(3)), refused(6, 0));
    assert_eq!(quick_of(&at(3)), (refused(6, 0), 0));
    assert_eq!(margin(&at(3).question(), 0), refused(6, 0));
    // 800,000 twice
    assert_eq!(margin(&at(1).question(), 0), Ok(-600_000));
    assert_eq!(margin(&at(1).question(), 300), Ok(0));
}

#[test]
fn the_finders_look_at_no_settings_count() {
    for count in [0, 1, 2, 3, 4, 65535] {
        let mut table = Table::new(1, 1, &[HALF_SPRING; 2]).with_swaps(1);
        table.settings.count = count;
        assert_eq!(quick_of(&table), (Ok(300), 2));
        assert_eq!(margin(&table.question(), 300), Ok(0));
    }
}

#[test]
fn a_swap_cost_is_a_part_of_the_cost() {
    // a record with swaps is the record whose C is C + 2w
    for w in [1, 7, 900] {
        let row = Record::new(50, 2_000, 9_000, 77);
        let priced = Record { c: 50 + 2 * u32::from(w), ..row };
        let swaps = Table::new(2, 3, &[row; 5]).with_swaps(w);
        let none = Table::new(2, 3, &[priced; 5]);
        assert_eq!(quick_of(&swaps), quick_of(&none));
        assert_eq!(plan_of(&swaps), plan_of(&none));
    }
}

#[test]
fn tmin_and_tmax_are_whole_notches() {
    let row = Record::new(6, 10, 20, 0);
    assert!([1, 2, 5, 10].into_iter().all(|q| row.is_good(0, q)));
    assert!(![0, 3, 4, 20, 65_535].into_iter().any(|q| row.is_good(0, q)));
    let greatest = Record::new(65_535, 65_535, 65_535 * 15_259, 0);
    assert!(greatest.is_good(0, 65_535) && !greatest.is_good(1, 65_535));
    assert!(!Record { tmax: 65_535 * 15_260, ..greatest }.is_good(0, 65_535));
    // the first bad record of any kind is the place
    let (low, high) = (Record { tmin: 9, ..row }, Record { tmax: 21, ..row });
    let dear = Record { c: 11, ..row };
    let at = |rows: &[Record]| step_of(&Table::new(1, 2, rows).with_notches(5));
    assert_eq!(at(&[row, low, dear]), refused(6, 1));
    assert_eq!(at(&[row, row, high]), refused(6, 2));
    assert_eq!(at(&[dear, high, low]), refused(6, 0));
}

#[test]
fn no_notch_is_refused_by_2() {
    for (number, m, count) in [(1, 1, 2), (2, 16, 33), (4, 2, 2), (5, 1, 40), (1, 17, 0)] {
        let table = counted(number, m, count);
        let table = Table { settings: table.settings.with_notches(0), ..table };
        let question = table.question();
        assert_eq!(plain(&question, &mut [], &mut []), refused(2, 0));
        assert_eq!(quick(&question, &mut [], &mut []), (refused(2, 0), 0));
        assert_eq!(margin(&question, 0), refused(2, 0));
    }
    for (number, first) in [(0, 1), (3, 15), (6, 1)] {
        let table = Table::new(number, 1, &[HALF_SPRING]).with_notches(0);
        assert_eq!(step_of(&table), refused(first, 0));
        assert_eq!(quick_of(&table), (refused(first, 0), 0));
        assert_eq!(margin(&table.question(), 0), refused(first, 0));
    }
}

#[test]
fn a_notch_counts_in_periods_alone() {
    let rows = [Record::new(50, 360, 3_600, 77), Record::new(351, 720, 1_440, 1_000)];
    let without = Table::new(1, 1, &[rows, rows].concat()).with_swaps(3);
    let old = plan_of(&without).0;
    for q in [2, 3, 8, 45, 120, 180, 360] {
        let table = without.clone().with_notches(q);
        assert_eq!(quick_of(&table), quick_of(&without));
        for step in [0, 1, 77, 400] {
            assert_eq!(margin(&table.question(), step), margin(&without.question(), step));
        }
        let up = |period: &u32| period.next_multiple_of(u32::from(q));
        assert_eq!(plan_of(&table).0, old.iter().map(up).collect::<Vec<_>>());
    }
    // at step 0 a period is Tmin
    for q in [1, 5, 10] {
        let table = Table::new(1, 2, &[HALF_SPRING; 2]).with_notches(q);
        assert_eq!((step_of(&table), plan_of(&table).0), (Ok(0), vec![10, 10]));
    }
}

#[test]
fn the_finders_use_q_whatever_the_settings_count_says() {
    for count in [0, 1, 2, 3, 4, 5, 65535] {
        let mut table = Table::new(1, 1, &[HALF_SPRING; 2]).with_notches(5);
        table.settings.count = count;
        assert_eq!((step_of(&table), plan_of(&table).0), (Ok(100), vec![15, 15]));
    }
}

#[test]
fn policy_4_asked_of_quick_finder_or_margin() {
    for (table, number, place) in
        [(counted(4, 0, 1), 2, 0), (counted(4, 1, 33), 3, 33), (counted(4, 1, 1), 4, 0)]
    {
        assert_eq!(quick(&table.question(), &mut [], &mut []), (refused(number, place), 0));
        assert_eq!(margin(&table.question(), 0), refused(number, place));
    }
}

#[test]
fn a_further_choice_of_1_to_5_means_that_policy() {
    // 3 is refused by 15 in either form
    for (number, m) in [(1, 2), (2, 2), (3, 2), (4, 2), (5, 1)] {
        let read = Table::new(number, m, &[HALF_SPRING; 2]);
        let mut further = read.clone();
        further.settings.further = true;
        assert_eq!(step_of(&further), step_of(&read));
        assert_eq!(quick_of(&further), quick_of(&read));
        assert_eq!(margin(&further.question(), 9), margin(&read.question(), 9));
    }
    for number in [0, 6, 65535] {
        assert_eq!(step_of(&counted(number, 0, 33)), refused(1, 0));
    }
}

#[test]
fn policy_5_needs_one_processor() {
    for (m, count) in [(0, 1), (2, 1), (2, 33), (16, 40), (17, 33)] {
        for further in [false, true] {
            let mut table = counted(5, m, count);
            table.settings.further = further;
            assert_eq!(step_of(&table), refused(2, 0));
            assert_eq!(quick_of(&table), (refused(2, 0), 0));
            assert_eq!(margin(&table.question(), 0), refused(2, 0));
        }
    }
    assert_eq!(step_of(&counted(5, 1, 33)), refused(3, 33));
    assert_eq!(step_of(&Table::new(5, 1, &[])), Ok(0));
}

#[test]
fn the_bound_is_the_largest_that_is_within() {
    assert_eq!([0, 1, 2].map(bound), [0, 1_000_000, 828_427]);
    for tasks in 1..=32 {
        assert!(is_within(tasks, bound(tasks)) && !is_within(tasks, bound(tasks) + 1));
        // it falls towards the natural logarithm of 2
        assert!(bound(tasks) > 693_147 && (tasks == 1 || bound(tasks) < bound(tasks - 1)));
    }
}

#[test]
fn policy_3_is_refused_by_15_before_all_else() {
    for (m, count) in [(0, 1), (2, 1), (1, 33), (17, 40)] {
        for further in [false, true] {
            let mut table = counted(3, m, count);
            table.settings.further = further;
            table.rows[0].c = 0;
            let question = table.question();
            assert_eq!(plain(&question, &mut [], &mut []), refused(15, 0));
            assert_eq!(quick(&question, &mut [], &mut []), (refused(15, 0), 0));
            assert_eq!(margin(&question, 0), refused(15, 0));
        }
    }
}

#[test]
fn the_sides_of_policy_3_are_in_the_printed_units() {
    // shares 600,000 twice, m = 1
    let sides_of = |share| sides(Policy::GlobalRm, 1, &[share; 2]);
    assert_eq!(sides_of(600_000), Some((2_400_000 + 600_000, 1_000_000 + 1_200_000)));
    // at the last step both are at their least share
    assert_eq!(sides_of(300_000), Some((1_200_000 + 300_000, 1_000_000 + 600_000)));
}

#[test]
fn looks_of_refusals_and_of_saturation_steps_of_0() {
    // no positive saturation step, and step 0 fails
    let rigid = Record::new(10, 10, 10, 1000);
    assert_eq!(quick_of(&Table::new(1, 1, &[rigid; 2])), (refused(7, 0), 1));
    // two tasks tied at one saturation step, and a third at another
    let (short, long) = (Record::new(10, 10, 11, 1000), Record::new(10, 10, 12, 1000));
    assert_eq!(quick_of(&Table::new(1, 1, &[short, long, short])), (refused(7, 0), 3));
}

#[test]
fn an_answer_on_a_saturation_step_counts_the_steps_below_it_only() {
    // case D's first task saturates at 55; the others leave room for just its least share
    let table = Table::new(
        1,
        1,
        &[Record::new(6, 10, 11, 1000), Record::new(454_545, 1_000_000, 1_000_000, 0)],
    );
    assert_eq!(quick_of(&table), (Ok(55), 2));
}

#[test]
fn stepping_halving_and_working_out_find_the_same_period() {
    for (c, tmin, tmax) in [(6, 10, 20), (1, 1, 100_000), (3000, 4000, 5000), (7, 7, 90_006)] {
        let record = Record::new(c, tmin, tmax, 1);
        for w in [0, 1, 1_000] {
            for q in [1, 2, 5, 7, 10, 500, 1_000] {
                if record.is_good(w, q) {
                    same_periods(record, w, q);
                }
            }
        }
    }
}

/// All three, at shares from the least to the largest; and one notch less is not enough, or is under Tmin.
fn same_periods(record: Record, w: u16, q: u16) {
    let spring = springs(&[record], w)[0];
    let between = (spring.least + spring.largest) / 2;
    for share in [spring.least, spring.least + 1, between, spring.largest] {
        if share <= spring.largest {
            let period = stepped_period(record, w, q, share);
            assert_eq!(halved_period(record, w, q, share), period);
            assert_eq!(worked_out_period(record, w, q, share), period);
            let less = period - u32::from(q);
            let enough = record.cost(w) * 1_000_000 <= share * u64::from(less);
            assert!(period == record.tmin || !enough);
        }
    }
}
