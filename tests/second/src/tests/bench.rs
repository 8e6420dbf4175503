//! "Bench settings to try" with document 01's answers, case B under policy 5, with swaps and with notches, and cases in edition 2.

use super::{plan_of, quick_of, refused, step_of, HALF_SPRING};
use crate::call::{Settings, Table};
use crate::definition::finder::{
    distinct_positive_saturation_steps, least_passing_step, shares_at,
};
use crate::definition::kinds::{Policy, Record};
use crate::definition::margin::margin;
use crate::definition::policy::{passes, sides};
use crate::definition::program::program;
use crate::definition::reader::read;
use crate::definition::share::{full_compression, springs};
use crate::generator::bench::{case_l, cases};
use crate::generator::sheets::sheet_of;

fn case(name: &str) -> Table {
    let found = cases().into_iter().find(|(known, _)| *known == name);
    found.expect("a case of that name").1
}

/// The step, the periods and the looks of a case under a policy with a formula.
fn expect(name: &str, step: u32, periods: &[u32], looks: u16) {
    let table = case(name);
    assert_eq!(step_of(&table), Ok(step), "case {name}");
    assert_eq!(quick_of(&table), (Ok(step), looks), "case {name}");
    assert_eq!(plan_of(&table), (periods.to_vec(), vec![0; periods.len()]), "case {name}");
}

#[test]
fn cases_with_steps_periods_and_looks() {
    expect("A", 0, &[], 1);
    expect("B", 100, &[12, 12], 2);
    expect("C", 100, &[10, 16], 2);
    expect("D", 146, &[11, 14], 3);
    expect("E", 100, &[12, 12, 12], 2);
    expect("J", 500_000, &[2, 2], 2);
    expect("B under 5", 186, &[15, 15], 2);
    // a job costs 8 of 10 ticks, then all 10
    expect("B, w = 1", 300, &[16, 16], 2);
    expect("B, w = 2", 500, &[20, 20], 2);
    // 12 ticks are not whole notches of 5 or 10, nor are 16 of 5; shares and looks do not see them
    expect("B, q = 5", 100, &[15, 15], 2);
    expect("B, q = 10", 100, &[20, 20], 2);
    expect("B, w = 1, q = 2", 300, &[16, 16], 2);
    expect("B, w = 1, q = 5", 300, &[20, 20], 2);
}

#[test]
fn cases_in_the_second_edition() {
    expect("B, edition 1", 100, &[12, 12], 2);
    expect("A, edition 2", 0, &[], 1);
    // 12 ticks charge 500,000 parts, and step 55 is the first at which 11 are not enough
    expect("B, edition 2", 55, &[12, 12], 8);
    // "Case D then gives step 139 with the same periods."
    expect("D, edition 2", 139, &[11, 14], 9);
    expect("E, edition 2", 55, &[12, 12, 12], 8);
    expect("J, edition 2", 1, &[2, 2], 20);
    // 15 ticks charge 400,000 parts, of a bound of 828,427
    expect("B under 5, edition 2", 172, &[15, 15], 8);
    // 16 of 8 ticks' work
    expect("B, w = 1, edition 2", 267, &[16, 16], 8);
    // from 10 ticks to 15 at the first step
    expect("B, q = 5, edition 2", 1, &[15, 15], 9);
    assert_eq!(quick_of(&case("I, edition 2")), (refused(7, 0), 1));
    let case_k = case("K, edition 2");
    assert_eq!(step_of(&case_k), Ok(5));
    assert_eq!(plan_of(&case_k), plan_of(&case("K")));
}

#[test]
fn case_d_saturates_at_55_and_400() {
    let steps = distinct_positive_saturation_steps(&case("D").question());
    assert_eq!(steps.into_iter().collect::<Vec<_>>(), [55, 400]);
}

#[test]
fn cases_f_g_and_h_are_kept_for_the_rule_and_refused_by_15() {
    for (name, step) in [("F", 267), ("G", 0), ("H", 267)] {
        let table = case(name);
        assert_eq!(least_passing_step(&table.question()), Some(step), "case {name}");
        assert_eq!(step_of(&table), refused(15, 0), "case {name}");
        assert_eq!(quick_of(&table), (refused(15, 0), 0), "case {name}");
        assert_eq!(margin(&table.question(), step), refused(15, 0), "case {name}");
        assert_eq!(program(&sheet_of(&table)), b"refused 15 at 0\n", "case {name}");
    }
}

#[test]
fn case_g_has_margin_0_at_step_0() {
    let table = case("G");
    let shares = shares_at(&springs(&table.rows, 0), 0);
    assert_eq!(sides(Policy::GlobalRm, 1, &shares), Some((3_000_000, 3_000_000)));
}

#[test]
fn case_b_under_policy_5_has_margin_427_at_step_186() {
    assert_eq!(margin(&case("B under 5").question(), 186), Ok(427));
    assert_eq!(margin(&case("B under 5").question(), 185), Ok(-1_573));
}

#[test]
fn case_i_is_refused_7_with_the_sum_1000002() {
    let table = case("I");
    assert_eq!(step_of(&table), refused(7, 0));
    assert_eq!(quick_of(&table), (refused(7, 0), 1));
    assert_eq!(shares_at(&springs(&table.rows, 0), 0), [333_334; 3]);
    assert_eq!(margin(&table.question(), 0), Ok(-2));
}

#[test]
fn case_j_has_the_greatest_full_compression() {
    assert_eq!(full_compression(&springs(&case("J").rows, 0)), 999_999);
}

#[test]
fn case_k_passes_at_5_and_6_only() {
    let table = case("K");
    let springs = springs(&table.rows, 0);
    assert_eq!(full_compression(&springs), 15);
    let passing = |step: &u32| passes(Policy::FirstFit, 3, &shares_at(&springs, *step));
    assert_eq!((0..=15).filter(passing).collect::<Vec<_>>(), [5, 6]);
    assert_eq!(step_of(&table), Ok(5));
    let (periods, processors) = plan_of(&table);
    assert_eq!(periods, [4286, 1000, 1000, 1000, 1000, 1000, 1000]);
    assert_eq!(processors, [1, 2, 2, 3, 1, 2, 3]);
}

#[test]
fn case_l_limits() {
    let answers: Vec<_> = case_l().iter().map(step_of).collect();
    let expected = [Ok(0), refused(3, 33), Ok(0), refused(6, 0), Ok(0), refused(2, 0)];
    assert_eq!(answers, expected);
    let sheets: Vec<_> = case_l().iter().map(|table| read(&sheet_of(table)).err()).collect();
    let expected = [None, refused::<()>(3, 6).err(), None, None, None, None];
    assert_eq!(sheets, expected);
}

#[test]
fn the_whole_case_of_the_program() {
    let input =
        bytes("02 00 01 00 01 00 01 00 06 00 00 00 0A 00 00 00 14 00 00 00 E8 03 00 00 00 00");
    let mut expected = input[..input.len() - 2].to_vec();
    expected.extend(bytes("01 00 0A 00 00 00 00 00"));
    assert_eq!(program(&input), expected);
    assert_eq!(program(&expected), expected);
}

fn bytes(hex: &str) -> Vec<u8> {
    hex.split(' ').map(|byte| u8::from_str_radix(byte, 16).expect("hex")).collect()
}

#[test]
fn case_b_by_a_further_choice_is_the_same() {
    let settings = Settings { further: true, ..Settings::new(1, 1) };
    let table = Table { settings, count: 2, rows: vec![HALF_SPRING; 2] };
    assert_eq!(quick_of(&table), (Ok(100), 2));
}

#[test]
fn a_record_of_the_bench_is_good_and_one_over_is_not() {
    assert!(Record::new(1, 1, 1_000_000_000, 1_000_000).is_good(0, 1));
    assert!(!Record::new(1, 1, 1_000_000_001, 1_000_000).is_good(0, 1));
    assert!(!Record::new(1, 1, 1_000_000_000, 1_000_001).is_good(0, 1));
    assert!(!Record::new(0, 1, 1, 0).is_good(0, 1));
    assert!(!Record::new(2, 1, 2, 0).is_good(0, 1));
    assert!(!Record::new(1, 2, 1, 0).is_good(0, 1));
}
