//! Ask 4's worked numbers, and its period against a search.

use super::refused;
use crate::definition::kinds::{Refusal, SCALE};
use crate::definition::wide::{find_wide, WideQuestion, WideRecord};
use crate::generator::edges_of_wide::{VISION, WIDEST};

fn step_of(m: u16, rows: &[WideRecord]) -> Result<u32, Refusal> {
    let question = WideQuestion { m, count: rows.len(), rows: rows.to_vec() };
    find_wide(&question, &mut vec![0; rows.len()], &mut vec![0; rows.len()])
}

#[test]
fn the_cores_of_the_request() {
    assert_eq!(VISION.cores_with_period(10), 5);
    assert_eq!(VISION.cores_with_period(20), 2);
}

#[test]
fn a_period_is_the_smallest_that_its_share_allows() {
    for record in [VISION, WideRecord::new(997, 7, 100, 900, 1)] {
        let spring = record.spring();
        for share in (spring.least..=spring.largest).step_by(997) {
            let smallest = (record.tmin..=record.tmax)
                .find(|period| record.c * SCALE <= share * u64::from(*period));
            assert_eq!(Some(record.period_with_share(share)), smallest);
        }
    }
}

#[test]
fn nine_jobs_never_fit_sixteen_processors() {
    assert_eq!(step_of(16, &[VISION; 9]), refused(7, 0));
    assert!(step_of(16, &[VISION; 8]).is_ok());
}

#[test]
fn the_widest_range() {
    assert_eq!(WIDEST.spring().saturation_step(), Some(14_999_999));
    assert_eq!(step_of(2, &[WIDEST]), Ok(14_000_001));
    assert_eq!(step_of(1, &[WIDEST]), refused(7, 0));
}
