//! Why a record is not good: the number of the first limit that it breaks, from 1, in the order in which the documents give them; 0 of a good one.

use super::kinds::{is_multiple, Record};
use super::wide::WideRecord;

fn first_broken(kept: &[bool]) -> u8 {
    kept.iter().position(|limit| !limit).map_or(0, |limit| limit as u8 + 1)
}

/// "1 ≤ C ≤ Tmin ≤ Tmax ≤ 1,000,000,000 and 0 ≤ E ≤ 1,000,000", where Ask 2 reads C + 2w in "C ≤ Tmin"; Ask 5's multiples of q; and last
/// that there is a notch, of which nothing can be a multiple otherwise.
pub fn reason(record: Record, w: u16, q: u16) -> u8 {
    first_broken(&[
        1 <= record.c,
        record.cost(w) <= u64::from(record.tmin),
        record.tmin <= record.tmax,
        record.tmax <= Record::GREATEST_PERIOD,
        record.e <= Record::GREATEST_ELASTICITY,
        q == 0 || is_multiple(record.tmin, q),
        q == 0 || is_multiple(record.tmax, q),
        q != 0,
    ])
}

/// "1 ≤ L < Tmin, L < C, Tmax < C, C at most 16 × Tmin, and Tmax and E as in 01"
pub fn wide_reason(record: WideRecord) -> u8 {
    first_broken(&[
        1 <= record.l,
        record.l < record.tmin,
        u64::from(record.l) < record.c,
        u64::from(record.tmax) < record.c,
        record.c <= WideRecord::MOST_TMINS * u64::from(record.tmin),
        record.tmin <= record.tmax,
        record.tmax <= Record::GREATEST_PERIOD,
        record.e <= Record::GREATEST_ELASTICITY,
    ])
}
