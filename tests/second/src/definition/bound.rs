//! Ask 1's bound of rate monotonic on one core, worked out from its own sentence.

use super::kinds::{MOST_TASKS, SCALE};
use std::iter::repeat;
use std::sync::OnceLock;

/// The product of any factors, in digits of 32 bits, the lowest first.
fn product(factors: impl Iterator<Item = u64>) -> Vec<u32> {
    let mut digits = vec![1_u32];
    for factor in factors {
        let mut carry = 0;
        for digit in &mut digits {
            let whole = u64::from(*digit) * factor + carry;
            *digit = whole as u32;
            carry = whole >> 32;
        }
        if carry > 0 {
            digits.push(carry as u32);
        }
    }
    digits
}

/// "(n × S + b) to the power n at most 2 × (n × S) to the power n"
pub fn is_within(n: usize, b: u64) -> bool {
    let base = n as u64 * SCALE;
    let power = product(repeat(base + b).take(n));
    let twice = product(repeat(base).take(n).chain([2]));
    let by_length = power.len().cmp(&twice.len());
    by_length.then_with(|| power.iter().rev().cmp(twice.iter().rev())).is_le()
}

/// "the largest whole b" that is within: a greater b makes a greater power, so the range is halved
fn largest_within(n: usize) -> u64 {
    let (mut within, mut past) = (0, 2 * SCALE);
    while past - within > 1 {
        let middle = (within + past) / 2;
        if is_within(n, middle) {
            within = middle;
        } else {
            past = middle;
        }
    }
    within
}

/// "The bound for n from 1 to 32", and "for n = 0 it is 0"; each is worked out once.
pub fn bound(n: usize) -> u64 {
    static BOUNDS: OnceLock<Vec<u64>> = OnceLock::new();
    let worked_out = |n| if n == 0 { 0 } else { largest_within(n) };
    BOUNDS.get_or_init(|| (0..=MOST_TASKS).map(worked_out).collect())[n]
}
