//! "The four policies" and Ask 1's: the two sides of each formula, first fit, and passing. Under edition 2 the shares are charges (Ask 10).

use super::bound::bound;
use super::kinds::{Policy, SCALE};

/// The left and the right side of the test of a policy that has a formula, 1 to 3 and 5; none for the others.
pub fn sides(policy: Policy, m: u16, shares: &[u64]) -> Option<(i128, i128)> {
    let sum = i128::from(shares.iter().sum::<u64>());
    // "the max of no tasks is 0"
    let max = i128::from(shares.iter().copied().max().unwrap_or(0));
    let m = i128::from(m);
    let capacity = m * i128::from(SCALE);
    match policy.meaning() {
        // "sum ≤ m × S"
        Policy::Pooled => Some((sum, capacity)),
        // "sum + (m − 1) × max ≤ m × S"
        Policy::GlobalEdf => Some((sum + (m - 1) * max, capacity)),
        // "2 × sum + m × max ≤ m × S + 2 × max"
        Policy::GlobalRm => Some((2 * sum + m * max, capacity + 2 * max)),
        // "the sum of shares is at most the bound for n tasks"
        Policy::OneCoreRm => Some((sum, i128::from(bound(shares.len())))),
        Policy::FirstFit | Policy::Further(_) => None,
    }
}

/// "take tasks in record order, give each to the lowest-numbered processor whose load with it
/// is at most S. The first task that fits nowhere ends the whole trial at once."
pub fn first_fit(m: u16, shares: &[u64]) -> Option<Vec<u16>> {
    let mut loads = vec![0_u64; usize::from(m)];
    let mut processors = Vec::with_capacity(shares.len());
    for share in shares {
        let fitting = loads.iter().position(|load| load + share <= SCALE)?;
        loads[fitting] += share;
        processors.push(fitting as u16 + 1);
    }
    Some(processors)
}

/// Whether the shares pass the test of a policy of 1 to 5.
pub fn passes(policy: Policy, m: u16, shares: &[u64]) -> bool {
    match sides(policy, m, shares) {
        Some((left, right)) => left <= right,
        None => first_fit(m, shares).is_some(),
    }
}
