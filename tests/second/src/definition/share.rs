//! "Numbers on a task": shares, saturation steps, full compression and periods; "every C … is to be read as C + 2w" (Ask 2).
//! Shares, saturation steps and full compression do not see the notch q (Ask 5); periods do. None of them sees the edition (Ask 10).

use super::kinds::{is_multiple, Record, SCALE};

/// What the steps of a scan need of one task, worked out once.
#[derive(Clone, Copy, Debug)]
pub struct Spring {
    pub largest: u64,
    pub least: u64,
    pub elasticity: u64,
}

/// "Largest share: C × S / Tmin rounded up. Least share: C × S / Tmax rounded up."
pub fn share_with_period(cost: u64, period: u32) -> u64 {
    (cost * SCALE).div_ceil(u64::from(period))
}

/// The spring of a record that is good with a swap cost.
pub fn spring(record: Record, w: u16) -> Spring {
    Spring {
        largest: share_with_period(record.cost(w), record.tmin),
        least: share_with_period(record.cost(w), record.tmax),
        elasticity: u64::from(record.e),
    }
}

/// The share of any record at a step; 0 where it is not good.
pub fn share(record: Record, w: u16, q: u16, step: u32) -> u32 {
    match record.is_good(w, q) {
        true => spring(record, w).share_at(step) as u32,
        false => 0,
    }
}

/// The springs of such records, in record order.
pub fn springs(rows: &[Record], w: u16) -> Vec<Spring> {
    rows.iter().map(|row| spring(*row, w)).collect()
}

impl Spring {
    /// "the larger of the least share and (largest share − k × E), the latter taken as 0 when negative"
    pub fn share_at(&self, step: u32) -> u64 {
        self.least.max(self.largest.saturating_sub(u64::from(step) * self.elasticity))
    }

    /// "Saturation step of a task with E > 0: (largest − least) / E rounded up."
    pub fn saturation_step(&self) -> Option<u32> {
        if self.elasticity == 0 {
            return None;
        }
        Some((self.largest - self.least).div_ceil(self.elasticity) as u32)
    }
}

/// "Full compression K: the greatest saturation step, 0 if there is none."
pub fn full_compression(springs: &[Spring]) -> u32 {
    springs.iter().filter_map(Spring::saturation_step).max().unwrap_or(0)
}

/// The property of a period: (C + 2w) × S ≤ share × T.
fn share_allows(cost: u64, share: u64, period: u32) -> bool {
    u128::from(cost) * u128::from(SCALE) <= u128::from(share) * u128::from(period)
}

/// "the smallest multiple of q from Tmin to Tmax with (C + 2w) × S ≤ share × T" (Ask 5), of a record that is good. One always exists, since
/// Tmax is one.
pub fn period_with_share(record: Record, w: u16, q: u16, share: u64) -> u32 {
    const STEPPED_RANGE: u32 = 100_000;
    if record.tmax - record.tmin <= STEPPED_RANGE {
        stepped_period(record, w, q, share)
    } else {
        halved_period(record, w, q, share)
    }
}

/// The same worked out, since a scan of the charges asks for it at every step: the smallest whole T, then the next multiple of q.
pub fn worked_out_period(record: Record, w: u16, q: u16, share: u64) -> u32 {
    let whole = (record.cost(w) * SCALE).div_ceil(share).max(u64::from(record.tmin));
    whole.next_multiple_of(u64::from(q)) as u32
}

/// Tries every T of the range, the smallest first.
pub fn stepped_period(record: Record, w: u16, q: u16, share: u64) -> u32 {
    (record.tmin..=record.tmax)
        .find(|period| is_multiple(*period, q) && share_allows(record.cost(w), share, *period))
        .expect("one always exists")
}

/// Halves a range of notches whose upper end has the property; the property never ends as T grows.
pub fn halved_period(record: Record, w: u16, q: u16, share: u64) -> u32 {
    assert!(share_allows(record.cost(w), share, record.tmax), "one always exists");
    let notch = u32::from(q);
    let (mut low, mut high) = (record.tmin / notch, record.tmax / notch);
    while low < high {
        let middle = low + (high - low) / 2;
        if share_allows(record.cost(w), share, middle * notch) {
            high = middle;
        } else {
            low = middle + 1;
        }
    }
    low * notch
}
