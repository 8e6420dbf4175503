//! What tests, margin and processors go over at a step: the share of each task, and under Ask 10's second edition its charge.

use super::admission::Question;
use super::kinds::Record;
use super::share::{full_compression, share_with_period, springs, worked_out_period, Spring};

/// Ask 10: the edition that reads "charge" for "share".
pub const CHARGED: u16 = 2;

/// Ask 10: "cost × S / period rounded up at that step's period"; the period goes by the share in both editions.
pub fn charge_with_share(record: Record, w: u16, q: u16, share: u64) -> u64 {
    share_with_period(record.cost(w), worked_out_period(record, w, q, share))
}

/// The loads of records that are good, with what a scan needs of them worked out once.
pub struct Loads<'a> {
    rows: &'a [Record],
    w: u16,
    q: u16,
    edition: u16,
    springs: Vec<Spring>,
}

impl<'a> Loads<'a> {
    pub fn of_rows(rows: &'a [Record], w: u16, q: u16, edition: u16) -> Loads<'a> {
        Loads { rows, w, q, edition, springs: springs(rows, w) }
    }

    /// The loads of a question that is admitted.
    pub fn of(question: &'a Question) -> Loads<'a> {
        Loads::of_rows(&question.rows, question.w, question.q, question.edition)
    }

    /// Puts the loads of a step, in record order, into a list of as many.
    pub fn put(&self, step: u32, loads: &mut [u64]) {
        for ((load, row), spring) in loads.iter_mut().zip(self.rows).zip(&self.springs) {
            *load = spring.share_at(step);
            if self.edition == CHARGED {
                *load = charge_with_share(*row, self.w, self.q, *load);
            }
        }
    }

    /// The loads of a step, in record order.
    pub fn at(&self, step: u32) -> Vec<u64> {
        let mut loads = vec![0; self.rows.len()];
        self.put(step, &mut loads);
        loads
    }

    /// K, which goes by the shares in both editions.
    pub fn full_compression(&self) -> u32 {
        full_compression(&self.springs)
    }
}
