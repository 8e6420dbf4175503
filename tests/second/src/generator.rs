//! The calls of a seed: first the bench cases and the edges, the same for every seed,
//! then calls that hang on the seed and on their index only.

pub mod bench;
mod clock_runs;
mod edges_of_checked;
pub mod edges_of_clock;
mod edges_of_editions;
mod edges_of_finders;
mod edges_of_keeping;
mod edges_of_notches;
pub mod edges_of_office;
mod edges_of_proposals;
mod edges_of_records;
mod edges_of_relief;
mod edges_of_sheets;
mod edges_of_swaps;
pub mod edges_of_wide;
mod keepings;
mod mix;
mod office_texts;
pub mod proposals;
pub mod sheets;
pub mod tables;
mod wide_tables;

use crate::call::Call;
use crate::random::Random;

pub struct Calls {
    seed: u64,
    fixed: Vec<Call>,
}

impl Calls {
    pub fn of_seed(seed: u64) -> Calls {
        let mut fixed = bench::calls();
        fixed.extend(edges_of_finders::calls());
        fixed.extend(edges_of_swaps::calls());
        fixed.extend(edges_of_notches::calls());
        fixed.extend(edges_of_editions::calls());
        fixed.extend(edges_of_sheets::calls());
        fixed.extend(edges_of_wide::calls());
        fixed.extend(edges_of_checked::calls());
        fixed.extend(edges_of_clock::calls());
        fixed.extend(edges_of_office::calls());
        fixed.extend(edges_of_proposals::calls());
        fixed.extend(edges_of_keeping::calls());
        fixed.extend(edges_of_relief::calls());
        fixed.extend(edges_of_records::calls());
        Calls { seed, fixed }
    }

    /// How many calls stand before the random ones.
    pub fn fixed_count(&self) -> usize {
        self.fixed.len()
    }

    /// The call at an index, the same in every run.
    pub fn call(&self, index: usize) -> Call {
        match self.fixed.get(index) {
            Some(call) => call.clone(),
            None => mix::random_call(&mut Random::of_call(self.seed, index as u64), index),
        }
    }
}
