//! Ask 4: tasks that need several cores, their rules and their finder.

use super::kinds::{refuse, Record, Refusal, MOST_PROCESSORS, MOST_TASKS, SCALE};
use super::share::{full_compression, Spring};

/// "A second kind of task": a span L beside C.
#[derive(Clone, Copy, Debug, Default, PartialEq, Eq)]
pub struct WideRecord {
    pub c: u64,
    pub l: u32,
    pub tmin: u32,
    pub tmax: u32,
    pub e: u32,
}

impl WideRecord {
    /// "C at most 16 × Tmin"
    pub const MOST_TMINS: u64 = 16;

    pub const fn new(c: u64, l: u32, tmin: u32, tmax: u32, e: u32) -> WideRecord {
        WideRecord { c, l, tmin, tmax, e }
    }

    /// "1 ≤ L < Tmin, L < C, Tmax < C, C at most 16 × Tmin, and Tmax and E as in 01"
    pub fn is_good(self) -> bool {
        1 <= self.l
            && self.l < self.tmin
            && u64::from(self.l) < self.c
            && u64::from(self.tmax) < self.c
            && self.c <= WideRecord::MOST_TMINS * u64::from(self.tmin)
            && self.tmin <= self.tmax
            && self.tmax <= Record::GREATEST_PERIOD
            && self.e <= Record::GREATEST_ELASTICITY
    }

    fn share_with_period(self, period: u32) -> u64 {
        (self.c * SCALE).div_ceil(u64::from(period))
    }

    /// The spring of a good record; document 01's rules, though a share may be above S.
    pub fn spring(self) -> Spring {
        Spring {
            largest: self.share_with_period(self.tmin),
            least: self.share_with_period(self.tmax),
            elasticity: u64::from(self.e),
        }
    }

    /// "the smallest whole T from Tmin to Tmax with C × S ≤ share × T", worked out, since a scan asks for it at every step.
    pub fn period_with_share(self, share: u64) -> u32 {
        (self.c * SCALE).div_ceil(share).max(u64::from(self.tmin)) as u32
    }

    /// "(C − L) / (T − L) rounded up"
    pub fn cores_with_period(self, period: u32) -> u64 {
        (self.c - u64::from(self.l)).div_ceil(u64::from(period - self.l))
    }
}

/// What the finder is asked about. Of more than 32 tasks only 32 rows are kept.
#[derive(Clone, Debug)]
pub struct WideQuestion {
    pub m: u16,
    pub count: usize,
    pub rows: Vec<WideRecord>,
}

impl WideQuestion {
    /// Refuses by 2, 3, 5 and 6 in this order.
    fn admit(&self, rooms: &[usize]) -> Result<(), Refusal> {
        if self.m == 0 || self.m > MOST_PROCESSORS {
            return refuse(2, 0);
        }
        if self.count > MOST_TASKS {
            return refuse(3, self.count);
        }
        if rooms.iter().any(|room| *room < self.count) {
            return refuse(5, self.count);
        }
        match self.rows.iter().position(|row| !row.is_good()) {
            Some(first) => refuse(6, first),
            None => Ok(()),
        }
    }

    /// Scans every step from 0 to K and answers the first at which the cores add up to at most m.
    fn least_passing_step(&self) -> Option<u32> {
        let springs: Vec<Spring> = self.rows.iter().map(|row| row.spring()).collect();
        (0..=full_compression(&springs)).find(|step| {
            let cores = self.rows.iter().zip(&springs).map(|(row, spring)| {
                row.cores_with_period(row.period_with_share(spring.share_at(*step)))
            });
            cores.sum::<u64>() <= u64::from(self.m)
        })
    }
}

/// The finder: the step with each task's period and cores, or the refusal that leaves both outputs as they were.
pub fn find_wide(
    question: &WideQuestion,
    periods: &mut [u32],
    cores: &mut [u16],
) -> Result<u32, Refusal> {
    question.admit(&[periods.len(), cores.len()])?;
    let Some(step) = question.least_passing_step() else {
        return refuse(7, 0);
    };
    for (index, row) in question.rows.iter().enumerate() {
        periods[index] = row.period_with_share(row.spring().share_at(step));
        cores[index] = row.cores_with_period(periods[index]) as u16;
    }
    Ok(step)
}
