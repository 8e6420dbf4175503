//! The kinds that documents 01 and 02 speak of.

use crate::boundary;

/// The most tasks of a table.
pub const MOST_TASKS: usize = 32;

/// A task record: cost C, shortest and longest period in ticks, elasticity E. Any numbers may stand in it; a finder refuses one that is not
/// good by [`Refusal::BadRecord`](crate::Refusal::BadRecord).
#[repr(C)]
#[derive(Clone, Copy, Debug, Default, PartialEq, Eq, Hash)]
pub struct Task {
    /// The cost C of a job, in ticks, without its swaps.
    pub c: u32,
    /// The shortest period.
    pub tmin: u32,
    /// The longest period.
    pub tmax: u32,
    /// By how many parts of a million the share falls with each step.
    pub e: u32,
}

impl Task {
    /// A record of these numbers.
    pub const fn new(c: u32, tmin: u32, tmax: u32, e: u32) -> Task {
        Task { c, tmin, tmax, e }
    }
}

/// A task that needs several cores: a cost C, a span L, and the rest as a [`Task`] has it. It is good when 1 ≤ L < Tmin, L < C,
/// Tmax < C ≤ 16 × Tmin, Tmin ≤ Tmax ≤ 1,000,000,000 and E ≤ 1,000,000.
#[repr(C)]
#[derive(Clone, Copy, Debug, Default, PartialEq, Eq, Hash)]
pub struct WideTask {
    /// The cost C of a job, in ticks, over all its cores.
    pub c: u64,
    /// The span L: what no number of cores makes shorter.
    pub l: u32,
    /// The shortest period.
    pub tmin: u32,
    /// The longest period.
    pub tmax: u32,
    /// By how many parts of a million the share falls with each step.
    pub e: u32,
}

/// What is granted a task: its period, and its processor.
#[repr(C)]
#[derive(Clone, Copy, Debug, Default, PartialEq, Eq, Hash)]
pub struct Granted {
    /// The period, in ticks.
    pub period: u32,
    /// The processor, from 1, and 0 where any will do.
    pub processor: u16,
}

/// How the tasks are scheduled.
#[derive(Clone, Copy, Debug, PartialEq, Eq, Hash)]
pub enum Policy {
    /// 1: pooled: EDF on one processor; on more a fluid kernel, since global EDF misses deadlines under some of its plans.
    Pooled,
    /// 2: global EDF.
    GlobalEdf,
    /// 3: global RM, which is withdrawn: a finder refuses it.
    GlobalRm,
    /// 4: partitioned EDF, first fit.
    FirstFit,
    /// 5: rate monotonic on one processor.
    OneCoreRm,
    /// Any other number, which a sheet may have; one that holds 1 to 5 means that policy.
    Further(u16),
}

impl Policy {
    /// The policy of a number.
    pub fn of(number: u16) -> Policy {
        match number {
            1 => Policy::Pooled,
            2 => Policy::GlobalEdf,
            3 => Policy::GlobalRm,
            4 => Policy::FirstFit,
            5 => Policy::OneCoreRm,
            _ => Policy::Further(number),
        }
    }

    /// The number of a policy.
    pub fn number(self) -> u16 {
        match self {
            Policy::Pooled => 1,
            Policy::GlobalEdf => 2,
            Policy::GlobalRm => 3,
            Policy::FirstFit => 4,
            Policy::OneCoreRm => 5,
            Policy::Further(number) => number,
        }
    }
}

/// What the tests of the policies, the loads of a proposal and the margin go by. The periods and full compression go by the shares in both.
#[derive(Clone, Copy, Debug, PartialEq, Eq, Hash)]
pub enum Edition {
    /// 1: a task counts with its share at the step.
    Share,
    /// 2: a task counts with what the period granted at the step charges it, (C + 2w) * 1,000,000 / period rounded up.
    Charge,
    /// Any other number, which a sheet may have; one that holds 1 or 2 means that edition.
    Further(u16),
}

impl Edition {
    /// The edition of a number.
    pub fn of(number: u16) -> Edition {
        match number {
            1 => Edition::Share,
            2 => Edition::Charge,
            _ => Edition::Further(number),
        }
    }

    /// The number of an edition.
    pub fn number(self) -> u16 {
        match self {
            Edition::Share => 1,
            Edition::Charge => 2,
            Edition::Further(number) => number,
        }
    }
}

/// The settings of a station.
#[derive(Clone, Copy, Debug, PartialEq, Eq, Hash)]
pub struct Station {
    /// How the tasks are scheduled.
    pub policy: Policy,
    /// How many processors there are, 1 to 16.
    pub m: u16,
    /// The swap cost in ticks: each job costs C + 2w.
    pub w: u16,
    /// The notch in ticks: each period is a multiple of it. It is not 0.
    pub q: u16,
    /// Whether tasks count with their shares or with their charges.
    pub edition: Edition,
}

impl Station {
    /// A station where swaps cost nothing, every tick can be timed, and tasks count with their shares.
    pub const fn new(policy: Policy, m: u16) -> Station {
        Station { policy, m, w: 0, q: 1, edition: Edition::Share }
    }

    pub(crate) fn numbers(self) -> boundary::Station {
        let Station { policy, m, w, q, edition } = self;
        boundary::Station { policy: policy.number(), m, w, q, edition: edition.number() }
    }

    #[cfg(feature = "alloc")]
    pub(crate) fn of(numbers: boundary::Station) -> Station {
        let boundary::Station { policy, m, w, q, edition } = numbers;
        Station { policy: Policy::of(policy), m, w, q, edition: Edition::of(edition) }
    }
}
