//! The refusals, each with its number and its words. Printed by `scripts/refusals rust` from docs/refusals.txt.

use core::fmt;

/// The reasons for which a record is refused, in the order in which they are looked for.
const REASONS: [&str; 7] = [
    "C is 0",
    "C + 2w is above Tmin",
    "Tmin is above Tmax",
    "Tmax is above 1,000,000,000",
    "E is above 1,000,000",
    "Tmin is not a multiple of q",
    "Tmax is not a multiple of q",
];

/// Why a call was refused: a number of documents 01 and 02, with its place p where that is not 0. Its `Display` is one sentence on what to
/// look at.
#[derive(Clone, Copy, Debug, PartialEq, Eq, Hash)]
#[non_exhaustive]
pub enum Refusal {
    /// 1: the policy must be 1, 2, 4 or 5.
    NoSuchPolicy,
    /// 2: m must be 1 to 16 (policy 5: 1), q not 0, the edition 1 or 2.
    Misset,
    /// 3: a table has at most 32 tasks.
    TooManyTasks(usize),
    /// 4: policy 4 has no quick finder and no margin.
    PolicyNotServed,
    /// 5: what is lent is too short: p entries or bytes are needed.
    OutputTooShort(usize),
    /// 6: task p is not good.
    BadRecord(usize),
    /// 7: the tasks fit at no step, not even at full compression.
    NoStepPasses,
    /// 8: the sheet ends at byte p, where more is due.
    SheetEnds(usize),
    /// 9: the sheet must begin with a settings count of 2 to 5.
    WrongSettingsCount,
    /// 10: the result count is neither 0 nor the task count.
    WrongResultCount(usize),
    /// 11: the sheet is over at byte p, and bytes follow.
    BytesAfterLast(usize),
    /// 12: there is no task p to leave.
    NoSuchRecord(usize),
    /// 13: the processor proposed for task p is not 1 to m.
    ProcessorOutOfRange(usize),
    /// 14: the tasks proposed for processor p do not fit it.
    ProcessorOverfull(usize),
    /// 15: policy 3 is withdrawn: choose 1, 2, 4 or 5.
    PolicyWithdrawn,
    /// 16: line p (from 0) is not four numbers C,Tmin,Tmax,E.
    BadLine(usize),
    /// 17: the period of task p is 0 or above 1,000,000,000.
    BadPeriod(usize),
    /// 18: there are tasks without results: fill the sheet in first.
    NoResults,
    /// 19: the result of task p is not the one that we give.
    WrongResult(usize),
}

impl Refusal {
    /// The number that the documents give it.
    pub fn number(self) -> u32 {
        match self {
            Refusal::NoSuchPolicy => 1,
            Refusal::Misset => 2,
            Refusal::TooManyTasks(_) => 3,
            Refusal::PolicyNotServed => 4,
            Refusal::OutputTooShort(_) => 5,
            Refusal::BadRecord(_) => 6,
            Refusal::NoStepPasses => 7,
            Refusal::SheetEnds(_) => 8,
            Refusal::WrongSettingsCount => 9,
            Refusal::WrongResultCount(_) => 10,
            Refusal::BytesAfterLast(_) => 11,
            Refusal::NoSuchRecord(_) => 12,
            Refusal::ProcessorOutOfRange(_) => 13,
            Refusal::ProcessorOverfull(_) => 14,
            Refusal::PolicyWithdrawn => 15,
            Refusal::BadLine(_) => 16,
            Refusal::BadPeriod(_) => 17,
            Refusal::NoResults => 18,
            Refusal::WrongResult(_) => 19,
        }
    }

    /// The place that comes back with it.
    pub fn place(self) -> usize {
        match self {
            Refusal::TooManyTasks(place)
            | Refusal::OutputTooShort(place)
            | Refusal::BadRecord(place)
            | Refusal::SheetEnds(place)
            | Refusal::WrongResultCount(place)
            | Refusal::BytesAfterLast(place)
            | Refusal::NoSuchRecord(place)
            | Refusal::ProcessorOutOfRange(place)
            | Refusal::ProcessorOverfull(place)
            | Refusal::BadLine(place)
            | Refusal::BadPeriod(place)
            | Refusal::WrongResult(place) => place,
            _ => 0,
        }
    }

    /// The refusal of a number at a place; `None` where no refusal has that number.
    pub fn of(number: u32, place: usize) -> Option<Refusal> {
        Some(match number {
            1 => Refusal::NoSuchPolicy,
            2 => Refusal::Misset,
            3 => Refusal::TooManyTasks(place),
            4 => Refusal::PolicyNotServed,
            5 => Refusal::OutputTooShort(place),
            6 => Refusal::BadRecord(place),
            7 => Refusal::NoStepPasses,
            8 => Refusal::SheetEnds(place),
            9 => Refusal::WrongSettingsCount,
            10 => Refusal::WrongResultCount(place),
            11 => Refusal::BytesAfterLast(place),
            12 => Refusal::NoSuchRecord(place),
            13 => Refusal::ProcessorOutOfRange(place),
            14 => Refusal::ProcessorOverfull(place),
            15 => Refusal::PolicyWithdrawn,
            16 => Refusal::BadLine(place),
            17 => Refusal::BadPeriod(place),
            18 => Refusal::NoResults,
            19 => Refusal::WrongResult(place),
            _ => return None,
        })
    }
}

impl fmt::Display for Refusal {
    fn fmt(&self, f: &mut fmt::Formatter<'_>) -> fmt::Result {
        match self {
            Refusal::NoSuchPolicy => write!(f, "the policy must be 1, 2, 4 or 5"),
            Refusal::Misset => {
                write!(f, "m must be 1 to 16 (policy 5: 1), q not 0, the edition 1 or 2")
            }
            Refusal::TooManyTasks(_) => write!(f, "a table has at most 32 tasks"),
            Refusal::PolicyNotServed => write!(f, "policy 4 has no quick finder and no margin"),
            Refusal::OutputTooShort(place) => {
                write!(f, "what is lent is too short: {place} entries or bytes are needed")
            }
            Refusal::BadRecord(place) => {
                write!(f, "task {place} is not good: {}", REASONS[0])?;
                REASONS[1..].iter().try_for_each(|reason| write!(f, ", or {reason}"))
            }
            Refusal::NoStepPasses => {
                write!(f, "the tasks fit at no step, not even at full compression")
            }
            Refusal::SheetEnds(place) => {
                write!(f, "the sheet ends at byte {place}, where more is due")
            }
            Refusal::WrongSettingsCount => {
                write!(f, "the sheet must begin with a settings count of 2 to 5")
            }
            Refusal::WrongResultCount(_) => {
                write!(f, "the result count is neither 0 nor the task count")
            }
            Refusal::BytesAfterLast(place) => {
                write!(f, "the sheet is over at byte {place}, and bytes follow")
            }
            Refusal::NoSuchRecord(place) => write!(f, "there is no task {place} to leave"),
            Refusal::ProcessorOutOfRange(place) => {
                write!(f, "the processor proposed for task {place} is not 1 to m")
            }
            Refusal::ProcessorOverfull(place) => {
                write!(f, "the tasks proposed for processor {place} do not fit it")
            }
            Refusal::PolicyWithdrawn => write!(f, "policy 3 is withdrawn: choose 1, 2, 4 or 5"),
            Refusal::BadLine(place) => {
                write!(f, "line {place} (from 0) is not four numbers C,Tmin,Tmax,E")
            }
            Refusal::BadPeriod(place) => {
                write!(f, "the period of task {place} is 0 or above 1,000,000,000")
            }
            Refusal::NoResults => {
                write!(f, "there are tasks without results: fill the sheet in first")
            }
            Refusal::WrongResult(place) => {
                write!(f, "the result of task {place} is not the one that we give")
            }
        }
    }
}

impl core::error::Error for Refusal {}
