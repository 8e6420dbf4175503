//! What crosses to C: the structs and the calls of `include/eelbasket.h`, in its order.

use crate::kept::{Kept, Table};
use crate::kinds::{Granted, Task, WideTask, MOST_TASKS};
use crate::refusal::Refusal;
use crate::sheets::LONGEST_SHEET;
use crate::Clock;

#[repr(C)]
#[derive(Clone, Copy)]
pub struct Station {
    pub policy: u16,
    pub m: u16,
    pub w: u16,
    pub q: u16,
    pub edition: u16,
}

#[repr(C)]
pub struct Told {
    pub number: u32,
    pub step: u32,
    pub looks: u32,
    pub place: usize,
}

#[repr(C)]
pub struct Verdict {
    pub number: u32,
    pub place: usize,
}

#[repr(C)]
pub struct Margin {
    pub number: u32,
    pub place: usize,
    pub margin: i64,
}

#[repr(C)]
pub struct Relief {
    pub number: u32,
    pub least: u32,
    pub more: u32,
    pub place: usize,
}

#[repr(C)]
pub struct Results {
    pub rows: [Granted; MOST_TASKS],
    pub n: usize,
}

#[repr(C)]
pub struct Sheet {
    pub settings_count: usize,
    pub station: Station,
    pub table: Table,
    pub results: Results,
}

#[repr(C)]
pub struct Reading {
    pub number: u32,
    pub place: usize,
    pub sheet: Sheet,
}

#[repr(C)]
pub struct Counted {
    pub number: u32,
    pub place: usize,
    pub count: usize,
}

#[repr(C)]
pub struct Part {
    pub which: u32,
    pub place: usize,
    pub size: usize,
}

#[repr(C)]
pub struct Changed {
    pub number: u32,
    pub place: usize,
    pub kept: Kept,
}

#[repr(C)]
pub struct Started {
    pub number: u32,
    pub place: usize,
    pub clock: Clock,
}

#[repr(C)]
pub struct Called {
    pub number: u32,
    pub due: u32,
    pub task: usize,
    pub place: usize,
    pub clock: Clock,
}

extern "C" {
    pub fn eelbasket_plain(
        rows: *const Task,
        tasks: usize,
        station: Station,
        periods: *mut u32,
        periods_len: usize,
        processors: *mut u16,
        processors_len: usize,
    ) -> Told;
    pub fn eelbasket_quick(
        rows: *const Task,
        tasks: usize,
        station: Station,
        periods: *mut u32,
        periods_len: usize,
        processors: *mut u16,
        processors_len: usize,
    ) -> Told;
    pub fn eelbasket_margin(rows: *const Task, tasks: usize, station: Station, step: u32)
        -> Margin;
    pub fn eelbasket_relief(
        rows: *const Task,
        tasks: usize,
        station: Station,
        without: *mut u32,
        without_len: usize,
    ) -> Relief;
    pub fn eelbasket_check_proposal(
        rows: *const Task,
        tasks: usize,
        station: Station,
        step: u32,
        proposal: *const u16,
        proposal_len: usize,
        loads: *mut u32,
        loads_len: usize,
    ) -> Verdict;
    pub fn eelbasket_wide(
        rows: *const WideTask,
        tasks: usize,
        m: u16,
        periods: *mut u32,
        periods_len: usize,
        cores: *mut u16,
        cores_len: usize,
    ) -> Told;
    pub fn eelbasket_reason(task: Task, w: u16, q: u16) -> u32;
    pub fn eelbasket_wide_reason(task: WideTask) -> u32;
    pub fn eelbasket_share(task: Task, station: Station, step: u32) -> u32;
    pub fn eelbasket_read(sheet: *const u8, sheet_len: usize) -> Reading;
    pub fn eelbasket_write(sheet: Sheet, out: *mut u8, out_len: usize) -> Counted;
    pub fn eelbasket_fill(
        sheet: *const u8,
        sheet_len: usize,
        out: *mut [u8; LONGEST_SHEET],
    ) -> Counted;
    pub fn eelbasket_check(sheet: *const u8, sheet_len: usize) -> Verdict;
    pub fn eelbasket_change_over(
        standing: *const u8,
        standing_len: usize,
        proposed: *const u8,
        proposed_len: usize,
    ) -> Part;
    pub fn eelbasket_join(kept: Kept, w: u16, q: u16, task: Task) -> Changed;
    pub fn eelbasket_leave(kept: Kept, w: u16, q: u16, record: usize) -> Changed;
    pub fn eelbasket_import(
        text: *const u8,
        text_len: usize,
        rows: *mut Task,
        rows_len: usize,
    ) -> Counted;
    pub fn eelbasket_export(
        rows: *const Task,
        tasks: usize,
        out: *mut u8,
        out_len: usize,
    ) -> Counted;
    pub fn eelbasket_clock_start(periods: *const u32, tasks: usize, tick: u32) -> Started;
    pub fn eelbasket_clock_call(clock: Clock, present: u32) -> Called;
}

/// What a call hands back where its number is 0, and the refusal of its number and place otherwise.
pub fn judged<T>(number: u32, place: usize, value: T) -> Result<T, Refusal> {
    match number {
        0 => Ok(value),
        _ => Err(Refusal::of(number, place).unwrap_or_else(|| {
            panic!("the library refuses by {number}, which this crate does not know")
        })),
    }
}
