//! Sheets in bytes, whole and damaged.

use crate::call::{Settings, Table};
use crate::definition::kinds::{Granted, Record, Sheet, MOST_TASKS};
use crate::random::Random;

/// The fields of a sheet, where every count may lie.
#[derive(Clone)]
pub struct Raw {
    pub settings_count: u16,
    pub settings: Vec<u16>,
    pub task_count: u16,
    pub rows: Vec<Record>,
    pub result_count: u16,
    pub results: Vec<Granted>,
}

/// As many numbers of the settings section as its count says: those that there are, then some that nobody knows, seven at the most.
fn settings_section(settings: Settings) -> Vec<u16> {
    let Settings { number, m, w, q, edition, .. } = settings;
    let numbers = [number, m, w, q, edition, 1, 1];
    numbers.into_iter().take(usize::from(settings.count)).collect()
}

impl Raw {
    /// A sheet whose counts tell the truth.
    pub fn honest(table: &Table, results: &[Granted]) -> Raw {
        Raw {
            settings_count: table.settings.count,
            settings: settings_section(table.settings),
            task_count: table.count,
            rows: table.rows.clone(),
            result_count: results.len() as u16,
            results: results.to_vec(),
        }
    }

    pub fn bytes(&self) -> Vec<u8> {
        let mut bytes = self.settings_count.to_le_bytes().to_vec();
        for number in self.settings.iter().chain([&self.task_count]) {
            bytes.extend(number.to_le_bytes());
        }
        for row in &self.rows {
            for number in [row.c, row.tmin, row.tmax, row.e] {
                bytes.extend(number.to_le_bytes());
            }
        }
        bytes.extend(self.result_count.to_le_bytes());
        for result in &self.results {
            bytes.extend(result.period.to_le_bytes());
            bytes.extend(result.processor.to_le_bytes());
        }
        bytes
    }
}

/// The sheet of a table, without results.
pub fn sheet_of(table: &Table) -> Vec<u8> {
    Raw::honest(table, &[]).bytes()
}

/// Results that nobody granted: "Older results in the program's input are never judged".
pub fn made_up_results(count: usize) -> Vec<Granted> {
    let made_up = |index: u32| Granted {
        period: index.wrapping_mul(2_654_435_761),
        processor: (index * 4_099) as u16,
    };
    (1..=count as u32).map(made_up).collect()
}

/// Results of any value.
pub fn random_results(random: &mut Random, count: usize) -> Vec<Granted> {
    let mut any = || Granted { period: random.next() as u32, processor: random.next() as u16 };
    (0..count).map(|_| any()).collect()
}

/// An honest sheet of a table, with or without results.
pub fn random_sheet(random: &mut Random, table: &Table) -> Raw {
    let results = if random.one_in(2) { random_results(random, table.rows.len()) } else { vec![] };
    Raw::honest(table, &results)
}

/// Settings counts, right and wrong; before other settings than they count even 2 to 5 are wrong.
pub const SETTINGS_COUNTS: [u16; 12] = [0, 1, 2, 3, 4, 5, 6, 7, 258, 261, 512, 65535];
/// Task counts above 32.
const BAD_TASK_COUNTS: [u16; 5] = [33, 34, 40, 256, 65535];

/// A sheet with one thing wrong, by chance still right.
pub fn damaged(random: &mut Random, raw: &Raw) -> Vec<u8> {
    let mut raw = raw.clone();
    match random.between(0, 7) {
        0 => raw.settings_count = random.pick(&SETTINGS_COUNTS),
        1 => raw.task_count = random.pick(&BAD_TASK_COUNTS),
        2 => raw.task_count = random.small(0, 32) as u16,
        3 => raw.result_count = random.small(0, 40) as u16,
        4 => return with_trailing_bytes(random, raw.bytes()),
        5 => return (0..random.between(0, 40)).map(|_| random.small(0, 3) as u8).collect(),
        _ => return cut(random, raw.bytes()),
    }
    let bytes = raw.bytes();
    if random.one_in(3) {
        cut(random, bytes)
    } else {
        bytes
    }
}

fn cut(random: &mut Random, mut bytes: Vec<u8>) -> Vec<u8> {
    bytes.truncate(random.place(bytes.len() + 1));
    bytes
}

fn with_trailing_bytes(random: &mut Random, mut bytes: Vec<u8>) -> Vec<u8> {
    for _ in 0..random.between(1, 20) {
        bytes.push(random.next() as u8);
    }
    bytes
}

/// An input longer than the longest sheet of two settings, at most 800 bytes: an honest start, then whatever.
pub fn overlong(random: &mut Random, raw: &Raw) -> Vec<u8> {
    let longest = Sheet::bytes_needed(2, MOST_TASKS, MOST_TASKS) as u64;
    let length = random.between(longest + 1, 800) as usize;
    let mut bytes = raw.bytes();
    while bytes.len() < length {
        bytes.push(random.next() as u8);
    }
    bytes
}
