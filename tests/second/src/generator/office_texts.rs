//! Random tables and texts of the office, the texts often damaged.

use super::edges_of_office::LINES;
use crate::call::{Call, Exporting};
use crate::definition::kinds::Record;
use crate::definition::office::text_of;
use crate::random::Random;

/// Numbers of any size, good as a task or not.
fn any_rows(random: &mut Random) -> Vec<Record> {
    let count = match random.between(0, 9) {
        0 => random.small(30, 32),
        1 => random.small(7, 29),
        _ => random.small(0, 6),
    };
    let mut number = || match random.between(0, 9) {
        0 => 0,
        1 => u32::MAX,
        _ => random.of_any_size(u32::MAX),
    };
    (0..count).map(|_| Record::new(number(), number(), number(), number())).collect()
}

/// Some bytes of a text changed, dropped, put in or said twice.
fn damage(random: &mut Random, text: &mut Vec<u8>) {
    for _ in 0..random.small(1, 2) {
        let byte = random.pick(b"0019,,\n\n\r -+.x\0");
        let place = random.place(text.len() + 1);
        match random.between(0, 4) {
            0 => text.insert(place, byte),
            1 if place < text.len() => text[place] = byte,
            2 if place < text.len() => drop(text.remove(place)),
            3 if place < text.len() => text.insert(place, text[place]),
            _ => text.truncate(place),
        }
    }
}

/// A text, mostly of a table; else damaged, with a line put in or with lines after it.
pub fn import(random: &mut Random) -> Call {
    let rows = any_rows(random);
    let mut text = text_of(&rows);
    let mut lines = rows.len() as u32;
    match random.between(0, 9) {
        0..=3 => damage(random, &mut text),
        4 => text.extend(format!("{}\n", random.pick(&LINES)).into_bytes()),
        5 => {
            while lines <= 32 && text.len() < 1_800 {
                text.extend(text_of(&[Record::new(1, 2, 3, 4)]));
                lines += 1;
            }
        }
        _ => {}
    }
    let entries = match random.between(0, 9) {
        0 => lines.saturating_sub(1),
        1 => random.small(0, 40),
        2..=4 => random.small(lines, 40),
        _ => lines,
    };
    Call::Import { entries: entries as u8, text }
}

/// A table, seldom with a count above 32 or a short output.
pub fn export(random: &mut Random) -> Call {
    let mut rows = any_rows(random);
    let mut count = rows.len() as u16;
    if random.one_in(20) {
        rows.resize(32, Record::new(1, 10, 20, 1000));
        count = random.pick(&[32, 33, 34, 64, 65535]);
    }
    let needed = text_of(&rows).len() as u32;
    let room = match random.between(0, 9) {
        0 => needed.saturating_sub(1),
        1 => random.small(0, needed),
        2..=5 => random.small(needed, 1_500),
        _ => needed,
    };
    Call::Export(Exporting { count, room: room as u16, rows })
}
