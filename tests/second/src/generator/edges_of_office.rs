//! The edges of import and export: damaged lines, the limits of a number and of a table, outputs around what is needed.

use crate::call::{Call, Exporting};
use crate::definition::kinds::Record;
use crate::definition::office::text_of;

/// The request's task.
pub const WHOLE_TEXT: &str = "6,10,20,1000\n";

/// The longest line.
pub const LONGEST: Record = Record::new(u32::MAX, u32::MAX, u32::MAX, u32::MAX);

/// Lines, most of which are bad, without a newline.
pub const LINES: [&str; 38] = [
    "6,10,20,1000",
    "0,0,0,0",
    "4294967295,4294967295,4294967295,4294967295",
    "4294967296,0,0,0",
    "0,4294967296,0,0",
    "0,0,0,4294967296",
    "4294967300,0,0,0",
    "42949672950,0,0,0",
    "18446744073709551616,0,0,0",
    "18446744073709551622,0,0,0",
    "123456789012345678901234567890,0,0,0",
    "0,0,0,999999999999999999999999999999",
    "000000000000000000000000000000,0,0,0",
    "00,0,0,0",
    "0,0,0,00",
    "06,10,20,1000",
    "6,010,20,1000",
    "+6,10,20,1000",
    "-6,10,20,1000",
    " 6,10,20,1000",
    "6 ,10,20,1000",
    "6, 10,20,1000",
    "6,10,20,1000 ",
    "6,10,20,1000\r",
    "6,10,20,1000\t",
    "6,10,20,1000\0",
    "6,10,20",
    "6,10,20,",
    ",10,20,1000",
    "6,,20,1000",
    "6,10,20,1000,",
    "6,10,20,1000,1",
    "6;10;20;1000",
    "6,10,20,1000.0",
    "6,10,20,1e3",
    "6,10,20,0x10",
    "",
    "\u{663},1,1,1",
];

pub fn calls() -> Vec<Call> {
    let mut calls = lines();
    calls.extend(counts());
    calls.extend(rooms());
    calls.extend(exports());
    calls
}

pub fn import(entries: u8, text: &str) -> Call {
    Call::Import { entries, text: text.as_bytes().to_vec() }
}

/// Each line alone, after a good one, before one, and without its newline; a good text with each of these at its end.
fn lines() -> Vec<Call> {
    let mut calls = vec![import(0, ""), import(40, "")];
    for line in LINES {
        calls.push(import(32, &format!("{line}\n")));
        calls.push(import(3, &format!("{WHOLE_TEXT}{line}\n")));
        calls.push(import(3, &format!("{line}\n{WHOLE_TEXT}")));
        calls.push(import(2, line));
        calls.push(import(2, &format!("{WHOLE_TEXT}{line}")));
    }
    for end in ["\n", "\r\n", "\n\n", ",", "0", " ", "\0"] {
        calls.push(import(2, &format!("{WHOLE_TEXT}{end}")));
    }
    calls
}

/// 31, 32 and 33 lines, and what may follow or be damaged there.
fn counts() -> Vec<Call> {
    let mut calls = Vec::new();
    for count in [31, 32, 33] {
        let text = WHOLE_TEXT.repeat(count);
        for end in ["", "\n", "x", ",", "6", "6,10,20,1000", "6,10,20,1000\r\n", "0\n"] {
            calls.push(import(40, &format!("{text}{end}")));
        }
        for place in [0, 30, 31] {
            let damaged = format!("{}x\n{}", WHOLE_TEXT.repeat(place), WHOLE_TEXT.repeat(count));
            calls.push(import(40, &damaged[..damaged.len().min(1_900)]));
        }
    }
    let longest = text_of(&[LONGEST; 32]);
    calls.push(Call::Import { entries: 32, text: longest.clone() });
    calls.push(Call::Import { entries: 32, text: [&longest[..], b"4"].concat() });
    calls.push(Call::Import { entries: 32, text: longest[..longest.len() - 1].to_vec() });
    calls
}

/// Outputs of fewer rows than there are lines, and of more; 5 comes after 16 and 3.
fn rooms() -> Vec<Call> {
    let mut calls = Vec::new();
    for count in [0, 1, 2, 31, 32, 33] {
        for entries in [0, 1, 2, 3, 30, 31, 32, 33, 40] {
            calls.push(import(entries, &WHOLE_TEXT.repeat(count)));
        }
    }
    for entries in [0, 1, 2] {
        calls.push(import(entries, &format!("{WHOLE_TEXT}{WHOLE_TEXT}x")));
    }
    calls
}

/// Tables around the limits, with outputs just long enough, one byte more and one less, none and the most.
fn exports() -> Vec<Call> {
    let mut calls = Vec::new();
    let record = Record::new(6, 10, 20, 1000);
    let digits = Record::new(9, 10, 99_999, 1_000_000_000);
    for row in [Record::default(), record, digits, LONGEST] {
        for count in [0, 1, 2, 31, 32] {
            let rows = vec![row; count];
            let needed = text_of(&rows).len() as u16;
            for room in [needed, needed + 1, needed.saturating_sub(1), 0, 1_500] {
                calls.push(Call::Export(Exporting {
                    count: count as u16,
                    room,
                    rows: rows.clone(),
                }));
            }
        }
    }
    for count in [33, 34, 40, 64, 65535] {
        for room in [0, 5, 1_500] {
            calls.push(Call::Export(Exporting { count, room, rows: vec![record; 32] }));
        }
    }
    calls
}
