//! The edges of sheets: every truncation, bad counts, trailing bytes, long inputs, short buffers.

use super::bench::case_k_rows;
use super::sheets::{made_up_results, sheet_of, Raw, SETTINGS_COUNTS};
use crate::call::{present, Call, Settings, Table, Writing};
use crate::definition::kinds::{Record, Sheet};

pub fn calls() -> Vec<Call> {
    let mut calls = truncations();
    calls.extend(bad_counts());
    calls.extend(trailing_bytes());
    calls.extend(over_the_limit());
    calls.extend(writings());
    calls.extend(change_overs());
    calls
}

/// Two tasks of case B with made-up results: 54 bytes.
fn two_tasks() -> Raw {
    Raw::honest(&Table::new(1, 1, &[Record::new(6, 10, 20, 1000); 2]), &made_up_results(2))
}

/// The same with a swap cost: 56 bytes.
fn two_tasks_with_swaps(w: u16) -> Raw {
    let table = Table::new(1, 1, &[Record::new(6, 10, 20, 1000); 2]).with_swaps(w);
    Raw::honest(&table, &made_up_results(2))
}

/// The same with a swap cost and notches: 58 bytes.
fn two_tasks_with_notches(q: u16) -> Raw {
    let table = Table::new(1, 1, &[Record::new(6, 10, 20, 1000); 2]).with_swaps(1).with_notches(q);
    Raw::honest(&table, &made_up_results(2))
}

/// The same with an edition beside them: 60 bytes.
fn two_tasks_in_edition(edition: u16) -> Raw {
    let table = Table::new(1, 1, &[Record::new(6, 10, 20, 1000); 2]).with_swaps(1).with_notches(5);
    Raw::honest(&table.with_edition(edition), &made_up_results(2))
}

/// The longest sheet of two settings, 714 bytes.
fn full() -> Raw {
    let rows: Vec<Record> = (1..=32).map(|c| Record::new(c, 500, 1000, 100 * c)).collect();
    Raw::honest(&Table::new(2, 3, &rows), &made_up_results(32))
}

/// The longest sheet of three settings, 716 bytes.
fn full_with_swaps() -> Raw {
    Raw { settings_count: 3, settings: vec![2, 3, 1], ..full() }
}

/// The longest sheet of four settings, 718 bytes.
fn full_with_notches() -> Raw {
    Raw { settings_count: 4, settings: vec![2, 3, 1, 250], ..full() }
}

/// The longest sheet, 720 bytes.
fn full_in_edition(edition: u16) -> Raw {
    Raw { settings_count: 5, settings: vec![2, 3, 1, 250, edition], ..full() }
}

/// Two tasks on a sheet of two to five settings.
fn small_sheets() -> [Raw; 4] {
    [two_tasks(), two_tasks_with_swaps(1), two_tasks_with_notches(5), two_tasks_in_edition(2)]
}

/// The longest sheets of two to five settings.
fn long_sheets() -> [Raw; 4] {
    [full(), full_with_swaps(), full_with_notches(), full_in_edition(2)]
}

/// A case whose answers name processors: case K with older results.
fn case_k() -> Raw {
    Raw::honest(&Table::new(4, 3, &case_k_rows()), &made_up_results(7))
}

/// The first bytes of a sheet, read and given to the program.
fn cut_to(bytes: &[u8], length: usize) -> [Call; 2] {
    [Call::Read(bytes[..length].to_vec()), Call::Program(bytes[..length].to_vec())]
}

/// "every truncation of a sheet" of two to five settings, and of the longest ones those around their sections.
fn truncations() -> Vec<Call> {
    let mut calls = Vec::new();
    for small in small_sheets() {
        let small = small.bytes();
        calls.extend((0..=small.len()).flat_map(|length| cut_to(&small, length)));
    }
    let telling = [7, 8, 9, 23, 24, 25, 504, 505, 519, 520, 521, 522, 523, 527, 528, 712, 713, 714];
    for (long, more) in long_sheets().into_iter().zip([0, 2, 4, 6]) {
        let long = long.bytes();
        calls.extend(telling.into_iter().flat_map(|length| cut_to(&long, length + more)));
        let every = (0..=long.len()).step_by(31);
        calls.extend(every.map(|length| Call::Program(long[..length].to_vec())));
    }
    calls.push(Call::Program(case_k().bytes()));
    calls
}

/// A sheet and its two ends: as it is, and cut right behind the count that stands at a place.
fn judged_at(raw: &Raw, place: usize) -> Vec<Call> {
    let bytes = raw.bytes();
    let mut calls = vec![Call::Read(bytes.clone()), Call::Program(bytes.clone())];
    for length in [place + 1, place + 2, place + 3] {
        if length < bytes.len() {
            calls.push(Call::Read(bytes[..length].to_vec()));
        }
    }
    calls
}

/// "a count is judged as soon as its two bytes are there"
fn bad_counts() -> Vec<Call> {
    let mut calls = Vec::new();
    for settings_count in SETTINGS_COUNTS {
        let rows = [Record::new(6, 10, 20, 1000); 2];
        let mut honest = Table::new(1, 1, &rows).with_swaps(1).with_notches(5).with_edition(2);
        honest.settings.count = settings_count;
        calls.extend(judged_at(&Raw::honest(&honest, &[]), 0));
        for small in small_sheets() {
            calls.extend(judged_at(&Raw { settings_count, ..small }, 0));
        }
    }
    for (whole, place) in small_sheets().into_iter().zip([6, 8, 10, 12]) {
        for task_count in [0, 1, 3, 32, 33, 34, 40, 256, 65535] {
            calls.extend(judged_at(&Raw { task_count, ..whole.clone() }, place));
        }
        for result_count in [0, 1, 3, 4, 32, 33, 40, 256, 258, 65535] {
            calls.extend(judged_at(&Raw { result_count, ..whole.clone() }, place + 34));
        }
    }
    let empty = Raw::honest(&Table::new(1, 1, &[]), &[]);
    for result_count in [0, 1, 32, 65535] {
        calls.extend(judged_at(&Raw { result_count, ..empty.clone() }, 8));
    }
    calls
}

/// 11 at the first byte too many, with and without results.
fn trailing_bytes() -> Vec<Call> {
    let without = sheet_of(&Table::new(3, 2, &[Record::new(6, 10, 20, 1000); 3]));
    let empty = sheet_of(&Table::new(1, 1, &[]));
    let mut calls = Vec::new();
    let small = small_sheets().map(|raw| raw.bytes());
    for sheet in small.into_iter().chain([without, empty]) {
        for more in [1, 2, 6, 16] {
            let mut bytes = sheet.clone();
            bytes.extend(vec![0; more]);
            calls.push(Call::Read(bytes.clone()));
            calls.push(Call::Program(bytes));
        }
    }
    calls
}

/// Inputs of 714 to 800 bytes: behind the longest sheets, a shorter one, and damaged ones.
fn over_the_limit() -> Vec<Call> {
    let mut starts = vec![two_tasks()];
    for long in long_sheets() {
        for settings_count in [2, 3, 4, 5, 6] {
            starts.push(Raw { settings_count, ..long.clone() });
        }
        starts.extend([
            Raw { result_count: 0, results: vec![], ..long.clone() },
            Raw { result_count: 31, ..long.clone() },
            Raw { task_count: 33, ..long.clone() },
            Raw { settings: vec![77; usize::from(long.settings_count)], ..long },
        ]);
    }
    let mut calls = Vec::new();
    for start in starts {
        for length in [714, 715, 716, 717, 718, 719, 720, 721, 722, 730, 800] {
            let mut bytes = start.bytes();
            bytes.resize(length, 0);
            if length % 5 == 0 {
                calls.push(Call::Read(bytes.clone()));
            }
            calls.push(Call::Program(bytes));
        }
    }
    calls
}

/// A sheet to be written with those counts into a buffer of that many bytes.
fn writing(settings: Settings, task_count: u16, result_count: u16, room: usize) -> Call {
    let rows = (1..=present(task_count) as u32).map(|c| Record::new(c, u32::MAX - c, 7, c << 24));
    Call::Write(Writing {
        settings,
        task_count,
        result_count,
        room: room as u16,
        rows: rows.collect(),
        results: made_up_results(present(result_count)),
    })
}

/// "The writer gives 3, 10, 5 in that order", and 9 before them: counts and rooms around each limit.
fn writings() -> Vec<Call> {
    let mut calls = Vec::new();
    let five = Settings::new(4, 3).with_swaps(7).with_notches(9).with_edition(11);
    for task_count in [0, 1, 2, 32, 33, 40, 65535] {
        for result_count in [0, 1, 2, 3, 31, 32, 33, 40, 65535] {
            calls.push(writing(Settings::new(1, 1), task_count, result_count, 0));
            calls.push(writing(five, task_count, result_count, 722));
        }
    }
    for (task_count, result_count) in [(0, 0), (1, 0), (1, 1), (3, 3), (32, 0), (32, 32)] {
        let (two, three) = (Settings::new(2, 16), Settings::new(2, 16).with_swaps(0x4567));
        let four = three.with_notches(0x89AB);
        for settings in [two, three, four, four.with_edition(0xCDEF)] {
            let needed = Sheet::bytes_needed(
                usize::from(settings.count),
                usize::from(task_count),
                usize::from(result_count),
            );
            for room in [1, 9, needed - 2, needed - 1, needed, needed + 1, needed + 7] {
                calls.push(writing(settings, task_count, result_count, room));
            }
        }
    }
    for number in [0, 1, 2, 3, 4, 5, 6, 255, 256, 65535] {
        for further in [false, true] {
            let settings = Settings { further, ..Settings::new(number, number ^ 0x1234) };
            calls.push(writing(settings, 1, 1, 40));
        }
    }
    calls.extend(settings_counts());
    calls
}

/// Every settings count beside task counts, result counts and rooms that are right and wrong: a number past the count is left out, and 9
/// comes first.
fn settings_counts() -> Vec<Call> {
    let mut calls = Vec::new();
    for count in SETTINGS_COUNTS {
        let numbers = Settings::new(1, 2).with_swaps(65535).with_notches(0x1234).with_edition(77);
        let settings = Settings { count, ..numbers };
        for (task_count, result_count) in [(0, 0), (2, 2), (33, 0), (2, 1)] {
            for room in [0, 80] {
                calls.push(writing(settings, task_count, result_count, room));
            }
        }
    }
    calls
}

/// A sheet under settings, with a table that passes or fails.
fn sheet_under(number: u16, m: u16, c: u32) -> Vec<u8> {
    sheet_of(&Table::new(number, m, &[Record::new(c, 10, 20, 1000), Record::new(9, 10, 10, 0)]))
}

/// Sheets that are accepted and refused for every reason that a change-over can meet.
fn change_over_sheets() -> Vec<Vec<u8>> {
    vec![
        sheet_under(4, 2, 3),
        two_tasks_with_swaps(1).bytes(),
        two_tasks_with_swaps(3).bytes(),
        full_with_swaps().bytes(),
        two_tasks_with_notches(5).bytes(),
        two_tasks_with_notches(3).bytes(),
        two_tasks_with_notches(0).bytes(),
        full_with_notches().bytes(),
        two_tasks_in_edition(2).bytes(),
        two_tasks_in_edition(0).bytes(),
        full_in_edition(2).bytes(),
        case_k().bytes(),
        sheet_of(&Table::new(1, 1, &[])),
        full().bytes(),
        vec![],
        sheet_under(0, 1, 1),
        sheet_under(6, 1, 1),
        sheet_of(&Table::new(3, 2, &[Record::new(6, 10, 20, 1000); 3])),
        sheet_of(&Table::new(5, 1, &[Record::new(6, 10, 20, 1000); 2])),
        sheet_under(5, 2, 1),
        sheet_under(5, 1, 1),
        sheet_under(1, 0, 1),
        sheet_under(1, 17, 1),
        sheet_under(1, 1, 11),
        sheet_under(1, 1, 10),
        Raw { task_count: 33, ..two_tasks() }.bytes(),
        Raw { result_count: 1, ..two_tasks() }.bytes(),
        Raw { settings_count: 3, ..two_tasks() }.bytes(),
        Raw { settings_count: 4, ..two_tasks() }.bytes(),
        Raw { settings_count: 5, ..two_tasks_with_notches(5) }.bytes(),
        Raw { settings_count: 6, ..two_tasks_in_edition(2) }.bytes(),
        [full().bytes(), vec![0; 80]].concat(),
    ]
}

/// Every pair of such sheets, and every truncation of either side.
fn change_overs() -> Vec<Call> {
    let mut calls = Vec::new();
    let sheets = change_over_sheets();
    for (index, standing) in sheets.iter().enumerate() {
        for (other, proposed) in sheets.iter().enumerate() {
            // two long sheets come together once
            if standing.len() + proposed.len() < 1_000 || index == other {
                calls.push(Call::ChangeOver {
                    standing: standing.clone(),
                    proposed: proposed.clone(),
                });
            }
        }
    }
    let other = sheet_under(4, 2, 3);
    for small in small_sheets() {
        let small = small.bytes();
        for length in 0..=small.len() {
            let cut = small[..length].to_vec();
            calls.push(Call::ChangeOver { standing: other.clone(), proposed: cut.clone() });
            calls.push(Call::ChangeOver { standing: cut, proposed: sheet_under(1, 1, 11) });
        }
    }
    calls
}
