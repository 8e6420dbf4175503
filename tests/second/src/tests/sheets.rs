//! The small readings about reader, writer, change-over and program.

use super::{refused, HALF_SPRING};
use crate::call::Table;
use crate::definition::change_over::{change_over, Part, Which};
use crate::definition::checked::told;
use crate::definition::kinds::{Policy, Record, Sheet};
use crate::definition::program::program;
use crate::definition::reader::read;
use crate::definition::writer::write;
use crate::generator::sheets::{made_up_results, sheet_of, Raw};
use std::ffi::OsStr;
use std::fs;
use std::path::Path;

fn two_tasks() -> Vec<u8> {
    sheet_of(&Table::new(1, 1, &[HALF_SPRING; 2]))
}

fn full() -> Raw {
    Raw::honest(&Table::new(1, 16, &[Record::new(1, 40, 80, 1000); 32]), &made_up_results(32))
}

fn full_with_swaps() -> Raw {
    Raw { settings_count: 3, settings: vec![1, 16, 9], ..full() }
}

fn full_with_notches() -> Raw {
    Raw { settings_count: 4, settings: vec![1, 16, 9, 20], ..full() }
}

fn full_in_edition() -> Raw {
    Raw { settings_count: 5, settings: vec![1, 16, 9, 20, 2], ..full() }
}

#[test]
fn a_count_is_judged_as_soon_as_its_two_bytes_are_there() {
    assert_eq!(read(&[]), refused(8, 0));
    assert_eq!(read(&[6]), refused(8, 1));
    for count in [0, 1, 6, 7, 255] {
        assert_eq!(read(&[count, 0]), refused(9, 0));
    }
    assert_eq!(read(&[2, 1]), refused(9, 0));
    assert_eq!(read(&[3, 1]), refused(9, 0));
    assert_eq!(read(&[4, 1]), refused(9, 0));
    assert_eq!(read(&[5, 1]), refused(9, 0));
    assert_eq!(read(&[2, 0]), refused(8, 2));
    assert_eq!(read(&[3, 0]), refused(8, 2));
    assert_eq!(read(&[3, 0, 0, 0, 0, 0, 0]), refused(8, 7));
    assert_eq!(read(&[3, 0, 0, 0, 0, 0, 0, 0, 33]), refused(8, 9));
    assert_eq!(read(&[3, 0, 0, 0, 0, 0, 0, 0, 33, 0]), refused(3, 8));
    assert_eq!(read(&[3, 0, 0, 0, 0, 0, 0, 0, 0, 0, 1, 0]), refused(10, 10));
    assert_eq!(read(&[3, 0, 0, 0, 0, 0, 0, 0, 0, 0, 0, 0, 0]), refused(11, 12));
    assert_eq!(read(&[4, 0, 0, 0, 0, 0, 0, 0]), refused(8, 8));
    assert_eq!(read(&[4, 0, 0, 0, 0, 0, 0, 0, 0, 0, 33]), refused(8, 11));
    assert_eq!(read(&[4, 0, 0, 0, 0, 0, 0, 0, 0, 0, 33, 0]), refused(3, 10));
    assert_eq!(read(&[4, 0, 0, 0, 0, 0, 0, 0, 0, 0, 0, 0, 1, 0]), refused(10, 12));
    assert_eq!(read(&[4, 0, 0, 0, 0, 0, 0, 0, 0, 0, 0, 0, 0, 0, 0]), refused(11, 14));
    assert_eq!(read(&[5, 0, 0, 0, 0, 0, 0, 0, 0, 0]), refused(8, 10));
    assert_eq!(read(&[5, 0, 0, 0, 0, 0, 0, 0, 0, 0, 0, 0, 33]), refused(8, 13));
    assert_eq!(read(&[5, 0, 0, 0, 0, 0, 0, 0, 0, 0, 0, 0, 33, 0]), refused(3, 12));
    assert_eq!(read(&[5, 0, 0, 0, 0, 0, 0, 0, 0, 0, 0, 0, 0, 0, 1, 0]), refused(10, 14));
    assert_eq!(read(&[5, 0, 0, 0, 0, 0, 0, 0, 0, 0, 0, 0, 0, 0, 0, 0, 0]), refused(11, 16));
    assert_eq!(read(&[2, 0, 0, 0, 0, 0, 33]), refused(8, 7));
    assert_eq!(read(&[2, 0, 0, 0, 0, 0, 33, 0]), refused(3, 6));
    assert_eq!(read(&[2, 0, 0, 0, 0, 0, 0, 0, 1]), refused(8, 9));
    assert_eq!(read(&[2, 0, 0, 0, 0, 0, 0, 0, 1, 0]), refused(10, 8));
    assert_eq!(read(&[2, 0, 0, 0, 0, 0, 0, 0, 0, 0, 0]), refused(11, 10));
}

#[test]
fn every_truncation_is_refused_8_at_its_length() {
    let whole = [full(), full_with_swaps(), full_with_notches(), full_in_edition()];
    let whole = whole.map(|raw| raw.bytes());
    assert_eq!([0, 1, 2, 3].map(|index| whole[index].len()), [714, 716, 718, Sheet::MOST_BYTES]);
    assert_eq!(Sheet::MOST_BYTES, 720);
    for bytes in whole {
        for length in 0..bytes.len() {
            assert_eq!(read(&bytes[..length]), refused(8, length as u32));
        }
        assert!(read(&bytes).is_ok());
    }
}

#[test]
fn the_settings_count_is_kept_and_missing_are_w_0_q_1_and_edition_1() {
    let settings = |sheet: &Sheet| (sheet.settings_count, sheet.m, sheet.w, sheet.q, sheet.edition);
    let two = read(&full().bytes()).expect("read");
    let three = read(&full_with_swaps().bytes()).expect("read");
    let four = read(&full_with_notches().bytes()).expect("read");
    let five = read(&full_in_edition().bytes()).expect("read");
    assert_eq!(settings(&two), (2, 16, 0, 1, 1));
    assert_eq!(settings(&three), (3, 16, 9, 1, 1));
    assert_eq!(settings(&four), (4, 16, 9, 20, 1));
    assert_eq!(settings(&five), (5, 16, 9, 20, 2));
    assert!(two.rows == three.rows && three.rows == four.rows && four.rows == five.rows);
    // the reader judges neither q nor the edition, and a refused reading is zeros
    let none = read(&sheet_of(&Table::new(1, 1, &[]).with_notches(0))).expect("read");
    assert_eq!(settings(&none), (4, 1, 0, 0, 1));
    let strange = read(&sheet_of(&Table::new(1, 1, &[]).with_edition(77))).expect("read");
    assert_eq!(settings(&strange), (5, 1, 0, 1, 77));
    assert_eq!(settings(&Sheet::zeros()), (0, 0, 0, 0, 0));
}

#[test]
fn the_writer_leaves_out_the_numbers_past_the_count() {
    let mut sheet = Sheet { m: 4, w: 77, q: 88, edition: 99, ..Sheet::zeros() };
    let mut buffer = [0xEE; 17];
    sheet.settings_count = 2;
    assert_eq!(write(&sheet, &mut buffer), Ok(10));
    assert_eq!(buffer[..11], [2, 0, 0, 0, 4, 0, 0, 0, 0, 0, 0xEE]);
    assert_eq!(read(&buffer[..10]), Ok(Sheet { w: 0, q: 1, edition: 1, ..sheet.clone() }));
    sheet.settings_count = 3;
    assert_eq!(write(&sheet, &mut buffer), Ok(12));
    assert_eq!(buffer[..13], [3, 0, 0, 0, 4, 0, 77, 0, 0, 0, 0, 0, 0xEE]);
    assert_eq!(read(&buffer[..12]), Ok(Sheet { q: 1, edition: 1, ..sheet.clone() }));
    sheet.settings_count = 4;
    assert_eq!(write(&sheet, &mut buffer), Ok(14));
    assert_eq!(buffer[..15], [4, 0, 0, 0, 4, 0, 77, 0, 88, 0, 0, 0, 0, 0, 0xEE]);
    assert_eq!(read(&buffer[..14]), Ok(Sheet { edition: 1, ..sheet.clone() }));
    sheet.settings_count = 5;
    assert_eq!(write(&sheet, &mut buffer), Ok(16));
    assert_eq!(buffer, [5, 0, 0, 0, 4, 0, 77, 0, 88, 0, 99, 0, 0, 0, 0, 0, 0xEE]);
    assert_eq!(read(&buffer[..16]), Ok(sheet));
}

#[test]
fn the_reader_keeps_a_strange_policy_and_judges_no_record() {
    let sheet =
        read(&sheet_of(&Table::new(77, 999, &[Record::new(0, 0, 0, u32::MAX)]))).expect("read");
    assert_eq!((sheet.policy, sheet.m), (Policy::Further(77), 999));
    assert_eq!(sheet.rows[0], Record::new(0, 0, 0, u32::MAX));
    assert_eq!(sheet.rows[1..], Sheet::zeros().rows[1..]);
}

#[test]
fn what_is_read_is_written_back() {
    let withdrawn = Raw::honest(&Table::new(3, 2, &[HALF_SPRING; 3]), &made_up_results(3));
    let others = [(5, 2), (65535, 0)].map(|(number, m)| sheet_of(&Table::new(number, m, &[])));
    let full = [full(), full_with_swaps(), full_with_notches(), full_in_edition()];
    let full = full.map(|raw| raw.bytes());
    for bytes in [two_tasks(), withdrawn.bytes()].into_iter().chain(full).chain(others) {
        let mut buffer = vec![0xEE; bytes.len() + 3];
        let written = write(&read(&bytes).expect("read"), &mut buffer);
        assert_eq!(written, Ok(bytes.len() as u16));
        assert_eq!(buffer, [bytes, vec![0xEE; 3]].concat());
    }
}

#[test]
fn the_writer_gives_9_then_3_then_10_then_5() {
    let mut sheet = Sheet::zeros();
    (sheet.task_count, sheet.result_count) = (40, 7);
    for count in [0, 1, 6, 7, 258, 65535] {
        sheet.settings_count = count;
        assert_eq!(write(&sheet, &mut []), refused(9, 0));
    }
    sheet.settings_count = 2;
    assert_eq!(write(&sheet, &mut []), refused(3, 40));
    sheet.task_count = 5;
    assert_eq!(write(&sheet, &mut []), refused(10, 0));
    sheet.result_count = 5;
    let mut buffer = [0xEE; 119];
    assert_eq!(write(&sheet, &mut buffer), refused(5, 120));
    assert_eq!(buffer, [0xEE; 119]);
    assert_eq!(write(&sheet, &mut [0xEE; 120]), Ok(120));
    sheet.settings_count = 3;
    assert_eq!(write(&sheet, &mut [0xEE; 121]), refused(5, 122));
    sheet.settings_count = 4;
    assert_eq!(write(&sheet, &mut [0xEE; 123]), refused(5, 124));
    sheet.settings_count = 5;
    assert_eq!(write(&sheet, &mut [0xEE; 125]), refused(5, 126));
    // what a refused reading hands back is not written
    assert_eq!(write(&Sheet::zeros(), &mut [0; 14]), refused(9, 0));
}

#[test]
fn a_change_over_is_a_part_of_a_lent_sheet() {
    let good = two_tasks();
    let bad = sheet_of(&Table::new(1, 1, &[Record::new(10, 10, 10, 0); 2]));
    let empty = sheet_of(&Table::new(1, 1, &[]));
    let part = |which, offset, length| Part { which, offset, length };
    assert_eq!(change_over(&bad, &good), part(Which::Proposed, 8, 32));
    assert_eq!(change_over(&good, &bad), part(Which::Standing, 8, 32));
    assert_eq!(change_over(&good, &good[..41]), part(Which::Standing, 8, 32));
    assert_eq!(change_over(&good, &empty), part(Which::Proposed, 8, 0));
    // Ask 8: a standing sheet under policy 3 is accepted no more
    let withdrawn = sheet_of(&Table::new(3, 2, &[HALF_SPRING; 3]));
    assert_eq!(change_over(&good, &withdrawn), part(Which::Standing, 8, 32));
    assert_eq!(change_over(&withdrawn, &bad), part(Which::Standing, 0, 0));
    assert_eq!(change_over(&bad, &bad), part(Which::Standing, 0, 0));
    assert_eq!(change_over(&[], &[]), part(Which::Standing, 0, 0));
    assert_eq!(change_over(&bad, &good).of(&bad, &good), &good[8..40]);
    // Ask 2: with three settings the records stand two bytes further on; a swap too dear is refused
    let swaps = |w| sheet_of(&Table::new(1, 1, &[HALF_SPRING; 2]).with_swaps(w));
    assert_eq!(change_over(&good, &swaps(2)), part(Which::Proposed, 10, 32));
    assert_eq!(change_over(&swaps(2), &swaps(3)), part(Which::Standing, 10, 32));
    assert_eq!(change_over(&swaps(3), &swaps(3)), part(Which::Standing, 0, 0));
    // Ask 5: with four settings two bytes more; no notch, and periods off it, are refused
    let notches = |q| sheet_of(&Table::new(1, 1, &[HALF_SPRING; 2]).with_notches(q));
    assert_eq!(change_over(&good, &notches(5)), part(Which::Proposed, 12, 32));
    assert_eq!(change_over(&notches(10), &notches(0)), part(Which::Standing, 12, 32));
    assert_eq!(change_over(&notches(0), &notches(3)), part(Which::Standing, 0, 0));
    // Ask 10: with five settings two bytes more; the second edition accepts what the first does not
    let rows = [Record::new(10, 10, 12, 1000), Record::new(90, 1000, 1000, 0)];
    let edition = |edition| sheet_of(&Table::new(1, 1, &rows).with_edition(edition));
    assert_eq!(change_over(&good, &edition(2)), part(Which::Proposed, 14, 32));
    assert_eq!(change_over(&edition(2), &edition(0)), part(Which::Standing, 14, 32));
    assert_eq!(change_over(&edition(3), &edition(0)), part(Which::Standing, 0, 0));
}

#[test]
fn the_program_refuses_in_a_line() {
    assert_eq!(program(&[]), b"refused 8 at 0\n");
    assert_eq!(program(&two_tasks()[..33]), b"refused 8 at 33\n");
    assert_eq!(program(&sheet_of(&Table::new(6, 1, &[]))), b"refused 1 at 0\n");
    let bad = Record::new(0, 1, 1, 0);
    assert_eq!(program(&sheet_of(&Table::new(1, 1, &[HALF_SPRING, bad]))), b"refused 6 at 1\n");
}

#[test]
fn the_program_and_more_than_720_bytes() {
    let longer = |raw: Raw, length: usize| {
        let mut bytes = raw.bytes();
        bytes.resize(length, 0);
        program(&bytes)
    };
    for length in [715, 716, 717, 718, 719, 720, 721, 722, 800, 70_000] {
        assert_eq!(longer(full(), length), b"refused 11 at 714\n");
        let without_results = Raw { result_count: 0, results: vec![], ..full() };
        assert_eq!(longer(without_results, length), b"refused 11 at 522\n");
        assert_eq!(longer(Raw { task_count: 33, ..full() }, length), b"refused 3 at 6\n");
        assert_eq!(longer(Raw { result_count: 31, ..full() }, length), b"refused 10 at 520\n");
    }
    for length in [717, 718, 719, 720, 721, 800, 70_000] {
        assert_eq!(longer(full_with_swaps(), length), b"refused 11 at 716\n");
        let wrong = Raw { task_count: 33, ..full_with_swaps() };
        assert_eq!(longer(wrong, length), b"refused 3 at 8\n");
    }
    for length in [719, 720, 721, 722, 800, 70_000] {
        assert_eq!(longer(full_with_notches(), length), b"refused 11 at 718\n");
        let wrong = Raw { task_count: 33, ..full_with_notches() };
        assert_eq!(longer(wrong, length), b"refused 3 at 10\n");
    }
    for length in [721, 722, 800, 70_000] {
        assert_eq!(longer(full_in_edition(), length), b"refused 11 at 720\n");
        let wrong = Raw { task_count: 33, ..full_in_edition() };
        assert_eq!(longer(wrong, length), b"refused 3 at 12\n");
    }
}

#[test]
fn the_program_keeps_the_settings_count() {
    let table = Table::new(1, 1, &[HALF_SPRING; 2]);
    assert_eq!(program(&sheet_of(&table))[..6], [2, 0, 1, 0, 1, 0]);
    let output = program(&sheet_of(&table.clone().with_swaps(1)));
    assert_eq!(output[..8], [3, 0, 1, 0, 1, 0, 1, 0]);
    assert_eq!(read(&output).expect("read").results[1].period, 16);
    assert_eq!(told(&output), b"accepted\n");
    assert_eq!(program(&sheet_of(&table.with_swaps(3))), b"refused 6 at 0\n");
    // with another swap cost the results are others
    let mut dearer = output;
    dearer[6] = 2;
    assert_eq!(told(&dearer), b"refused 19 at 0\n");
}

#[test]
fn the_program_grants_whole_notches() {
    let under = |q| program(&sheet_of(&Table::new(1, 1, &[HALF_SPRING; 2]).with_notches(q)));
    let output = under(5);
    assert_eq!(output[..10], [4, 0, 1, 0, 1, 0, 0, 0, 5, 0]);
    assert_eq!(read(&output).expect("read").results[1].period, 15);
    assert_eq!(told(&output), b"accepted\n");
    assert_eq!(under(0), b"refused 2 at 0\n");
    assert_eq!(under(3), b"refused 6 at 0\n");
    // with another notch the results are others
    for (q, line) in [(0, "refused 2 at 0\n"), (10, "refused 19 at 0\n"), (20, "refused 6 at 0\n")]
    {
        let mut other = output.clone();
        other[8] = q;
        assert_eq!(told(&other), line.as_bytes());
    }
}

#[test]
fn the_program_goes_by_the_edition() {
    // in notches of 5 ticks the first task is granted 15 from step 1 on, and then charged 400,000 parts
    let rows = [HALF_SPRING, Record::new(600, 1000, 2000, 1000)];
    let table = Table::new(1, 1, &rows).with_notches(5);
    let under = |edition| program(&sheet_of(&table.clone().with_edition(edition)));
    let granted = |output: &[u8]| {
        let results = read(output).expect("read").results;
        [results[0].period, results[1].period]
    };
    assert_eq!(granted(&under(1)), [15, 1200]);
    assert_eq!(granted(&under(2)), [15, 1005]);
    for (edition, other) in [(1, 2), (2, 1)] {
        let mut output = under(edition);
        assert_eq!(output[..12], [5, 0, 1, 0, 1, 0, 0, 0, 5, 0, edition as u8, 0]);
        assert_eq!(told(&output), b"accepted\n");
        output[10] = other;
        assert_eq!(told(&output), b"refused 19 at 1\n");
    }
    assert_eq!([0, 3].map(under), [b"refused 2 at 0\n"; 2]);
}

#[test]
fn the_program_replaces_older_results() {
    let table = Table::new(1, 1, &[HALF_SPRING; 2]);
    let with_older = Raw::honest(&table, &made_up_results(2)).bytes();
    let output = program(&two_tasks());
    assert_eq!(program(&with_older), output);
    assert_eq!(program(&output), output);
    assert_eq!(read(&output).expect("read").results[1].period, 12);
}

#[test]
fn the_sheets_to_try_have_these_answers() {
    let folder = Path::new(env!("CARGO_MANIFEST_DIR")).join("../../sheets");
    let mut sheets = 0;
    for entry in fs::read_dir(folder).expect("the sheets to try") {
        let name = entry.expect("a file").path();
        if name.extension() == Some(OsStr::new("sheet")) {
            let answer = fs::read(name.with_extension("filled")).expect("an answer beside it");
            assert_eq!(program(&fs::read(&name).expect("a sheet")), answer, "{name:?}");
            sheets += 1;
        }
    }
    assert!(sheets > 0);
}
