//! Ask 11's worked text, damaged lines, and both round trips.

use super::{refused, HALF_SPRING};
use crate::definition::kinds::{Record, Refusal};
use crate::definition::office::{export, import, text_of};
use crate::generator::edges_of_office::{LINES, LONGEST, WHOLE_TEXT};

fn read(text: &[u8]) -> Result<Vec<Record>, Refusal> {
    let mut output = vec![Record::default(); 40];
    let count = import(text, &mut output)?;
    Ok(output[..usize::from(count)].to_vec())
}

#[test]
fn the_text_of_the_request() {
    assert_eq!(text_of(&[HALF_SPRING]), WHOLE_TEXT.as_bytes());
    assert_eq!(read(WHOLE_TEXT.as_bytes()), Ok(vec![HALF_SPRING]));
    assert_eq!(read(b""), Ok(vec![]));
}

#[test]
fn only_the_first_three_lines_are_good() {
    for (index, line) in LINES.iter().enumerate() {
        let text = format!("{WHOLE_TEXT}{line}\n");
        assert_eq!(read(text.as_bytes()).is_ok(), index < 3, "{line:?}");
        assert_eq!(
            read(text.trim_end_matches('\n').as_bytes()).err(),
            refused::<()>(16, if line.is_empty() { 0 } else { 1 }).err()
        );
    }
}

#[test]
fn bytes_after_line_31_are_refused_by_3_whatever_they_are() {
    let full = WHOLE_TEXT.repeat(32);
    assert_eq!(read(full.as_bytes()).map(|rows| rows.len()), Ok(32));
    for end in ["\n", "x", WHOLE_TEXT] {
        assert_eq!(read(format!("{full}{end}").as_bytes()), refused(3, 32));
    }
    assert_eq!(read(format!("{}x", WHOLE_TEXT.repeat(31)).as_bytes()), refused(16, 31));
}

#[test]
fn short_outputs_come_last() {
    let text = WHOLE_TEXT.repeat(2);
    assert_eq!(import(text.as_bytes(), &mut [Record::default()]), refused(5, 2));
    assert_eq!(import(format!("{text}x").as_bytes(), &mut []), refused(16, 2));
    assert_eq!(export(33, &[HALF_SPRING; 32], &mut []), refused(3, 33));
    assert_eq!(export(2, &[HALF_SPRING; 2], &mut [0; 25]), refused(5, 26));
}

#[test]
fn there_and_back() {
    for rows in [vec![], vec![HALF_SPRING; 3], vec![LONGEST; 32]] {
        assert_eq!(read(&text_of(&rows)), Ok(rows));
    }
    assert_eq!(text_of(&[LONGEST; 32]).len(), 1_408);
}
