//! Ask 11: task tables as the office keeps them, comma-separated text.

use super::kinds::{refuse, Record, Refusal, MOST_TASKS};

/// "decimal numbers …, each at most 4,294,967,295, with no leading zero except 0 itself"
fn number(text: &[u8]) -> Option<u32> {
    let leading_zero = text.len() > 1 && text[0] == b'0';
    if text.is_empty() || leading_zero || !text.iter().all(u8::is_ascii_digit) {
        return None;
    }
    std::str::from_utf8(text).ok()?.parse().ok()
}

/// "four decimal numbers (C, Tmin, Tmax, E) … commas between"
fn record(line: &[u8]) -> Option<Record> {
    let numbers: Option<Vec<u32>> = line.split(|byte| *byte == b',').map(number).collect();
    match numbers?[..] {
        [c, tmin, tmax, e] => Some(Record::new(c, tmin, tmax, e)),
        _ => None,
    }
}

/// The rows of a text: "each line ended by one byte 0x0A. An empty text is an empty table."
fn rows_of(text: &[u8]) -> Result<Vec<Record>, Refusal> {
    let mut rows = Vec::new();
    let mut rest = text;
    while !rest.is_empty() {
        if rows.len() == MOST_TASKS {
            return refuse(3, MOST_TASKS);
        }
        let line = rest.iter().position(|byte| *byte == b'\n').map(|end| rest.split_at(end));
        let Some((row, more)) = line.and_then(|(line, more)| Some((record(line)?, more))) else {
            return refuse(16, rows.len());
        };
        rows.push(row);
        rest = &more[1..];
    }
    Ok(rows)
}

/// Accepted: how many rows were read into the output.
pub fn import(text: &[u8], output: &mut [Record]) -> Result<u16, Refusal> {
    let rows = rows_of(text)?;
    // "Short outputs are refused by 5, last."
    if output.len() < rows.len() {
        return refuse(5, rows.len());
    }
    output[..rows.len()].copy_from_slice(&rows);
    Ok(rows.len() as u16)
}

/// "Export writes exactly that text."
pub fn text_of(rows: &[Record]) -> Vec<u8> {
    let line = |row: &Record| format!("{},{},{},{}\n", row.c, row.tmin, row.tmax, row.e);
    rows.iter().map(line).collect::<String>().into_bytes()
}

/// Accepted: the written length. Of more than 32 tasks only 32 rows are given.
pub fn export(count: usize, rows: &[Record], buffer: &mut [u8]) -> Result<u16, Refusal> {
    if count > MOST_TASKS {
        return refuse(3, count);
    }
    let text = text_of(rows);
    if buffer.len() < text.len() {
        return refuse(5, text.len());
    }
    buffer[..text.len()].copy_from_slice(&text);
    Ok(text.len() as u16)
}
