//! The program: a sheet in, the sheet with results out, or a line that says why not.

use super::change_over::results_for;
use super::kinds::{refuse, Refusal, Sheet};
use super::reader::read;
use super::writer::write;

/// "more than 714 bytes: refused as 11 at 714 if the first 714 read as a sheet of that length,
/// else as the reader says of the whole"; the 714 moves with the greatest length (Asks 2, 5 and 10)
pub fn read_input(input: &[u8]) -> Result<Sheet, Refusal> {
    if input.len() > Sheet::MOST_BYTES && read(&input[..Sheet::MOST_BYTES]).is_ok() {
        return refuse(11, Sheet::MOST_BYTES);
    }
    read(input)
}

/// "the sheet with results filled in from the plain finder, replacing older ones"
fn filled(input: &[u8]) -> Result<Vec<u8>, Refusal> {
    let mut sheet = read_input(input)?;
    let results = results_for(&sheet)?;
    sheet.result_count = sheet.task_count;
    sheet.results[..results.len()].copy_from_slice(&results);
    let mut output = vec![0; Sheet::MOST_BYTES];
    let length = write(&sheet, &mut output)?;
    output.truncate(usize::from(length));
    Ok(output)
}

/// All that the program writes to standard output.
pub fn program(input: &[u8]) -> Vec<u8> {
    match filled(input) {
        Ok(output) => output,
        Err(refusal) => refusal_line(refusal),
    }
}

/// "On refusal it writes `refused N at P` and a newline."
pub fn refusal_line(refusal: Refusal) -> Vec<u8> {
    format!("refused {} at {}\n", refusal.number, refusal.place).into_bytes()
}
