//! Ask 14: the checker of filled sheets, and the program that tells what it says.

use super::change_over::results_for;
use super::kinds::{refuse, Refusal, Sheet};
use super::program::{read_input, refusal_line};
use super::reader::read;

/// "18 at 0 when tasks stand there without results, then 19 naming the first result that differs"
fn compare(sheet: &Sheet) -> Result<(), Refusal> {
    let due = results_for(sheet)?;
    if sheet.task_count > 0 && sheet.result_count == 0 {
        return refuse(18, 0);
    }
    for (index, result) in due.iter().enumerate() {
        if sheet.results[index] != *result {
            return refuse(19, index);
        }
    }
    Ok(())
}

/// "Reader and finder refusals come first"
pub fn check(bytes: &[u8]) -> Result<(), Refusal> {
    compare(&read(bytes)?)
}

/// All that the program writes to standard output, with the same treatment of over-long input.
pub fn told(input: &[u8]) -> Vec<u8> {
    match read_input(input).and_then(|sheet| compare(&sheet)) {
        Ok(()) => b"accepted\n".to_vec(),
        Err(refusal) => refusal_line(refusal),
    }
}
