//! Writing a station sheet into a lent buffer.

use super::kinds::{refuse, Refusal, Sheet, MOST_TASKS};

/// The bytes of a sheet whose counts are in order.
fn bytes_of(sheet: &Sheet) -> Vec<u8> {
    let mut bytes = sheet.settings_count.to_le_bytes().to_vec();
    // Ask 2: the writer "leaves out numbers past it", the settings count
    let settings = [sheet.policy.number(), sheet.m, sheet.w, sheet.q, sheet.edition];
    for setting in &settings[..usize::from(sheet.settings_count)] {
        bytes.extend(setting.to_le_bytes());
    }
    bytes.extend(sheet.task_count.to_le_bytes());
    for row in &sheet.rows[..usize::from(sheet.task_count)] {
        for number in [row.c, row.tmin, row.tmax, row.e] {
            bytes.extend(number.to_le_bytes());
        }
    }
    bytes.extend(sheet.result_count.to_le_bytes());
    for result in &sheet.results[..usize::from(sheet.result_count)] {
        bytes.extend(result.period.to_le_bytes());
        bytes.extend(result.processor.to_le_bytes());
    }
    bytes
}

/// "The writer gives 3, 10, 5 in that order", and since Ask 2 "it gives 9 first". Accepted: the written length.
pub fn write(sheet: &Sheet, buffer: &mut [u8]) -> Result<u16, Refusal> {
    if !sheet.counts_its_settings() {
        return refuse(9, 0);
    }
    if usize::from(sheet.task_count) > MOST_TASKS {
        return refuse(3, usize::from(sheet.task_count));
    }
    if sheet.result_count != 0 && sheet.result_count != sheet.task_count {
        return refuse(10, 0);
    }
    let needed = Sheet::bytes_needed(
        usize::from(sheet.settings_count),
        usize::from(sheet.task_count),
        usize::from(sheet.result_count),
    );
    if buffer.len() < needed {
        return refuse(5, needed);
    }
    // "An accepted call writes an output up to the entries or bytes needed and no further."
    buffer[..needed].copy_from_slice(&bytes_of(sheet));
    Ok(needed as u16)
}
