//! Reading a station sheet from left to right, byte by byte.

use super::kinds::{refuse, Granted, Policy, Record, Refusal, Sheet, MOST_TASKS};

/// "a reader that holds the lent sheet and its place in it"
struct Reader<'a> {
    sheet: &'a [u8],
    at: usize,
}

impl Reader<'_> {
    /// The next byte, or 8: "the sheet ends before or inside a field that is due", at its length.
    fn byte(&mut self) -> Result<u8, Refusal> {
        let Some(byte) = self.sheet.get(self.at) else {
            return refuse(8, self.sheet.len());
        };
        self.at += 1;
        Ok(*byte)
    }

    /// A little-endian field of 2 bytes.
    fn two_bytes(&mut self) -> Result<u16, Refusal> {
        Ok(u16::from_le_bytes([self.byte()?, self.byte()?]))
    }

    /// A little-endian field of 4 bytes.
    fn four_bytes(&mut self) -> Result<u32, Refusal> {
        Ok(u32::from_le_bytes([self.byte()?, self.byte()?, self.byte()?, self.byte()?]))
    }

    fn record(&mut self) -> Result<Record, Refusal> {
        Ok(Record {
            c: self.four_bytes()?,
            tmin: self.four_bytes()?,
            tmax: self.four_bytes()?,
            e: self.four_bytes()?,
        })
    }

    fn granted(&mut self) -> Result<Granted, Refusal> {
        Ok(Granted { period: self.four_bytes()?, processor: self.two_bytes()? })
    }

    /// "settings (count 2: policy, m, 2 bytes each)"; Ask 5: "missing numbers filled in as w = 0 and q = 1", and Ask 10 of the edition:
    /// "missing means 1"
    fn settings(&mut self, sheet: &mut Sheet) -> Result<(), Refusal> {
        sheet.settings_count = self.two_bytes()?;
        if !sheet.counts_its_settings() {
            return refuse(9, 0);
        }
        sheet.policy = Policy::from_number(self.two_bytes()?);
        sheet.m = self.two_bytes()?;
        sheet.w = if sheet.settings_count >= 3 { self.two_bytes()? } else { 0 };
        sheet.q = if sheet.settings_count >= 4 { self.two_bytes()? } else { 1 };
        sheet.edition = if sheet.settings_count >= 5 { self.two_bytes()? } else { 1 };
        Ok(())
    }

    /// "tasks (C, Tmin, Tmax, E, 4 bytes each)"
    fn tasks(&mut self, sheet: &mut Sheet) -> Result<(), Refusal> {
        let place = self.at;
        sheet.task_count = self.two_bytes()?;
        if usize::from(sheet.task_count) > MOST_TASKS {
            return refuse(3, place);
        }
        for index in 0..usize::from(sheet.task_count) {
            sheet.rows[index] = self.record()?;
        }
        Ok(())
    }

    /// "results (count 0 or the task count; period 4 bytes, processor 2)"
    fn results(&mut self, sheet: &mut Sheet) -> Result<(), Refusal> {
        let place = self.at;
        sheet.result_count = self.two_bytes()?;
        if sheet.result_count != 0 && sheet.result_count != sheet.task_count {
            return refuse(10, place);
        }
        for index in 0..usize::from(sheet.result_count) {
            sheet.results[index] = self.granted()?;
        }
        Ok(())
    }

    /// 11: "bytes after the last section", at the first of them.
    fn end(&self) -> Result<(), Refusal> {
        if self.at < self.sheet.len() {
            return refuse(11, self.at);
        }
        Ok(())
    }
}

/// Reads a whole sheet; "in an accepted one the unused places are zeros".
pub fn read(bytes: &[u8]) -> Result<Sheet, Refusal> {
    let mut reader = Reader { sheet: bytes, at: 0 };
    let mut sheet = Sheet::zeros();
    reader.settings(&mut sheet)?;
    reader.tasks(&mut sheet)?;
    reader.results(&mut sheet)?;
    reader.end()?;
    Ok(sheet)
}
