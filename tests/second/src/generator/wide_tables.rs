//! Random tables of tasks that need several cores.

use super::edges_of_wide::{records_at_limits, VISION};
use crate::call::WideTable;
use crate::definition::wide::WideRecord;
use crate::random::Random;

/// A table, seldom with processors, a count or a record that is refused.
pub fn random_wide(random: &mut Random) -> WideTable {
    let jobs = if random.one_in(10) { random.small(0, 12) } else { random.small(1, 4) };
    let rows: Vec<WideRecord> = (0..jobs).map(|_| good(random)).collect();
    let mut table = WideTable::new(random.small(2, 16) as u16, &rows);
    if random.one_in(25) {
        table.m = random.pick(&[0, 1, 17, 18, 256, 65535]);
    }
    if random.one_in(10) && !table.rows.is_empty() {
        let place = random.place(table.rows.len());
        table.rows[place] = random.pick(&records_at_limits());
    }
    if random.one_in(40) {
        table.rows.resize(32, VISION);
        table.count = random.pick(&[32, 33, 34, 64, 65535]);
    }
    table
}

/// A good record of which full compression is a few thousand steps at most.
fn good(random: &mut Random) -> WideRecord {
    let tmin = random.of_any_size(300_000_000) + 1;
    let tmax = random.small(tmin, tmin + 2 * (tmin / 2));
    let most = 16 * u64::from(tmin);
    let c = match random.between(0, 9) {
        0 => most,
        1 => u64::from(tmax) + 1,
        _ => random.between(u64::from(tmax) + 1, most.min(u64::from(tmax) * 4)),
    };
    let l = match random.between(0, 4) {
        0 => tmin - 1,
        1 => 1,
        _ => random.small(1, tmin - 1),
    };
    let mut record = WideRecord::new(c, l, tmin, tmax, 1);
    let spring = record.spring();
    let range = spring.largest - spring.least;
    let steps = random.pick(&[16, 20, 100, 1_000, 4_000]);
    record.e = if random.one_in(10) { 0 } else { range.div_ceil(steps).max(1) as u32 };
    record
}
