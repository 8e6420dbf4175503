//! Random changes of kept tables: with an index that is right, stale or made up, and with anything past the ends.

use super::tables::{pay_swaps, set_notches, spoil};
use crate::definition::keep::{Change, Kept};
use crate::definition::kinds::{Record, MOST_TASKS};
use crate::keeping::Keeping;
use crate::random::Random;

/// Of good records, in one to three sizes, often with one saturation step: some are elastic, some are rigid.
fn rows(random: &mut Random) -> Vec<Record> {
    let count = match random.between(0, 9) {
        0 => random.pick(&[0, 31, 32]),
        1..=3 => random.small(7, 32),
        _ => random.small(0, 6),
    };
    let sizes: Vec<u32> = (0..3).map(|_| random.of_any_size(100_000_000)).collect();
    (0..count)
        .map(|_| {
            let tmin = random.pick(&sizes) + random.small(0, 2);
            let tmax = if random.one_in(6) { tmin } else { tmin * random.small(1, 9) };
            let c = if random.one_in(4) { tmin } else { random.small(1, tmin) };
            let e = random.of_any_size(Record::GREATEST_ELASTICITY);
            let e = random.pick(&[0, 1, 1_000, 1_000_000, e, e, e]);
            Record::new(c, tmin, tmax, e)
        })
        .collect()
}

/// A record of any numbers.
fn any_record(random: &mut Random) -> Record {
    let mut number = || random.of_any_size(u32::MAX) - 1;
    Record::new(number(), number(), number(), number())
}

/// The index of the records with one swap cost more, or any entries.
fn other_index(random: &mut Random, kept: &mut Kept, rows: &[Record], w: u16) {
    if random.one_in(2) && rows.iter().all(|row| row.is_good(w.saturating_add(1), 1)) {
        let stale = Kept::fresh(rows, w.saturating_add(1));
        (kept.entries, kept.index) = (stale.entries, stale.index);
        return;
    }
    kept.entries = random.pick(&[0, 1, 31, 32, 33, 65535]);
    for entry in &mut kept.index {
        *entry = random.pick(&[0, 1, 5, 31, 32, 65535]);
    }
}

/// Anything past the ends.
fn leave_junk(random: &mut Random, kept: &mut Kept) {
    for place in usize::from(kept.count).min(MOST_TASKS)..MOST_TASKS {
        kept.rows[place] = any_record(random);
    }
    for place in usize::from(kept.entries).min(MOST_TASKS)..MOST_TASKS {
        kept.index[place] = random.next() as u16;
    }
}

/// A change of a kept table, seldom one that is refused by 2 or 3.
pub fn random_keeping(random: &mut Random) -> Keeping {
    let mut rows = rows(random);
    let w = if random.one_in(3) { pay_swaps(random, &mut rows) } else { 0 };
    let mut q = if random.one_in(3) { set_notches(random, &mut rows, w) } else { 1 };
    let joins = random.one_in(2);
    // the task that joins is made with the others
    let mut task = rows.pop().unwrap_or(Record::new(u32::from(w) * 2 + 1, 200_000, 400_000, 7));
    if random.one_in(12) && !rows.is_empty() {
        spoil(random, &mut rows, w);
    } else if joins && random.one_in(8) {
        spoil(random, std::slice::from_mut(&mut task), w);
    } else if random.one_in(20) {
        task = any_record(random);
    }
    if random.one_in(20) {
        q = 0;
    }
    let mut kept = kept_of(random, &rows, w, q);
    if random.one_in(15) {
        kept.count = random.pick(&[32, 33, 34, 256, 65535]);
    }
    let count = u32::from(kept.count);
    let change = match random.between(0, 9) {
        _ if joins => Change::Join(task),
        0 => Change::Leave(random.pick(&[31, 32, 33, 256, 65535])),
        1 => Change::Leave(kept.count),
        _ => Change::Leave(random.small(0, count.saturating_sub(1).min(31)) as u16),
    };
    Keeping { kept, w, q, change }
}

/// A kept table of records, good or not, with an index that may be wrong.
fn kept_of(random: &mut Random, rows: &[Record], w: u16, q: u16) -> Kept {
    let good = rows.iter().all(|row| row.is_good(w, q));
    let mut kept = Kept::fresh(if good { rows } else { &[] }, w);
    kept.count = rows.len() as u16;
    kept.rows[..rows.len()].copy_from_slice(rows);
    if random.one_in(3) {
        other_index(random, &mut kept, rows, w);
    }
    if random.one_in(2) {
        leave_junk(random, &mut kept);
    }
    kept
}
