//! The edges of the kept saturation order: counts, the order of the checks, ties, every place that a task leaves, wrong indexes, and what
//! stands past the ends.

use crate::call::Call;
use crate::definition::keep::{Change, Kept};
use crate::definition::kinds::{Record, MOST_TASKS};
use crate::keeping::Keeping;

const TASK: Record = Record::new(6, 10, 20, 1000);
const BAD: Record = Record::new(11, 10, 20, 1000);

pub fn calls() -> Vec<Call> {
    let mut keepings = order_of_checks();
    keepings.extend(counts());
    keepings.extend(leaves());
    keepings.extend(orders());
    keepings.extend(wrong_indexes());
    keepings.extend(swaps_and_notches());
    keepings.extend(records());
    keepings.into_iter().map(Call::Keep).collect()
}

/// A change of so many records with the index that is theirs, where a swap costs nothing and every tick can be timed.
fn changed(rows: &[Record], change: Change) -> Keeping {
    Keeping { kept: Kept::fresh(rows, 0), w: 0, q: 1, change }
}

/// The same where rows past the count and entries past the index hold something.
fn with_junk(mut keeping: Keeping) -> Keeping {
    let kept = &mut keeping.kept;
    for place in usize::from(kept.count).min(MOST_TASKS)..MOST_TASKS {
        kept.rows[place] = Record::new(place as u32, u32::MAX, 7, 1);
    }
    for place in usize::from(kept.entries).min(MOST_TASKS)..MOST_TASKS {
        kept.index[place] = 65_535 - place as u16;
    }
    keeping
}

/// Both changes of one kept table, with a record to leave.
fn both(keeping: &Keeping, record: u16) -> [Keeping; 2] {
    [Change::Join(TASK), Change::Leave(record)].map(|change| Keeping { change, ..keeping.clone() })
}

/// Every combination of things that are refused.
fn order_of_checks() -> Vec<Keeping> {
    let mut keepings = Vec::new();
    for wrong in 0_u32..32 {
        let is_wrong = |check: u32| wrong & (1 << check) != 0;
        let mut rows = vec![TASK; 3];
        if is_wrong(2) {
            rows[1] = BAD;
        }
        let record = if is_wrong(3) { 3 } else { 1 };
        let task = if is_wrong(3) { BAD } else { TASK };
        for change in [Change::Join(task), Change::Leave(record)] {
            let mut keeping = changed(&[TASK; 3], change);
            keeping.kept.rows[..3].copy_from_slice(&rows);
            keeping.q = if is_wrong(0) { 0 } else { 5 };
            if is_wrong(1) {
                keeping.kept.count = 33;
            }
            keepings.push(if is_wrong(4) { with_junk(keeping) } else { keeping });
        }
    }
    keepings
}

/// Every count around 0 and 32; records to leave around the count and 32.
fn counts() -> Vec<Keeping> {
    let mut keepings = Vec::new();
    for count in [0_u16, 1, 2, 30, 31, 32, 33, 34, 255, 256, 288, 65535] {
        let rows = vec![TASK; usize::from(count).min(MOST_TASKS)];
        let mut keeping = changed(&rows, Change::Join(TASK));
        keeping.kept.count = count;
        for record in [0, count.wrapping_sub(1), count, count.wrapping_add(1), 31, 32] {
            keepings.extend(both(&keeping, record));
        }
        keepings.extend(both(&with_junk(keeping), 0));
    }
    keepings
}

/// From each place of a few and of 32 different records.
fn leaves() -> Vec<Keeping> {
    let mut keepings = Vec::new();
    for count in [1, 2, 5, 32_u32] {
        let row = |i: u32| {
            Record::new(1 + i, 100 + 7 * i, 900 + 13 * i, [0, 40, 1, 40, 9][i as usize % 5])
        };
        let rows: Vec<Record> = (0..count).map(row).collect();
        for record in 0..=count as u16 {
            let keeping = changed(&rows, Change::Leave(record));
            keepings.push(if record % 3 == 1 { with_junk(keeping) } else { keeping });
        }
    }
    keepings
}

/// Ties, tasks without range, and rigid ones, in every order of four, of which the last joins or the first leaves.
fn orders() -> Vec<Keeping> {
    // saturation steps 300, 300, 0 and none; then 300, 150, 1 and 55
    let groups = [
        [TASK, Record::new(12, 20, 40, 1000), Record::new(6, 10, 10, 7), Record::new(5, 10, 20, 0)],
        [
            TASK,
            Record::new(6, 10, 20, 2000),
            Record::new(6, 10, 20, 999_999),
            Record::new(6, 10, 11, 1000),
        ],
    ];
    let mut keepings = Vec::new();
    for group in groups {
        for order in 0..24 {
            let mut left = group.to_vec();
            let places = [order / 6, order / 2 % 3, order % 2, 0];
            let mut rows = places.map(|place| left.remove(place)).to_vec();
            keepings.push(changed(&rows, Change::Leave(0)));
            let last = rows.pop().expect("four rows");
            keepings.push(changed(&rows, Change::Join(last)));
        }
    }
    keepings
}

/// Indexes that are not theirs: of other entries, other counts, and in another order.
fn wrong_indexes() -> Vec<Keeping> {
    let rows = [TASK, Record::new(5, 10, 20, 0), Record::new(6, 10, 11, 1000)];
    let mut keepings = Vec::new();
    for entries in [0, 1, 2, 3, 32, 33, 65535] {
        for first in [0, 1, 2, 31, 32, 65535] {
            let mut keeping = changed(&rows, Change::Join(TASK));
            keeping.kept.entries = entries;
            keeping.kept.index[0] = first;
            keeping.kept.index[31] = entries;
            keepings.extend(both(&keeping, first));
        }
    }
    keepings
}

/// With a swap cost another task saturates first, and other records are good; so it is with a notch.
fn swaps_and_notches() -> Vec<Keeping> {
    // steps 125 and 225 without swaps, 375 and 226 with w = 1
    let short = Record::new(1, 8, 16, 500);
    let long = Record::new(900, 1000, 2000, 2000);
    let mut keepings = Vec::new();
    for w in [0, 1, 2, 3, 4, 50, 51, 65_535] {
        for q in [0, 1, 2, 4, 8, 16, 65_535] {
            let keeping = Keeping { w, q, ..changed(&[short, long, short], Change::Leave(1)) };
            keepings.push(keeping.clone());
            keepings.push(Keeping { change: Change::Join(long), ..keeping });
        }
    }
    keepings
}

/// Records just good and just bad, joining and in the table; a bad one blocks even its own leave.
fn records() -> Vec<Keeping> {
    const TOP: u32 = Record::GREATEST_PERIOD;
    const STIFF: u32 = Record::GREATEST_ELASTICITY;
    let mut keepings = Vec::new();
    for record in [
        Record::new(0, 10, 20, 1000),
        Record::new(10, 10, 20, 1000),
        BAD,
        Record::new(5, 21, 20, 1000),
        Record::new(1, 1, TOP, 1),
        Record::new(1, 10, TOP + 1, 1000),
        Record::new(TOP, TOP, TOP, STIFF),
        Record::new(1, 10, 20, STIFF + 1),
        Record::new(0, 0, 0, 0),
        Record::new(u32::MAX, u32::MAX, u32::MAX, u32::MAX),
    ] {
        keepings.push(changed(&[TASK, TASK], Change::Join(record)));
        for change in [
            Change::Join(TASK),
            Change::Join(BAD),
            Change::Leave(1),
            Change::Leave(0),
            Change::Leave(3),
        ] {
            let mut keeping = changed(&[TASK; 3], change);
            keeping.kept.rows[1] = record;
            keepings.push(keeping);
        }
    }
    keepings
}
