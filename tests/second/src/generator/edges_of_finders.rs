//! The edges of finders and margin: settings, the order of the checks, records, outputs, fits.

use super::bench::HUGE_RANGE;
use super::tables::rigid;
use crate::call::{present, Call, Rooms, Settings, Table};
use crate::definition::bound::bound;
use crate::definition::kinds::{Record, MOST_TASKS, SCALE};

const PLAIN_TASK: Record = Record::new(6, 10, 20, 1000);

pub fn calls() -> Vec<Call> {
    let mut calls = settings();
    calls.extend(counts_above());
    calls.extend(order_of_checks());
    calls.extend(records());
    calls.extend(outputs());
    calls.extend(fits());
    calls.extend(one_core_fits());
    calls.extend(saturation_steps());
    calls.extend(huge_ranges());
    calls
}

/// One question asked of all three calls.
pub fn ask(table: &Table, rooms: Rooms, step: u32) -> [Call; 3] {
    [
        Call::Plain(table.clone(), rooms),
        Call::Quick(table.clone(), rooms),
        Call::Margin(table.clone(), step),
    ]
}

/// A table of that many tasks; of more than 32 only 32 rows.
fn counted(settings: Settings, count: u16) -> Table {
    let rows = vec![Record::new(1, 40, 80, 1000); present(count)];
    Table { settings, count, rows }
}

/// Every policy number, as read and as a further choice, with every m, the counts by turns.
fn settings() -> Vec<Call> {
    let mut calls = Vec::new();
    let mut counts = [1, 0, 33, 2, 32, 3, 40].iter().cycle();
    for number in [0, 1, 2, 3, 4, 5, 6, 65535] {
        for further in [false, true] {
            for m in [0, 1, 2, 16, 17, 65535] {
                let settings = Settings { further, ..Settings::new(number, m) };
                let table = counted(settings, *counts.next().expect("a cycle"));
                calls.extend(ask(&table, Rooms::just(&table), 7));
            }
        }
    }
    calls
}

/// Counts above 32, up to the greatest one of the stream: 3 at the count, after 1 and 2 and before all else.
fn counts_above() -> Vec<Call> {
    let mut calls = Vec::new();
    for count in [33, 40, 65535] {
        for (number, m) in [(1, 1), (4, 16), (9, 1), (2, 17), (5, 1), (5, 2), (3, 1)] {
            let table = counted(Settings::new(number, m), count);
            for entries in [0, 40] {
                calls.extend(ask(&table, Rooms { periods: entries, processors: entries }, 7));
            }
        }
    }
    calls
}

/// Every combination of things that are refused: under policy 1, with 9 and with 3 for the policy that is refused, and under policy 5,
/// with m = 2 for the wrong one.
fn order_of_checks() -> Vec<Call> {
    let mut calls = order_under(1, 9, 17);
    calls.extend(order_under(1, 3, 17));
    calls.extend(order_under(5, 9, 2));
    calls
}

/// The combinations under a policy that is served, another that is refused and an m that is wrong, asked of all three calls.
fn order_under(served: u16, refused: u16, wrong_m: u16) -> Vec<Call> {
    let mut calls = Vec::new();
    for wrong in 0_u32..128 {
        let is_wrong = |check: u32| wrong & (1 << check) != 0;
        if is_wrong(0) && is_wrong(3) {
            continue;
        }
        let number = if is_wrong(0) {
            refused
        } else if is_wrong(3) {
            4
        } else {
            served
        };
        let m = if is_wrong(1) { wrong_m } else { 1 };
        let share = if is_wrong(6) { 10 } else { 2 };
        let mut rows = vec![Record::new(share, 10, 10, 0); 3];
        if is_wrong(5) {
            rows[1].e = Record::GREATEST_ELASTICITY + 1;
        }
        let mut table = Table::new(number, m, &rows);
        if is_wrong(2) {
            table.rows.resize(32, PLAIN_TASK);
            table.count = 33;
        }
        let entries = if is_wrong(4) { 2 } else { 33 };
        calls.extend(ask(&table, Rooms { periods: 34, processors: entries }, 1));
    }
    calls
}

/// Records just good and just bad: each limit, and one off it.
fn telling_records() -> Vec<Record> {
    const TOP: u32 = Record::GREATEST_PERIOD;
    const STIFF: u32 = Record::GREATEST_ELASTICITY;
    vec![
        Record::new(0, 10, 20, 1000),
        Record::new(1, 10, 20, 1000),
        Record::new(10, 10, 20, 1000),
        Record::new(11, 10, 20, 1000),
        Record::new(5, 20, 20, 1000),
        Record::new(5, 21, 20, 1000),
        Record::new(0, 0, 20, 1000),
        Record::new(0, 0, 0, 0),
        Record::new(1, 0, 20, 1000),
        Record::new(1, 10, TOP, 1000),
        Record::new(1, 10, TOP + 1, 1000),
        Record::new(1, TOP, TOP, 1000),
        Record::new(TOP, TOP, TOP, 0),
        Record::new(TOP + 1, TOP + 1, TOP + 1, 0),
        Record::new(1, TOP + 1, TOP, 1000),
        Record::new(1, 10, 20, 0),
        Record::new(1, 10, 20, STIFF),
        Record::new(1, 10, 20, STIFF + 1),
        Record::new(1, 10, 20, u32::MAX),
        Record::new(1, 10, u32::MAX, 1000),
        Record::new(1, u32::MAX, 20, 1000),
        Record::new(u32::MAX, 10, 20, 1000),
        Record::new(u32::MAX, u32::MAX, u32::MAX, u32::MAX),
        Record::new(1, 1, 1, 0),
        Record::new(1, 1, 2, STIFF),
        Record::new(999_999_999, TOP, TOP, 1),
    ]
}

/// Each telling record alone, and as the second and the fourth of four.
fn records() -> Vec<Call> {
    let light = Record::new(1, 100, 200, 1000);
    let mut calls = Vec::new();
    for (index, record) in telling_records().into_iter().enumerate() {
        let alone = Table::new([1, 2, 4][index % 3], 2, &[record]);
        let among = Table::new([1, 2][index % 2], 2, &[light, record, light, record]);
        for table in [alone, among] {
            calls.extend(ask(&table, Rooms::just(&table), 1));
        }
    }
    calls
}

/// Every pair of lengths around the count; too short in either output gives the count.
fn outputs() -> Vec<Call> {
    let mut calls = Vec::new();
    for (number, count) in [(1, 0), (1, 1), (4, 3), (2, 3), (1, 32)] {
        let table = counted(Settings::new(number, 2), count);
        let near: Vec<u8> = (0..3).filter_map(|more| (count as u8 + more).checked_sub(1)).collect();
        for periods in [0].iter().chain(&near) {
            for processors in [40].iter().chain(&near) {
                let rooms = Rooms { periods: *periods, processors: *processors };
                calls.push(Call::Plain(table.clone(), rooms));
                calls.push(Call::Quick(table.clone(), rooms));
            }
        }
    }
    calls
}

/// Rigid tables a part under, at and over an exact fit, under each policy and m.
fn fits() -> Vec<Call> {
    let mut calls = Vec::new();
    for (number, m) in [(1, 1), (1, 2), (2, 1), (2, 3), (4, 1), (4, 2)] {
        let full = u64::from(m) * SCALE;
        // two equal shares u: 2u and (m + 1)u parts are asked under policies 1 and 2
        let equal = match number {
            1 => full / 2,
            2 => full / (u64::from(m) + 1),
            _ => SCALE / 2,
        };
        for off in 0..4 {
            let last = (equal + off).saturating_sub(2).clamp(1, SCALE);
            let rows = [rigid(equal.min(SCALE)), rigid(last)];
            let table = Table::new(number, m, &rows);
            calls.extend(ask(&table, Rooms::just(&table), 0));
        }
    }
    calls
}

/// Rigid tasks a part under, at and over the bound of policy 5, for each number of tasks.
fn one_core_fits() -> Vec<Call> {
    let mut calls = Vec::new();
    for tasks in 1..=MOST_TASKS as u64 {
        let each = bound(tasks as usize) / tasks;
        let rest = bound(tasks as usize) - each * (tasks - 1);
        for last in [rest - 1, rest, rest + 1] {
            let mut rows = vec![rigid(each); tasks as usize - 1];
            rows.push(rigid(last.min(SCALE)));
            let table = Table::new(5, 1, &rows);
            calls.extend(ask(&table, Rooms::just(&table), 0));
        }
    }
    calls
}

/// Case D with a rigid task, so that the answer walks over both saturation steps, 55 and 400.
fn saturation_steps() -> Vec<Call> {
    let (short, long) = (Record::new(6, 10, 11, 1000), Record::new(6, 10, 30, 1000));
    let mut calls = Vec::new();
    // at step k the two ask 600,000 twice, less 2,000 a step to 55, then less 1,000 a step to 400
    for asked in
        [1_090_909, 1_090_455, 1_091_000, 1_092_000, 1_089_455, 1_089_454, 746_454, 746_455]
    {
        for off in 0..3 {
            let m = 2;
            let spare = u64::from(m) * SCALE - asked - 1 + off;
            let fillers = [rigid(spare / 2), rigid(spare - spare / 2)];
            let table = Table::new(1, m, &[short, fillers[0], long, fillers[1]]);
            calls.extend(ask(&table, Rooms::just(&table), 54 + off as u32));
        }
    }
    for ties in [
        vec![short; 3],
        vec![short, long, short, long],
        vec![long, Record::new(12, 20, 60, 1000), short],
    ] {
        for (number, m) in [(1, 1), (2, 2), (4, 2), (5, 1)] {
            let table = Table::new(number, m, &ties);
            calls.extend(ask(&table, Rooms::just(&table), 55));
        }
    }
    calls
}

/// "E = 1 with a huge range", a few times for the plain finder, more often for the others.
fn huge_ranges() -> Vec<Call> {
    let refused = Table::new(1, 1, &[rigid(SCALE), rigid(1), HUGE_RANGE]);
    let two = Table::new(5, 1, &[HUGE_RANGE; 2]);
    let three = Table::new(2, 2, &[HUGE_RANGE; 3]);
    let mut calls = Vec::new();
    for table in [refused, two, three] {
        calls.extend(ask(&table, Rooms::just(&table), 999_998));
        calls.extend(
            [499_999, 500_000, 500_001, 999_999, 1_000_000]
                .map(|step| Call::Margin(table.clone(), step)),
        );
    }
    for (number, m, count) in [(1, 1, 32), (1, 16, 32), (2, 16, 32), (5, 1, 32)] {
        let table = Table::new(number, m, &vec![HUGE_RANGE; count]);
        calls.push(Call::Quick(table.clone(), Rooms::just(&table)));
    }
    let stiffest = Record::new(1, 1, Record::GREATEST_PERIOD, Record::GREATEST_ELASTICITY);
    let table = Table::new(1, 1, &[stiffest; 4]);
    calls.extend(ask(&table, Rooms::just(&table), u32::MAX));
    calls
}
