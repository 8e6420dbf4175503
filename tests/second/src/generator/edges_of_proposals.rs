//! The edges of the proposals: the order of the checks, processors out of range, loads around S, lengths, steps, and every policy.

use super::bench::case_k_rows;
use super::proposals::best_fit;
use super::tables::rigid;
use crate::call::{present, Call, Proposing, Settings, Table};
use crate::definition::finder::shares_at;
use crate::definition::kinds::{Record, SCALE};
use crate::definition::share::springs;

pub fn calls() -> Vec<Call> {
    let mut proposals = order_of_checks();
    proposals.extend(policies());
    proposals.extend(processors());
    proposals.extend(loads());
    proposals.extend(lengths());
    proposals.extend(steps());
    proposals.extend(swaps_and_notches());
    proposals.extend(beyond_first_fit());
    proposals.into_iter().map(Call::Proposal).collect()
}

/// A proposal with an output of just m entries.
fn proposed(table: Table, step: u32, proposal: &[u16]) -> Proposing {
    let room = table.settings.m.min(40) as u8;
    Proposing { table, step, proposal: proposal.to_vec(), room }
}

/// Every combination of things that are refused, in three tasks on two processors.
fn order_of_checks() -> Vec<Proposing> {
    let mut proposals = Vec::new();
    for wrong in 0_u32..256 {
        let is_wrong = |check: u32| wrong & (1 << check) != 0;
        let m = if is_wrong(0) { 17 } else { 2 };
        let q = if is_wrong(1) { 0 } else { 5 };
        let share = if is_wrong(2) { 10 } else { 5 };
        let mut rows = vec![Record::new(share, 10, 10, 0); 3];
        if is_wrong(3) {
            rows[1].tmax = 11;
        }
        let mut table = Table::new(1, m, &rows).with_notches(q);
        if is_wrong(4) {
            table.rows.resize(32, rows[0]);
            table.count = 33;
        }
        let mut proposal = vec![1, 2, if is_wrong(5) { 3 } else { 1 }];
        proposal.resize(if is_wrong(6) { 2 } else { 40 }, 1);
        let mut proposing = proposed(table, 0, &proposal);
        proposing.room = if is_wrong(7) { 1 } else { 20 };
        // a policy that no finder serves is no reason to refuse
        proposing.table.settings.number = [1, 3, 9, 5][wrong as usize % 4];
        proposals.push(proposing);
    }
    proposals
}

/// "2" for the processors alone, under every policy and none, with tasks, without, and with too many of them.
fn policies() -> Vec<Proposing> {
    let mut proposals = Vec::new();
    let mut counts = [2, 0, 33].iter().cycle();
    for number in [0, 1, 2, 3, 4, 5, 6, 65535] {
        for further in [false, true] {
            for m in [0, 1, 2, 16, 17, 256, 65535] {
                let settings = Settings { further, ..Settings::new(number, m) };
                let count = *counts.next().expect("a cycle");
                let rows = vec![Record::new(1, 4, 8, 1000); present(count)];
                let table = Table { settings, count, rows };
                let mut proposing = proposed(table, 7, &[1; 33]);
                proposing.room = 20;
                proposals.push(proposing);
            }
        }
    }
    proposals
}

/// Processors at 1 and m, and one off, at the first, a middle and the last task; 13 names the first, and comes before 14.
fn processors() -> Vec<Proposing> {
    let mut proposals = Vec::new();
    for m in [1, 3, 16] {
        for tasks in [1, 3, 32] {
            let table = Table::new(4, m, &vec![rigid(SCALE / 32); tasks]);
            for place in [0, tasks / 2, tasks - 1] {
                for processor in [0, 1, m, m + 1, 256 + m, 65_535] {
                    let mut proposal = vec![1; tasks];
                    proposal[place] = processor;
                    proposals.push(proposed(table.clone(), 0, &proposal));
                }
            }
        }
    }
    // all tasks of a full share, so that 14 would come, and two processors out of range
    let table = Table::new(4, 2, &[rigid(SCALE); 5]);
    for proposal in [[1, 1, 3, 0, 2], [1, 1, 0, 3, 2], [3, 1, 1, 2, 2], [2, 2, 2, 2, 0]] {
        proposals.push(proposed(table.clone(), 0, &proposal));
    }
    proposals
}

/// Loads a part under, at and over S on each processor, on two at a time, and on all; with 32 tasks on one.
fn loads() -> Vec<Proposing> {
    let mut proposals = Vec::new();
    for m in [1_u16, 2, 4] {
        let tasks = 2 * usize::from(m);
        let proposal: Vec<u16> =
            (0..tasks).map(|task| (task % usize::from(m)) as u16 + 1).collect();
        let around = |over: &[usize], parts: u64| {
            let mut rows = vec![rigid(SCALE / 2); tasks];
            over.iter().for_each(|place| rows[*place] = rigid(parts));
            Table::new(4, m, &rows)
        };
        for place in 0..tasks {
            for parts in [SCALE / 2 - 1, SCALE / 2, SCALE / 2 + 1, SCALE] {
                proposals.push(proposed(around(&[place], parts), 0, &proposal));
                let two = around(&[place, tasks - 1 - place], parts);
                proposals.push(proposed(two, 0, &proposal));
            }
        }
    }
    // an even share of S for each of 32 tasks, a part more for the last
    for more in [0, 1] {
        let mut rows = vec![rigid(SCALE / 32); 32];
        rows[31] = rigid(SCALE / 32 + more);
        for processor in [1, 16] {
            proposals.push(proposed(Table::new(4, 16, &rows), 0, &[processor; 32]));
        }
    }
    // the greatest load that a proposal can ask for, on the first processor and on the last
    for processor in [1, 16] {
        let table = Table::new(4, 16, &[rigid(SCALE); 32]);
        proposals.push(proposed(table, 0, &[processor; 32]));
    }
    proposals
}

/// Lengths of the proposal around the tasks, of the output around the processors; what follows in the proposal is not looked at.
fn lengths() -> Vec<Proposing> {
    let mut proposals = Vec::new();
    for (m, tasks) in [(1, 0), (3, 0), (16, 0), (1, 1), (2, 3), (3, 3), (16, 32), (5, 32)] {
        let table = Table::new(1, m, &vec![rigid(SCALE / 32); tasks]);
        for entries in [0, tasks.saturating_sub(1), tasks, tasks + 1, 40] {
            for room in [0, m - 1, m, m + 1, 40] {
                let mut proposal = vec![m; tasks];
                proposal.resize(entries, [0, 65_535][entries % 2]);
                let mut proposing = proposed(table.clone(), 0, &proposal);
                proposing.room = room as u8;
                proposals.push(proposing);
            }
        }
    }
    proposals
}

/// Case K's processors at every step to full compression and past it, and a table that fits from a step on, at steps whose product with E
/// is around a multiple of 2 to the 32.
fn steps() -> Vec<Proposing> {
    let case_k = Table::new(4, 3, &case_k_rows());
    let placed = [1, 2, 2, 3, 1, 2, 3];
    let mut proposals: Vec<Proposing> =
        (0..=17).map(|step| proposed(case_k.clone(), step, &placed)).collect();
    let row = Record::new(6, 10, 20, 1000);
    for step in [0, 99, 100, 101, 299, 300, 301, 4_294_967, 4_294_968, 1 << 29, u32::MAX] {
        proposals.push(proposed(case_k.clone(), step, &placed));
        proposals.push(proposed(Table::new(1, 1, &[row; 2]), step, &[1, 1]));
        proposals.push(proposed(Table::new(5, 2, &[row; 3]), step, &[2, 1, 2]));
    }
    let stiffest = Record::new(1, 1, Record::GREATEST_PERIOD, Record::GREATEST_ELASTICITY);
    for step in [0, 1, 2, 4_294, 4_295, u32::MAX] {
        proposals.push(proposed(Table::new(1, 2, &[stiffest; 3]), step, &[2, 1, 2]));
    }
    proposals
}

/// The swap cost counts in the loads, the notch in whether a record is good; the settings count is not looked at.
fn swaps_and_notches() -> Vec<Proposing> {
    let row = Record::new(6, 10, 20, 1000);
    let mut proposals = Vec::new();
    for (w, steps) in [(0, [99, 100]), (1, [299, 300]), (2, [499, 500]), (3, [0, 500])] {
        for q in [0, 1, 3, 5, 10, 20] {
            for (step, count) in steps.into_iter().zip([0, 2]) {
                let mut table = Table::new(4, 2, &[row; 2]).with_swaps(w).with_notches(q);
                table.settings.count = count;
                proposals.push(proposed(table, step, &[2, 2]));
            }
        }
    }
    let dear = Record { c: 11, ..row };
    for rows in [[row, dear, dear], [dear, row, row], [row, row, dear]] {
        // 6 comes before 13 and 14
        proposals.push(proposed(Table::new(4, 2, &rows), 0, &[1, 1, 1]));
        proposals.push(proposed(Table::new(4, 2, &rows), 0, &[0, 3, 0]));
    }
    proposals
}

/// Tables that first fit does not place and another packing fills to the last part, beside first fit's beginnings.
fn beyond_first_fit() -> Vec<Proposing> {
    let mut proposals = Vec::new();
    for parts in [
        vec![400_000, 400_000, 600_000, 600_000],
        vec![300_000, 300_000, 400_000, 500_000, 500_000],
    ] {
        let rows: Vec<Record> = parts.iter().map(|parts| rigid(*parts)).collect();
        let shares = shares_at(&springs(&rows, 0), 0);
        let table = Table::new(4, 2, &rows);
        let (mut front, mut back) = (vec![1; rows.len()], vec![2; rows.len()]);
        front[2..].fill(2);
        back[..2].fill(1);
        for proposal in [best_fit(2, &shares), front, back] {
            proposals.push(proposed(table.clone(), 0, &proposal));
        }
    }
    proposals
}
