//! Proposals of planners: by first fit, by best fit, shared out, and damaged; and tables with loads of just S.

use super::tables::{pay_swaps, rigid, set_notches, telling_step, turning_step};
use crate::call::{Proposing, Settings, Table};
use crate::definition::kinds::{Record, MOST_TASKS, SCALE};
use crate::definition::load::Loads;
use crate::definition::policy::first_fit;
use crate::definition::share::springs;
use crate::random::Random;
use std::cmp::Reverse;

/// What the tasks of a table of good records ask for at a step; nothing where a record is bad.
fn asked(table: &Table, step: u32) -> Vec<u64> {
    let Settings { w, q, edition, .. } = table.settings;
    if table.rows.iter().all(|row| row.is_good(w, q)) {
        Loads::of_rows(&table.rows, w, q, edition).at(step)
    } else {
        vec![]
    }
}

/// The tasks by how much they ask for, the most first, each on the fullest processor that can take it; where none can, on the emptiest.
pub fn best_fit(m: u16, asked: &[u64]) -> Vec<u16> {
    let mut tasks: Vec<usize> = (0..asked.len()).collect();
    tasks.sort_by_key(|task| Reverse(asked[*task]));
    let (mut loads, mut proposal) = (vec![0; usize::from(m)], vec![0; asked.len()]);
    for task in tasks {
        let fitting = (0..loads.len()).filter(|j| loads[*j] + asked[task] <= SCALE);
        let emptiest = (0..loads.len()).min_by_key(|j| loads[*j]).expect("a processor");
        let chosen = fitting.max_by_key(|j| loads[*j]).unwrap_or(emptiest);
        loads[chosen] += asked[task];
        proposal[task] = chosen as u16 + 1;
    }
    proposal
}

/// One processor after the other, or any.
fn shared_out(random: &mut Random, m: u16, tasks: usize) -> Vec<u16> {
    if random.one_in(2) {
        return (0..tasks).map(|task| (task % usize::from(m)) as u16 + 1).collect();
    }
    (0..tasks).map(|_| random.small(1, u32::from(m)) as u16).collect()
}

/// A proposal of processors from 1 to m for all rows of a table, good or not, at a step.
fn planned(random: &mut Random, table: &Table, step: u32) -> Vec<u16> {
    let m = table.settings.m.clamp(1, 16);
    let asked = asked(table, step);
    match random.between(0, 9) {
        _ if asked.len() < table.rows.len() => shared_out(random, m, table.rows.len()),
        0..=2 => first_fit(m, &asked).unwrap_or_else(|| best_fit(m, &asked)),
        3..=7 => best_fit(m, &asked),
        _ => shared_out(random, m, table.rows.len()),
    }
}

/// Changes a processor or two: to one that is not there, or to another.
fn damage(random: &mut Random, proposal: &mut [u16], m: u16) {
    for _ in 0..random.between(1, 2) {
        let place = random.place(proposal.len());
        proposal[place] = match random.between(0, 7) {
            0 => 0,
            1 => m.wrapping_add(1),
            2 => 65535,
            3 => 256 + random.small(0, u32::from(m)) as u16,
            _ => random.small(1, u32::from(m.max(1))) as u16,
        };
    }
}

/// A step that is worth a check, or any.
fn step(random: &mut Random, table: &Table) -> u32 {
    let (w, q) = (table.settings.w, table.settings.q);
    let good = table.rows.iter().all(|row| row.is_good(w, q));
    match random.between(0, 9) {
        0 => u32::MAX - random.small(0, 1),
        1 => turning_step(random, &table.rows),
        2 => random.of_any_size(u32::MAX),
        _ if good => telling_step(random, &springs(&table.rows, w)),
        _ => 0,
    }
}

/// A proposal for a table, seldom too short, and an output, seldom too short.
pub fn for_table(random: &mut Random, table: Table) -> Proposing {
    let step = step(random, &table);
    let m = table.settings.m;
    let mut proposal = planned(random, &table, step);
    if random.one_in(4) && !proposal.is_empty() {
        damage(random, &mut proposal, m);
    }
    match random.between(0, 24) {
        0 => drop(proposal.pop()),
        1..=3 => proposal.resize(random.small(proposal.len() as u32, 40) as usize, 0),
        _ => {}
    }
    let room = match random.between(0, 24) {
        0 => m.saturating_sub(1).min(40),
        1 => random.small(0, 40) as u16,
        2..=6 => random.small(u32::from(m.min(16)), 40) as u16,
        _ => m.min(16),
    };
    Proposing { table, step, proposal, room: room as u8 }
}

/// Processors filled to just S, or a part beside it, by tasks in a random order, and the proposal that says which are whose.
pub fn filled_up(random: &mut Random, number: u16) -> Proposing {
    let m = random.pick(&[1, 2, 3, 4, 16]);
    let mut placed: Vec<(Record, u16)> = Vec::new();
    for processor in 1..=m {
        let mut missing = if random.one_in(8) { SCALE + random.between(0, 2) - 1 } else { SCALE };
        for _ in 0..random.between(0, 2) {
            let parts = random.between(1, missing * 3 / 4);
            placed.insert(random.place(placed.len() + 1), (rigid(parts), processor));
            missing -= parts;
        }
        let last = if random.one_in(6) { missing / 2 } else { missing };
        placed.insert(random.place(placed.len() + 1), (rigid(last.min(SCALE)), processor));
    }
    placed.truncate(MOST_TASKS);
    let (mut rows, proposal): (Vec<Record>, Vec<u16>) = placed.into_iter().unzip();
    let w = if random.one_in(3) { pay_swaps(random, &mut rows) } else { 0 };
    let q = if random.one_in(4) { set_notches(random, &mut rows, w) } else { 1 };
    let table = Table::new(number, m, &rows).with_swaps(w).with_notches(q);
    Proposing { table, step: random.pick(&[0, 1, u32::MAX]), proposal, room: m as u8 }
}
