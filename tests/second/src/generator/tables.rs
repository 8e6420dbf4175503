//! Random tables: general ones, exact fits, ties, first fits that waver, huge ranges. Each is made with a swap cost of 0 and a notch
//! of 1; the swaps are paid and the notches set afterwards. What fits exactly does so by the loads of the edition aimed at.

use super::bench::{case_k_rows, HUGE_RANGE};
use crate::definition::bound::bound;
use crate::definition::kinds::{is_multiple, Policy, Record, MOST_TASKS, SCALE};
use crate::definition::load::Loads;
use crate::definition::policy::{passes, sides};
use crate::definition::share::{full_compression, spring, springs, Spring};
use crate::random::Random;

/// Policy number, processors and edition that a table is made for.
#[derive(Clone, Copy)]
pub struct Aim {
    pub number: u16,
    pub m: u16,
    pub edition: u16,
    /// The greatest full compression wanted.
    pub most_steps: u32,
}

/// A rigid task whose share is just that many parts.
pub fn rigid(parts: u64) -> Record {
    Record::new(parts as u32, SCALE as u32, SCALE as u32, 0)
}

/// An elasticity with which a spread of parts is gone within `most_steps` steps, or 0.
fn elasticity(random: &mut Random, record: Record, most_steps: u32) -> u32 {
    if random.one_in(7) {
        return 0;
    }
    if random.one_in(30) {
        return Record::GREATEST_ELASTICITY;
    }
    let rigid = spring(record, 0);
    let steps = random.between(1, u64::from(most_steps));
    (rigid.largest - rigid.least).div_ceil(steps).max(1) as u32
}

/// A longest period from Tmin upwards.
fn longest_period(random: &mut Random, tmin: u32) -> u32 {
    match random.between(0, 9) {
        0 => tmin,
        1 => Record::GREATEST_PERIOD,
        _ => {
            let stretched = u64::from(tmin) + random.between(0, 3 * u64::from(tmin));
            stretched.min(u64::from(Record::GREATEST_PERIOD)) as u32
        }
    }
}

/// A good record whose largest share is about that many parts.
pub fn record_near(random: &mut Random, parts: u64, most_steps: u32) -> Record {
    let scale = random.pick(&[10, 100, 1_000, 10_000, 1_000_000, 1_000_000_000]);
    let tmin = random.small(scale / 2, scale);
    let c = (parts * u64::from(tmin) / SCALE).clamp(1, u64::from(tmin)) as u32;
    let mut record = Record::new(c, tmin, longest_period(random, tmin), 0);
    record.e = elasticity(random, record, most_steps);
    record
}

fn task_count(random: &mut Random) -> u64 {
    match random.between(0, 39) {
        0 => 0,
        1 => MOST_TASKS as u64,
        2..=4 => random.between(7, 31),
        _ => random.between(1, 6),
    }
}

/// A table that asks for half to twice the processors.
pub fn general(random: &mut Random, aim: Aim) -> Vec<Record> {
    let count = task_count(random);
    let asked = u64::from(aim.m.clamp(1, 16)) * SCALE * random.between(50, 200) / 100;
    (0..count)
        .map(|_| {
            let parts = asked / count * random.between(30, 170) / 100;
            record_near(random, parts.clamp(1, SCALE), aim.most_steps)
        })
        .collect()
}

/// Steps that are worth a test: 0, around the saturation steps, K and beyond, and any.
pub fn telling_step(random: &mut Random, springs: &[Spring]) -> u32 {
    let last = full_compression(springs);
    let saturations: Vec<u32> = springs.iter().filter_map(Spring::saturation_step).collect();
    match random.between(0, 9) {
        0 => 0,
        1 => last,
        2 => last + 1,
        3 | 4 => random.small(0, last),
        _ if saturations.is_empty() => random.small(0, 2),
        _ => (random.pick(&saturations) + random.small(0, 2)).saturating_sub(1),
    }
}

/// A step whose product with an elasticity is just above a multiple of 2 to the 32.
pub fn turning_step(random: &mut Random, rows: &[Record]) -> u32 {
    let elastic: Vec<u64> = rows.iter().map(|row| u64::from(row.e)).filter(|e| *e > 1).collect();
    if elastic.is_empty() {
        return u32::MAX;
    }
    let elasticity = random.pick(&elastic);
    (random.between(1, elasticity - 1) << 32).div_ceil(elasticity) as u32
}

/// A table that fits exactly at a telling step, or is a part or two off, under a policy that has a formula.
pub fn exact(random: &mut Random, aim: Aim) -> Vec<Record> {
    let count = random.between(1, 5);
    let fair = (u64::from(aim.m) * SCALE / (count + 1)).min(SCALE);
    let mut rows: Vec<Record> = (0..count)
        .map(|_| {
            let parts = fair * random.between(20, 120) / 100;
            record_near(random, parts.clamp(1, SCALE), aim.most_steps)
        })
        .collect();
    let step = telling_step(random, &springs(&rows, 0));
    fit_at(random, &mut rows, step, aim);
    rows
}

/// Two tasks whose shares cross between two saturation steps, fitted at a step around the crossing.
pub fn crossing(random: &mut Random, aim: Aim) -> Vec<Record> {
    let most_gentle = if aim.m == 1 { 300_000 } else { 500_000 };
    let gentle = random.small(150_000, most_gentle);
    let (step, low, faster) =
        (random.small(2, 100), random.small(100, 600), random.small(1, 2_000));
    let steep = gentle + step * faster;
    let longest = random.small(2_000_000, 4_000_000);
    let mut rows = vec![
        Record::new(steep, SCALE as u32, longest, low + faster),
        Record::new(gentle, SCALE as u32, longest, low),
    ];
    if random.one_in(2) {
        rows.swap(0, 1);
    }
    let beside = (step + random.small(0, 60)).saturating_sub(20);
    fit_at(random, &mut rows, beside, aim);
    rows
}

/// Adds rigid tasks that make the table fit exactly at a step, or a part or two beside it.
fn fit_at(random: &mut Random, rows: &mut Vec<Record>, step: u32, aim: Aim) {
    let loads = Loads::of_rows(rows, 0, 1, aim.edition).at(step);
    if aim.number == 5 {
        return fit_bound(random, rows, loads.iter().sum());
    }
    let largest = loads.iter().copied().max().unwrap_or(1);
    let (left, right) = sides(Policy::from_number(aim.number), aim.m, &loads).expect("1 or 2");
    let missing = right - left + random.between(0, 3) as i128 - 1;
    fill(random, rows, missing.max(0) as u64, largest);
}

/// Adds rigid tasks that bring a sum of parts to the bound for all tasks that there are then, or a part or two beside it.
fn fit_bound(random: &mut Random, rows: &mut Vec<Record>, sum: u64) {
    let more = random.pick(&[1, 2, 3, 4, 9, 25]).min(MOST_TASKS - rows.len());
    let wanted = bound(rows.len() + more) + random.between(0, 3);
    let missing = wanted.saturating_sub(sum + 1);
    fill(random, rows, missing, missing.div_ceil(more as u64));
}

/// Puts rigid tasks of at most `largest` parts among the rows until that many parts are there.
fn fill(random: &mut Random, rows: &mut Vec<Record>, mut missing: u64, largest: u64) {
    while missing > 0 && rows.len() < MOST_TASKS {
        let parts = missing.min(largest);
        rows.insert(random.place(rows.len() + 1), rigid(parts));
        missing -= parts;
    }
}

/// A first-fit table in which processors are filled exactly at a step, or a part over or under.
pub fn exact_first_fit(random: &mut Random, aim: Aim) -> Vec<Record> {
    let mut rows: Vec<Record> = (0..aim.m.min(15))
        .map(|_| {
            let parts = random.between(500_001, 900_000);
            record_near(random, parts, aim.most_steps)
        })
        .collect();
    let step = telling_step(random, &springs(&rows, 0));
    let loads = Loads::of_rows(&rows, 0, 1, aim.edition).at(step);
    for load in loads {
        let parts = (SCALE + random.between(0, 2)).saturating_sub(load + 1);
        if parts > 0 {
            rows.push(rigid(parts));
        }
    }
    rows
}

/// Several tasks with one saturation step, and one or two with others.
pub fn tied(random: &mut Random, aim: Aim) -> Vec<Record> {
    let steps = random.between(1, u64::from(aim.most_steps.min(60)));
    let count = random.between(2, 6);
    let fair = (u64::from(aim.m) * SCALE * random.between(80, 180) / 100 / count).min(SCALE);
    let mut rows: Vec<Record> = (0..count)
        .map(|_| {
            let c = (fair * random.between(60, 120) / 100).clamp(10_000, SCALE) as u32;
            let mut row = Record::new(c, SCALE as u32, random.small(1_200_000, 5_000_000), 0);
            let at_rest = spring(row, 0);
            row.e = (at_rest.largest - at_rest.least).div_ceil(steps) as u32;
            row
        })
        .collect();
    for _ in 0..random.between(0, 2) {
        let other = record_near(random, fair.max(1), aim.most_steps);
        rows.insert(random.place(rows.len() + 1), other);
    }
    rows
}

/// Whether first fit fails at step 0, passes at a later step and fails again after it.
pub fn wavers(m: u16, rows: &[Record], edition: u16) -> bool {
    let loads = Loads::of_rows(rows, 0, 1, edition);
    let passing = |step| passes(Policy::FirstFit, m, &loads.at(step));
    let last = loads.full_compression();
    let Some(first) = (0..=last).find(|step| passing(*step)) else {
        return false;
    };
    first > 0 && (first..=last).any(|step| !passing(step))
}

/// Case K with its numbers shaken.
fn shaken_case_k(random: &mut Random) -> (u16, Vec<Record>) {
    let mut rows = case_k_rows();
    for row in &mut rows[1..] {
        row.c = row.c + random.small(0, 40) - 20;
    }
    rows[0].e = random.small(2_000, 15_000);
    rows[0].tmax = random.small(4_800, 6_500);
    (3, rows)
}

/// A few elastic tasks among rigid ones.
fn patchwork(random: &mut Random) -> (u16, Vec<Record>) {
    let m = random.small(2, 4) as u16;
    let mut rows: Vec<Record> = (0..random.between(2, 3) * u64::from(m))
        .map(|_| Record::new(random.small(150, 700), 1000, 1000, 0))
        .collect();
    for _ in 0..random.between(1, 2) {
        let tmin = random.small(700, 1_000);
        let elastic =
            Record::new(random.small(400, 700), tmin, tmin * 2, random.small(5_000, 20_000));
        rows.insert(random.place(rows.len()), elastic);
    }
    (m, rows)
}

/// A first-fit table that passes and then fails again; case K when none is met.
pub fn wavering(random: &mut Random, edition: u16) -> (u16, Vec<Record>) {
    for _ in 0..60 {
        let (m, rows) = if random.one_in(2) { shaken_case_k(random) } else { patchwork(random) };
        if wavers(m, &rows, edition) {
            return (m, rows);
        }
    }
    (3, case_k_rows())
}

/// A few tasks of case J's kind, whose full compression is near 999,999.
pub fn huge(random: &mut Random, most_tasks: u64) -> Vec<Record> {
    (0..random.between(1, most_tasks))
        .map(|_| match random.between(0, 3) {
            0 => rigid(random.between(1, 400_000)),
            1 => {
                let tmin = random.small(1, 50);
                Record::new(
                    random.small(1, tmin),
                    tmin,
                    Record::GREATEST_PERIOD,
                    random.small(1, 3),
                )
            }
            _ => HUGE_RANGE,
        })
        .collect()
}

/// A swap cost for a table that was made without one: mostly what the least C can spare, taken off every C, so that each cost and with it
/// each fit stays; else a little on top of each C, or any.
pub fn pay_swaps(random: &mut Random, rows: &mut [Record]) -> u16 {
    let least = rows.iter().map(|row| row.c).min().unwrap_or(1);
    let spare = (least.saturating_sub(1) / 2).min(u32::from(u16::MAX));
    match random.between(0, 9) {
        0 => random.pick(&[0, 1, 2, 255, 32_767, 32_768, 65_535]),
        1 => random.small(1, 3) as u16,
        _ if spare == 0 => 1,
        _ => {
            let w = random.of_any_size(spare);
            rows.iter_mut().for_each(|row| row.c -= 2 * w);
            w as u16
        }
    }
}

/// A notch for a table that was made without one: mostly one with which every share and so every fit stays, else one to which the periods
/// are drawn in, or any.
pub fn set_notches(random: &mut Random, rows: &mut [Record], w: u16) -> u16 {
    match random.between(0, 9) {
        0 => random.pick(&[0, 1, 2, 3, 255, 256, 32_768, 65_535]),
        1..=3 => common_notch(random, rows),
        4..=6 => grow(random, rows, w),
        _ => draw_in(random, rows),
    }
}

fn greatest_common_divisor(a: u32, b: u32) -> u32 {
    if b == 0 {
        a
    } else {
        greatest_common_divisor(b, a % b)
    }
}

/// A notch of which all periods are multiples already.
fn common_notch(random: &mut Random, rows: &[Record]) -> u16 {
    let periods = rows.iter().flat_map(|row| [row.tmin, row.tmax]);
    let common = periods.fold(0, greatest_common_divisor);
    let notches: Vec<u16> = (1..=u16::MAX).filter(|q| is_multiple(common, *q)).collect();
    random.pick(&notches)
}

/// A notch that is the old tick: costs and periods grow by as much.
fn grow(random: &mut Random, rows: &mut [Record], w: u16) -> u16 {
    let longest = rows.iter().map(|row| row.tmax).max().unwrap_or(1);
    let q = random.of_any_size((Record::GREATEST_PERIOD / longest).min(u32::from(u16::MAX)));
    for row in rows {
        let grown = row.cost(w) * u64::from(q) - 2 * u64::from(w);
        row.c = grown.min(u64::from(u32::MAX)) as u32;
        row.tmin *= q;
        row.tmax *= q;
    }
    q as u16
}

/// A notch to whose multiples each Tmin is raised and each Tmax lowered, though not below Tmin.
fn draw_in(random: &mut Random, rows: &mut [Record]) -> u16 {
    let longest = rows.iter().map(|row| row.tmax).max().unwrap_or(1);
    let q = random.of_any_size(longest.min(u32::from(u16::MAX)));
    for row in rows {
        row.tmin = row.tmin.next_multiple_of(q);
        row.tmax = row.tmin.max(row.tmax - row.tmax % q);
    }
    q as u16
}

/// Makes one or two records bad, with that swap cost, by a single step over a limit or off a notch, or far over it.
pub fn spoil(random: &mut Random, rows: &mut [Record], w: u16) {
    let swaps = 2 * u32::from(w);
    for _ in 0..random.between(1, 2) {
        let place = random.place(rows.len());
        let row = &mut rows[place];
        match random.between(0, 11) {
            0 => row.c = 0,
            1 => row.c = row.tmin.wrapping_add(1),
            // C + 2w one above Tmin, and a sum that 32 bits would turn over
            2 => row.c = row.tmin.saturating_add(1).saturating_sub(swaps),
            3 => row.c = u32::MAX - swaps.saturating_sub(random.small(0, 2)),
            4 => row.tmax = row.tmin - 1,
            5 => row.tmax = Record::GREATEST_PERIOD + 1,
            6 => row.e = Record::GREATEST_ELASTICITY + 1,
            7 => row.e = u32::MAX,
            8 => row.tmin = u32::MAX,
            9 => row.tmin = row.tmin.saturating_add(1),
            10 => row.tmax = row.tmax.saturating_add(1),
            _ => *row = Record::new(u32::MAX, u32::MAX, u32::MAX, 0),
        }
    }
}
