//! Random runs of the release clock: ticks that wrap, stand still and go back.

use crate::clock_run::{Run, MOST_CALLS};
use crate::definition::clock::Clock;
use crate::random::Random;

const MOST: u32 = 1_000_000_000;

/// A run, seldom with a count or a period that is refused.
pub fn random_run(random: &mut Random) -> Run {
    let longest = random.of_any_size(MOST);
    let from = starting_tick(random);
    let mut periods = periods(random, longest);
    let ticks = ticks(random, from, longest);
    match random.between(0, 24) {
        0 => {
            periods.resize(random.small(31, 40) as usize, longest);
            Run::started(from, &periods, &ticks[..ticks.len().min(3)])
        }
        1 if !periods.is_empty() => {
            let place = random.place(periods.len());
            periods[place] = random.pick(&[0, MOST, MOST + 1, u32::MAX]);
            Run::started(from, &periods, &ticks[..ticks.len().min(3)])
        }
        2..=6 => Run::given(any_clock(random, from, longest), &ticks),
        _ => Run::started(from, &periods, &ticks),
    }
}

/// Often shortly before the turn.
fn starting_tick(random: &mut Random) -> u32 {
    match random.between(0, 3) {
        0 => random.of_any_size(u32::MAX),
        1 => 0,
        _ => u32::MAX - random.of_any_size(MOST),
    }
}

/// Periods of at most `longest`; equal ones come often, so that tasks tie.
fn periods(random: &mut Random, longest: u32) -> Vec<u32> {
    let tasks = if random.one_in(6) { random.small(0, 32) } else { random.small(1, 6) };
    (0..tasks)
        .map(|_| match random.between(0, 2) {
            0 => longest,
            1 => longest.div_ceil(random.small(1, 4)),
            _ => random.small(1, longest),
        })
        .collect()
}

/// Up to hundreds of ticks: most stand still or move on by a part of a period, some go back, a few leap.
fn ticks(random: &mut Random, from: u32, longest: u32) -> Vec<u32> {
    let calls =
        if random.one_in(3) { random.small(100, MOST_CALLS as u32) } else { random.small(0, 30) };
    let mut tick = from;
    (0..calls)
        .map(|_| {
            tick = match random.between(0, 19) {
                0..=9 => tick,
                10..=15 => tick.wrapping_add(random.small(0, longest)),
                16 => tick.wrapping_sub(random.small(0, longest)),
                17 => tick.wrapping_sub(random.of_any_size(MOST)),
                18 => tick.wrapping_add(random.of_any_size(u32::MAX)),
                _ => tick.wrapping_add(1),
            };
            tick
        })
        .collect()
}

/// A clock of any numbers, with next releases around the first tick; seldom with more than 32 tasks.
fn any_clock(random: &mut Random, from: u32, longest: u32) -> Clock {
    let mut clock = Clock::zeros();
    clock.count = match random.between(0, 7) {
        0 => random.pick(&[31, 32, 33, 34, 65535]),
        _ => random.small(0, 32) as u16,
    };
    for task in 0..32 {
        let (any, ahead) = (random.small(0, longest), random.small(0, longest));
        clock.periods[task] = random.pick(&[longest, any, 0, u32::MAX]);
        clock.next[task] = match random.between(0, 5) {
            0 => from,
            1 => random.of_any_size(u32::MAX),
            2 => from.wrapping_sub(2_147_483_648).wrapping_add(random.small(0, 2)),
            3 => from.wrapping_add(ahead),
            _ => from.wrapping_sub(ahead),
        };
    }
    clock
}
