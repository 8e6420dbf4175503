//! The edges of the release clock: counts, periods, differences around half a turn, ties, the turn itself.

use crate::call::Call;
use crate::clock_run::{Run, MOST_PERIODS};
use crate::definition::clock::Clock;

const MOST: u32 = 1_000_000_000;
const HALF: u32 = 2_147_483_648;

pub fn calls() -> Vec<Call> {
    let mut runs = counts();
    runs.extend(bad_periods());
    runs.extend(differences());
    runs.extend(worked());
    runs.into_iter().map(Call::Clock).collect()
}

/// Every count around 32, at a start and in a call.
fn counts() -> Vec<Run> {
    let mut runs: Vec<Run> = (0..=MOST_PERIODS)
        .map(|count| Run::started(7, &vec![10; count], &[6, 7, 7, 7, 17, 4_294_967_295]))
        .collect();
    for count in [0, 1, 2, 31, 32, 33, 34, 255, 256, 65535] {
        let clock = Clock { periods: [5; 32], next: [100; 32], count };
        runs.push(Run::given(clock, &[99, 100, 100, 101, 2_147_483_748]));
    }
    runs
}

/// Each limit of a period reached and passed by one, at the first, a middle and the last task; 17 names the first, and 3 comes before it.
fn bad_periods() -> Vec<Run> {
    let mut runs = Vec::new();
    for period in [0, 1, 2, MOST - 1, MOST, MOST + 1, HALF, u32::MAX] {
        for (count, place) in [(1, 0), (3, 1), (32, 0), (32, 31), (33, 0), (33, 32)] {
            let mut periods = vec![10; count];
            periods[place] = period;
            runs.push(Run::started(0, &periods, &[0, 0, 1]));
        }
    }
    runs.push(Run::started(0, &[5, 0, MOST + 1], &[]));
    runs.push(Run::started(0, &[5, MOST + 1, 0], &[]));
    runs
}

/// One to three tasks at differences around 0, half a turn and a whole turn; ties and near ties.
fn differences() -> Vec<Run> {
    let edges = [0, 1, HALF - 2, HALF - 1, HALF, HALF + 1, u32::MAX];
    let mut runs = Vec::new();
    for present in [0, 1_000, HALF, u32::MAX] {
        for one in edges {
            for other in edges {
                let mut clock = Clock { periods: [MOST; 32], next: [0; 32], count: 3 };
                clock.next[0] = present.wrapping_sub(one);
                clock.next[1] = present.wrapping_sub(other);
                clock.next[2] = present.wrapping_sub(one);
                runs.push(Run::given(clock, &[present; 4]));
            }
        }
    }
    runs
}

/// The worked runs: over the turn, a tick too far back, a task too far behind.
fn worked() -> Vec<Run> {
    let near = u32::MAX - 5;
    vec![
        Run::started(near, &[10, 20, 5], &[near, near, near, near, near - 1, 4, 4, 3, 4, 4]),
        Run::started(2 * MOST, &[MOST], &[2 * MOST, MOST]),
        Run::started(2 * MOST, &[MOST], &[2 * MOST, 852_516_352]),
        Run::started(2 * MOST, &[MOST], &[2 * MOST, 852_516_351]),
        Run::started(2 * MOST, &[MOST], &[2 * MOST, 852_516_351, 852_516_351]),
        Run::started(0, &[10], &[HALF - 1, HALF - 1]),
        Run::started(0, &[10], &[HALF, HALF - 1]),
    ]
}
