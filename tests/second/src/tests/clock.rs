//! The release clock: Ask 12's sentences, worked runs, and its answers beside those of a clock that does not wrap.

use crate::clock_run::Run;
use crate::definition::clock::{start, Clock};
use crate::definition::kinds::Refusal;
use crate::generator::edges_of_clock;
use crate::random::Random;

const MOST: u32 = 1_000_000_000;

fn released(clock: &mut Clock, ticks: &[u32]) -> Vec<Option<usize>> {
    ticks.iter().map(|tick| clock.call(*tick).expect("at most 32 tasks")).collect()
}

#[test]
fn over_the_turn() {
    let near = u32::MAX - 5;
    let mut clock = start(&[10, 20, 5], near).expect("good periods");
    let ticks = [near, near, near, near, near - 1, 4, 4, 3, 4, 4];
    let expected =
        [Some(0), Some(1), Some(2), None, None, Some(2), Some(0), None, Some(2), None].to_vec();
    assert_eq!(released(&mut clock, &ticks), expected);
    assert_eq!(clock.next[..3], [14, 14, 9]);
}

#[test]
fn a_tick_too_far_back_makes_a_task_due() {
    for (tick, task) in [(MOST, None), (852_516_352, None), (852_516_351, Some(0))] {
        let mut clock = start(&[MOST], 2 * MOST).expect("a good period");
        assert_eq!(released(&mut clock, &[2 * MOST, tick]), [Some(0), task]);
    }
}

#[test]
fn three_comes_before_seventeen() {
    assert_eq!(start(&[0; 33], 0), Err(Refusal { number: 3, place: 33 }));
    assert_eq!(start(&[1, MOST + 1, 0], 0), Err(Refusal { number: 17, place: 1 }));
}

#[test]
fn a_refused_call_changes_nothing() {
    let clock = Clock { periods: [1; 32], next: [0; 32], count: 33 };
    let mut after = clock.clone();
    assert_eq!(after.call(5), Err(Refusal { number: 3, place: 33 }));
    assert_eq!(after, clock);
}

#[test]
fn a_run_byte_by_byte() {
    let run = Run::started(7, &[10], &[7, 7]);
    let mut payload = Vec::new();
    run.put(&mut payload);
    assert_eq!(payload, [0, 7, 0, 0, 0, 1, 10, 0, 0, 0, 7, 0, 0, 0, 7, 0, 0, 0]);
    let answer = run.answer();
    assert_eq!(answer[..19], [0, 0, 0, 0, 0, 0, 0, 0, 0, 0, 1, 0, 0, 0, 0, 0, 0, 0, 0]);
    assert_eq!(answer[19..26], [1, 0, 10, 0, 0, 0, 0]);
    assert_eq!(answer.len(), 5 + 2 * 7 + 2 + 256);
    assert!(edges_of_clock::calls().len() > 300);
}

/// Under the premise the clock on 32 bits answers as one that never wraps.
#[test]
fn in_step_with_unbroken_time() {
    for seed in 0..200 {
        let mut random = Random::of_call(12, seed);
        let longest = random.of_any_size(MOST);
        let periods: Vec<u32> =
            (0..random.small(1, 6)).map(|_| random.small(longest / 3 + 1, longest)).collect();
        let mut now = (1 << 32) - u64::from(random.of_any_size(MOST));
        let mut clock = start(&periods, now as u32).expect("good periods");
        let mut next = vec![now; periods.len()];
        let mut furthest = now;
        for _ in 0..500 {
            let back = furthest - u64::from(random.small(0, MOST));
            let on = now + u64::from(random.small(0, longest));
            now = random.pick(&[now, now, now, on, on, on, furthest, back]);
            // the premise
            if next.iter().any(|release| now >= release + (1 << 31)) {
                now = furthest;
            }
            furthest = furthest.max(now);
            let earliest = (0..next.len()).filter(|task| next[*task] <= now);
            let task = earliest.min_by_key(|task| (next[*task], *task));
            assert_eq!(clock.call(now as u32), Ok(task), "seed {seed}");
            if let Some(task) = task {
                next[task] += u64::from(periods[task]);
            }
        }
    }
}
