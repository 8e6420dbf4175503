//! Ask 6's kept order: what the index is, the two changes, and what a refused one leaves alone.

use super::{refused, HALF_SPRING};
use crate::answer::answer;
use crate::call::Call;
use crate::definition::keep::{index_of, Change, Kept};
use crate::definition::kinds::{Record, Refusal};
use crate::definition::share::spring;
use crate::generator::Calls;
use crate::keeping::Keeping;
use std::collections::BTreeMap;

/// Case B's task with another elasticity, so that it saturates at 300,000 / E.
fn elastic(e: u32) -> Record {
    Record { e, ..HALF_SPRING }
}

/// A change with no swap cost and every tick timed.
fn changed(kept: &Kept, change: Change) -> (Result<(), Refusal>, Kept) {
    let mut after = kept.clone();
    (after.change(0, 1, change), after)
}

#[test]
fn the_index_goes_by_saturation_step_then_by_record() {
    // 300, 150, 300, none, 0 and 150
    let no_range = Record::new(6, 10, 10, 9);
    let rows = [elastic(1000), elastic(2000), elastic(1000), elastic(0), no_range, elastic(2000)];
    assert_eq!(index_of(&rows, 0), [4, 1, 5, 0, 2]);
    assert_eq!(index_of(&[elastic(0); 32], 0), []);
    assert_eq!(index_of(&[elastic(5); 32], 0), (0..32).collect::<Vec<u16>>());
}

#[test]
fn the_swap_cost_counts_in_the_order() {
    // steps 125 and 225 without swaps, 375 and 226 with w = 1
    let rows = [Record::new(1, 8, 16, 500), Record::new(900, 1000, 2000, 2000)];
    assert_eq!((index_of(&rows, 0), index_of(&rows, 1)), (vec![0, 1], vec![1, 0]));
}

#[test]
fn a_task_joins_at_the_end_and_leaves_from_any_place() {
    let rows = [elastic(1000), elastic(0), elastic(2000)];
    let (verdict, joined) = changed(&Kept::fresh(&rows, 0), Change::Join(elastic(3000)));
    assert_eq!(verdict, Ok(()));
    assert_eq!((joined.count, joined.rows[3], joined.entries), (4, elastic(3000), 3));
    assert_eq!(joined.index[..4], [3, 2, 0, 0]);
    let (verdict, left) = changed(&joined, Change::Leave(0));
    assert_eq!(verdict, Ok(()));
    assert_eq!(left, Kept::fresh(&[elastic(0), elastic(2000), elastic(3000)], 0));
    assert_eq!((left.rows[3], left.index[..3].to_vec()), (Record::default(), vec![2, 1, 0]));
    // what joined last leaves again, and the place can be joined again
    let (_, back) = changed(&joined, Change::Leave(3));
    assert_eq!(back, Kept::fresh(&rows, 0));
    assert_eq!(changed(&back, Change::Join(elastic(3000))), (Ok(()), joined));
}

#[test]
fn the_checks_come_in_this_order() {
    let bad = Record::new(11, 10, 20, 0);
    let mut kept = Kept::fresh(&[HALF_SPRING; 32], 0);
    kept.rows[1] = bad;
    kept.count = 33;
    let at = |kept: &Kept, q, change| kept.clone().change(0, q, change);
    let (join, leave) = (Change::Join(bad), Change::Leave(40));
    assert_eq!((at(&kept, 0, join), at(&kept, 0, leave)), (refused(2, 0), refused(2, 0)));
    assert_eq!((at(&kept, 1, join), at(&kept, 1, leave)), (refused(3, 33), refused(3, 33)));
    // 32 can be left, and not joined
    kept.count = 32;
    assert_eq!((at(&kept, 1, join), at(&kept, 1, leave)), (refused(3, 32), refused(6, 1)));
    kept.count = 31;
    assert_eq!((at(&kept, 1, join), at(&kept, 1, leave)), (refused(6, 1), refused(6, 1)));
    // a bad record blocks even its own leave
    assert_eq!(at(&kept, 1, Change::Leave(1)), refused(6, 1));
    kept.rows[1] = HALF_SPRING;
    assert_eq!((at(&kept, 1, join), at(&kept, 1, leave)), (refused(6, 31), refused(12, 40)));
    assert_eq!(at(&kept, 1, Change::Leave(31)), refused(12, 31));
    assert_eq!(at(&kept, 1, Change::Leave(30)), Ok(()));
    assert_eq!(at(&kept, 1, Change::Join(HALF_SPRING)), Ok(()));
    // off the notch
    assert_eq!(at(&kept, 3, Change::Join(HALF_SPRING)), refused(6, 0));
}

/// The random changes of some seeds.
fn random_keepings() -> impl Iterator<Item = Keeping> {
    (1..=3).flat_map(|seed| {
        let calls = Calls::of_seed(seed);
        let from = calls.fixed_count();
        (from..from + 8_000).filter_map(move |index| match calls.call(index) {
            Call::Keep(keeping) => Some(keeping),
            _ => None,
        })
    })
}

#[test]
fn random_changes_are_often_accepted_and_refused_by_each_number() {
    let mut counts: BTreeMap<(bool, u8), usize> = BTreeMap::new();
    for keeping in random_keepings() {
        let joins = matches!(keeping.change, Change::Join(_));
        *counts.entry((joins, answer(&Call::Keep(keeping))[0])).or_default() += 1;
    }
    let all: usize = counts.values().sum();
    for (joins, number, per_hundred) in [
        (true, 0, 20),
        (true, 2, 1),
        (true, 3, 1),
        (true, 6, 4),
        (false, 0, 20),
        (false, 2, 1),
        (false, 3, 1),
        (false, 6, 2),
        (false, 12, 2),
    ] {
        let times = counts.get(&(joins, number)).copied().unwrap_or(0);
        assert!(times * 100 >= all * per_hundred, "{joins} {number}: {times} of {all}");
    }
}

#[test]
fn an_accepted_change_has_the_index_of_its_table_and_zeros_past_both_ends() {
    for Keeping { mut kept, w, q, change } in random_keepings() {
        let before = kept.clone();
        if kept.change(w, q, change).is_err() {
            assert_eq!(kept, before);
            continue;
        }
        let (count, entries) = (usize::from(kept.count), usize::from(kept.entries));
        assert!(kept.rows[count..].iter().all(|row| *row == Record::default()));
        assert!(kept.index[entries..].iter().all(|entry| *entry == 0));
        let step = |task: u16| spring(kept.rows[usize::from(task)], w).saturation_step();
        let index = &kept.index[..entries];
        assert_eq!(entries, kept.rows[..count].iter().filter(|row| row.e > 0).count());
        assert!(index.iter().all(|task| usize::from(*task) < count && step(*task).is_some()));
        assert!(index.windows(2).all(|pair| (step(pair[0]), pair[0]) < (step(pair[1]), pair[1])));
    }
}
