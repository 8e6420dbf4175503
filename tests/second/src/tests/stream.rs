//! The stream: its lengths and places, and what the calls of a seed reach.

use super::HALF_SPRING;
use crate::answer::answer;
use crate::call::{framed, Call, Proposing, Rooms, Settings, Table, Writing, MOST_PAYLOAD};
use crate::clock_run::MOST_CALLS;
use crate::definition::keep::{Change, Kept};
use crate::definition::kinds::Record;
use crate::generator::Calls;
use crate::keeping::Keeping;
use std::collections::BTreeSet;

#[test]
fn a_plain_call_and_its_answer_byte_by_byte() {
    let table = Table {
        settings: Settings { number: 1, further: true, m: 1, count: 6, w: 1, q: 5, edition: 1 },
        count: 2,
        rows: vec![Record { c: 4, ..HALF_SPRING }; 2],
    };
    let call = Call::Plain(table, Rooms { periods: 2, processors: 3 });
    let row = [4, 0, 0, 0, 10, 0, 0, 0, 20, 0, 0, 0, 0xE8, 3, 0, 0];
    let head = [1, 1, 0, 1, 1, 0, 6, 0, 1, 0, 5, 0, 1, 0, 2, 0, 2, 3];
    assert_eq!(call.payload(), [&head[..], &row, &row].concat());
    let expected = [0, 0, 0, 0, 0, 100, 0, 0, 0, 15, 0, 0, 0, 15, 0, 0, 0, 0, 0, 0, 0, 0x5A, 0x5A];
    assert_eq!(answer(&call), expected);
    assert_eq!(framed(&answer(&call))[..2], [23, 0]);
}

#[test]
fn a_margin_is_8_bytes_in_twos_complement() {
    let call = Call::Margin(Table::new(1, 1, &[HALF_SPRING; 2]), 99);
    // 2 × 501,000 is 2,000 parts too many
    assert_eq!(answer(&call)[5..], (-2_000_i64).to_le_bytes());
}

#[test]
fn a_written_sheet_stands_before_sentinels() {
    let mut writing = Writing {
        settings: Settings {
            number: 3,
            further: true,
            m: 258,
            count: 2,
            w: 772,
            q: 1286,
            edition: 1800,
        },
        task_count: 0,
        result_count: 0,
        room: 14,
        rows: vec![],
        results: vec![],
    };
    let expected = [0, 0, 0, 0, 0, 10, 0, 2, 0, 3, 0, 2, 1, 0, 0, 0, 0, 0xEE, 0xEE, 0xEE, 0xEE];
    assert_eq!(answer(&Call::Write(writing.clone())), expected);
    writing.settings.count = 3;
    let expected = [0, 0, 0, 0, 0, 12, 0, 3, 0, 3, 0, 2, 1, 4, 3, 0, 0, 0, 0, 0xEE, 0xEE];
    assert_eq!(answer(&Call::Write(writing.clone())), expected);
    writing.settings.count = 4;
    let expected = [0, 0, 0, 0, 0, 14, 0, 4, 0, 3, 0, 2, 1, 4, 3, 6, 5, 0, 0, 0, 0];
    assert_eq!(answer(&Call::Write(writing.clone())), expected);
    writing.settings.count = 5;
    writing.room = 16;
    let expected = [0, 0, 0, 0, 0, 16, 0, 5, 0, 3, 0, 2, 1, 4, 3, 6, 5, 8, 7, 0, 0, 0, 0];
    assert_eq!(answer(&Call::Write(writing)), expected);
}

#[test]
fn a_reading_has_the_settings_count_w_q_and_the_edition_after_m() {
    let front = |sheet: &[u8]| answer(&Call::Read(sheet.to_vec()))[..21].to_vec();
    let sheet = [5, 0, 3, 0, 2, 1, 4, 3, 6, 5, 8, 7, 0, 0, 0, 0];
    assert_eq!(front(&sheet), [0, 0, 0, 0, 0, 3, 0, 2, 1, 5, 0, 4, 3, 6, 5, 8, 7, 0, 0, 0, 0]);
    // a missing q and a missing edition are 1
    let three = [3, 0, 3, 0, 2, 1, 4, 3, 0, 0, 0, 0];
    assert_eq!(front(&three), [0, 0, 0, 0, 0, 3, 0, 2, 1, 3, 0, 4, 3, 1, 0, 1, 0, 0, 0, 0, 0]);
    // a refused reading is zeros, the count, q and the edition included
    let refused = |length: u8| [&[8, length][..], &[0; 19]].concat();
    assert_eq!(front(&sheet[..15]), refused(15));
    assert_eq!(front(&three[..11]), refused(11));
}

#[test]
fn a_proposal_and_its_answer_byte_by_byte() {
    let table = Table {
        settings: Settings { number: 7, further: true, m: 2, count: 9, w: 1, q: 5, edition: 2 },
        count: 2,
        rows: vec![Record { c: 4, ..HALF_SPRING }; 2],
    };
    let proposing = Proposing { table, step: 258, proposal: vec![2, 2, 770], room: 3 };
    let row = [4, 0, 0, 0, 10, 0, 0, 0, 20, 0, 0, 0, 0xE8, 3, 0, 0];
    let head = [13, 7, 0, 1, 2, 0, 9, 0, 1, 0, 5, 0, 2, 0, 2, 0, 2, 1, 0, 0, 3, 3];
    let call = Call::Proposal(proposing.clone());
    assert_eq!(call.payload(), [&head[..], &row, &row, &[2, 0, 2, 0, 2, 3]].concat());
    // 6 of 20 ticks twice is 600,000, or 0x927C0, on the second processor
    let loads = [0, 0, 0, 0, 0xC0, 0x27, 0x09, 0, 0xA5, 0xA5, 0xA5, 0xA5];
    assert_eq!(answer(&call), [&[0; 5][..], &loads].concat());
    let early = Call::Proposal(Proposing { step: 0, ..proposing });
    assert_eq!(answer(&early), [&[14, 2, 0, 0, 0][..], &[0xA5; 12]].concat());
}

#[test]
fn changes_of_a_kept_table_and_their_answers_byte_by_byte() {
    let mut kept = Kept::fresh(&[Record { c: 4, ..HALF_SPRING }], 1);
    // what stands past the ends, and an index of 258 entries that is not its own
    kept.rows[31] = Record::new(1, 2, 3, 4);
    (kept.entries, kept.index[0], kept.index[31]) = (258, 772, 1286);
    let row = [4, 0, 0, 0, 10, 0, 0, 0, 20, 0, 0, 0, 0xE8, 3, 0, 0];
    let last = [1, 0, 0, 0, 2, 0, 0, 0, 3, 0, 0, 0, 4, 0, 0, 0];
    let given = [&[1, 0][..], &row, &[0; 480], &last, &[2, 1, 4, 3], &[0; 60], &[6, 5]].concat();
    let call = |change, q| Call::Keep(Keeping { kept: kept.clone(), w: 1, q, change });
    let leave = call(Change::Leave(513), 5);
    assert_eq!(leave.payload(), [&[14, 1, 1, 0, 5, 0][..], &given, &[1, 2]].concat());
    assert_eq!(answer(&leave), [&[12, 1, 2, 0, 0][..], &given].concat());
    let join = call(Change::Join(Record { c: 4, ..HALF_SPRING }), 0);
    assert_eq!(join.payload(), [&[14, 0, 1, 0, 0, 0][..], &given, &row].concat());
    assert_eq!(answer(&join), [&[2, 0, 0, 0, 0][..], &given].concat());
    let join = call(Change::Join(Record { c: 4, ..HALF_SPRING }), 5);
    let joined = [&[2, 0][..], &row, &row, &[0; 480], &[2, 0, 0, 0, 1, 0], &[0; 60]].concat();
    assert_eq!(answer(&join), [&[0; 5][..], &joined].concat());
}

#[test]
fn the_rows_present_are_those_of_the_count_and_at_most_32() {
    let calls = Calls::of_seed(3);
    for index in 0..15_000 {
        let call = calls.call(index);
        assert!(call.payload().len() <= MOST_PAYLOAD);
        match call {
            Call::Plain(table, rooms) | Call::Quick(table, rooms) => {
                assert_eq!(table.rows.len(), usize::from(table.count).min(32));
                assert!(rooms.periods <= 40 && rooms.processors <= 40);
            }
            Call::Margin(table, _) => {
                assert_eq!(table.rows.len(), usize::from(table.count).min(32))
            }
            Call::Write(writing) => {
                assert_eq!(writing.rows.len(), usize::from(writing.task_count).min(32));
                assert_eq!(writing.results.len(), usize::from(writing.result_count).min(32));
            }
            Call::Program(input) | Call::Check(input) => assert!(input.len() <= 800),
            Call::Wide(table, rooms) => {
                assert_eq!(table.rows.len(), usize::from(table.count).min(32));
                assert!(rooms.periods <= 40 && rooms.processors <= 40);
            }
            Call::Clock(run) => assert!(run.ticks.len() <= MOST_CALLS),
            Call::Export(exporting) => {
                assert_eq!(exporting.rows.len(), usize::from(exporting.count).min(32));
                assert!(exporting.room <= 1_500);
            }
            Call::Relief(table, room) => {
                assert_eq!(table.rows.len(), usize::from(table.count).min(32));
                assert!(room <= 40);
            }
            Call::Import { entries, .. } => assert!(entries <= 40),
            Call::Proposal(Proposing { table, proposal, room, .. }) => {
                assert_eq!(table.rows.len(), usize::from(table.count).min(32));
                assert!(proposal.len() <= 40 && room <= 40);
            }
            Call::Read(_) | Call::ChangeOver { .. } | Call::Keep(_) => {}
            Call::Record { .. } | Call::WideRecord(_) => {}
        }
    }
}

#[test]
fn a_call_hangs_on_seed_and_index_only() {
    let (one, again, other) = (Calls::of_seed(8), Calls::of_seed(8), Calls::of_seed(9));
    let from = one.fixed_count();
    assert!((0..from + 200).rev().all(|index| one.call(index) == again.call(index)));
    assert!((from..from + 200).any(|index| one.call(index) != other.call(index)));
}

/// The number of an answer whose first byte it is, a reason too, or the digits of a program's line.
fn number_of(call: &Call, answer: &[u8]) -> u8 {
    match call {
        Call::Program(_) => match answer.strip_prefix(b"refused ") {
            Some(rest) => rest
                .iter()
                .take_while(|byte| **byte != b' ')
                .fold(0, |n, digit| 10 * n + digit - b'0'),
            None => 0,
        },
        _ => answer[0],
    }
}

#[test]
fn random_calls_reach_every_answer_under_policy_5() {
    let calls = Calls::of_seed(1);
    let from = calls.fixed_count();
    let mut reached = BTreeSet::new();
    for call in (from..from + 10_000).map(|index| calls.call(index)) {
        if matches!(&call, Call::Plain(table, _) if table.settings.number == 5) {
            reached.insert(number_of(&call, &answer(&call)));
        }
    }
    assert_eq!(reached.into_iter().collect::<Vec<_>>(), [0, 2, 3, 5, 6, 7]);
}

#[test]
fn the_first_15000_calls_reach_every_number_that_a_call_can_give() {
    let calls = Calls::of_seed(1);
    let mut reached = vec![BTreeSet::new(); 18];
    for index in 0..15_000 {
        let call = calls.call(index);
        reached[usize::from(call.kind())].insert(number_of(&call, &answer(&call)));
    }
    let expected: [&[u8]; 17] = [
        &[0, 1, 2, 3, 5, 6, 7, 15],
        &[0, 1, 2, 3, 4, 5, 6, 7, 15],
        &[0, 1, 2, 3, 4, 6, 15],
        &[0, 3, 8, 9, 10, 11],
        &[0, 3, 5, 9, 10],
        &[0, 1],
        &[0, 1, 2, 3, 6, 7, 8, 9, 10, 11, 15],
        &[0, 2, 3, 5, 6, 7],
        &[0, 1, 2, 3, 6, 7, 8, 9, 10, 11, 15, 18, 19],
        &[0, 3, 17],
        &[0, 3, 5, 16],
        &[0, 3, 5],
        &[0, 2, 3, 5, 6, 13, 14],
        &[0, 2, 3, 6, 12],
        &[0, 1, 2, 3, 5, 6, 15],
        &[0, 1, 2, 3, 4, 5, 6, 7, 8],
        &[0, 1, 2, 3, 4, 5, 6, 7, 8],
    ];
    for (index, numbers) in expected.iter().enumerate() {
        assert_eq!(reached[index + 1], numbers.iter().copied().collect(), "kind {}", index + 1);
    }
}
