//! "Bench settings to try": the cases A to L, case B under policy 5, with swaps and with notches, and cases in the second edition, asked of
//! every call that can be asked.

use super::sheets::sheet_of;
use crate::call::{Call, Rooms, Table};
use crate::definition::kinds::Record;

/// Case B's task.
const HALF_SPRING: Record = Record::new(6, 10, 20, 1000);

/// A task of case J: the greatest full compression.
pub const HUGE_RANGE: Record = Record::new(1, 1, 1_000_000_000, 1);

/// Case K: the elastic task, then the rigid ones.
pub fn case_k_rows() -> Vec<Record> {
    let mut rows = vec![Record::new(3000, 4000, 5000, 10000)];
    rows.extend([450, 320, 350, 300, 230, 650].map(|c| Record::new(c, 1000, 1000, 0)));
    rows
}

/// The cases A to K by their letters, of which F, G and H are under the policy withdrawn, case B under Ask 1's, with Ask 2's swap
/// costs that its tasks can bear, and with Ask 5's notches; then cases in Ask 10's second edition.
pub fn cases() -> Vec<(&'static str, Table)> {
    let mut cases = vec![
        ("A", Table::new(1, 1, &[])),
        ("B", Table::new(1, 1, &[HALF_SPRING; 2])),
        ("C", Table::new(1, 1, &[Record::new(5, 10, 20, 0), Record::new(8, 10, 40, 3000)])),
        ("D", Table::new(1, 1, &[Record::new(6, 10, 11, 1000), Record::new(6, 10, 30, 1000)])),
        ("E", Table::new(2, 2, &[HALF_SPRING; 3])),
        ("F", Table::new(3, 2, &[HALF_SPRING; 3])),
        ("G", Table::new(3, 1, &[Record::new(10, 10, 20, 1)])),
        ("H", Table::new(3, 1, &[HALF_SPRING; 2])),
        ("I", Table::new(1, 1, &[Record::new(1, 3, 3, 0); 3])),
        ("J", Table::new(1, 1, &[HUGE_RANGE; 2])),
        ("K", Table::new(4, 3, &case_k_rows())),
        ("B under 5", Table::new(5, 1, &[HALF_SPRING; 2])),
        ("B, w = 1", Table::new(1, 1, &[HALF_SPRING; 2]).with_swaps(1)),
        ("B, w = 2", Table::new(1, 1, &[HALF_SPRING; 2]).with_swaps(2)),
        ("B, q = 5", Table::new(1, 1, &[HALF_SPRING; 2]).with_notches(5)),
        ("B, q = 10", Table::new(1, 1, &[HALF_SPRING; 2]).with_notches(10)),
        ("B, w = 1, q = 2", Table::new(1, 1, &[HALF_SPRING; 2]).with_swaps(1).with_notches(2)),
        ("B, w = 1, q = 5", Table::new(1, 1, &[HALF_SPRING; 2]).with_swaps(1).with_notches(5)),
    ];
    cases.extend(second_edition());
    cases
}

/// Cases of Ask 10's second edition, and case B in the first by number.
fn second_edition() -> Vec<(&'static str, Table)> {
    let b = Table::new(1, 1, &[HALF_SPRING; 2]);
    let d = Table::new(1, 1, &[Record::new(6, 10, 11, 1000), Record::new(6, 10, 30, 1000)]);
    let i = Table::new(1, 1, &[Record::new(1, 3, 3, 0); 3]);
    vec![
        ("B, edition 1", b.clone().with_edition(1)),
        ("A, edition 2", Table::new(1, 1, &[]).with_edition(2)),
        ("B, edition 2", b.clone().with_edition(2)),
        ("D, edition 2", d.with_edition(2)),
        ("E, edition 2", Table::new(2, 2, &[HALF_SPRING; 3]).with_edition(2)),
        ("I, edition 2", i.with_edition(2)),
        ("J, edition 2", Table::new(1, 1, &[HUGE_RANGE; 2]).with_edition(2)),
        ("K, edition 2", Table::new(4, 3, &case_k_rows()).with_edition(2)),
        ("B under 5, edition 2", Table::new(5, 1, &[HALF_SPRING; 2]).with_edition(2)),
        ("B, w = 1, edition 2", b.clone().with_swaps(1).with_edition(2)),
        ("B, q = 5, edition 2", b.with_notches(5).with_edition(2)),
    ]
}

/// Case L: 32 and 33 tasks, the greatest Tmax and one more, m = 16 and 17.
pub fn case_l() -> Vec<Table> {
    let light = Record::new(1, 1000, 2000, 1);
    let mut too_many = Table::new(1, 1, &[light; 32]);
    too_many.count = 33;
    vec![
        Table::new(1, 1, &[light; 32]),
        too_many,
        Table::new(1, 1, &[Record::new(1, 1000, 1_000_000_000, 1000)]),
        Table::new(1, 1, &[Record::new(1, 1000, 1_000_000_001, 1000)]),
        Table::new(1, 16, &[light]),
        Table::new(1, 17, &[light]),
    ]
}

/// The steps of the bench answers and those beside them, full compressions, a step whose
/// product with E = 1000 is a multiple of 2 to the 32, and the last step.
const MARGIN_STEPS: [u32; 20] = [
    0,
    1,
    54,
    55,
    56,
    99,
    100,
    101,
    138,
    139,
    146,
    185,
    186,
    266,
    267,
    300,
    400,
    500_000,
    1 << 29,
    u32::MAX,
];

/// The calls of one case; `again` asks also through sheets.
fn calls_of(table: &Table, again: bool) -> Vec<Call> {
    let just = Rooms::just(table);
    let wide = Rooms { periods: just.periods + 3, processors: just.processors + 5 };
    let mut calls = vec![
        Call::Plain(table.clone(), just),
        Call::Quick(table.clone(), just),
        Call::Quick(table.clone(), wide),
        Call::Read(sheet_of(table)),
    ];
    calls.extend(MARGIN_STEPS.map(|step| Call::Margin(table.clone(), step)));
    if again {
        let standing = sheet_of(&Table::new(1, 1, &[HALF_SPRING; 2]));
        calls.push(Call::Plain(table.clone(), wide));
        calls.push(Call::Program(sheet_of(table)));
        calls.push(Call::ChangeOver { standing, proposed: sheet_of(table) });
    }
    calls
}

/// All calls of the bench cases; case J, whose scan is long, is asked once of the plain finder.
pub fn calls() -> Vec<Call> {
    let mut calls = Vec::new();
    for (name, table) in cases() {
        calls.extend(calls_of(&table, name != "J"));
    }
    for table in case_l() {
        calls.extend(calls_of(&table, true));
    }
    calls
}
