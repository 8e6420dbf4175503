//! The second program's own tests: the bench cases, the small readings, the stream.

mod bench;
mod clock;
mod editions;
mod finders;
mod keep;
mod office;
mod proposals;
mod records;
mod relief;
mod sheets;
mod stream;
mod wide;

use crate::call::Table;
use crate::definition::finder::{plain, quick};
use crate::definition::kinds::{Record, Refusal};

/// The plain finder's step or refusal, with just enough room.
fn step_of(table: &Table) -> Result<u32, Refusal> {
    let entries = table.rows.len();
    plain(&table.question(), &mut vec![0; entries], &mut vec![0; entries])
}

/// The quick finder's answer and looks, with just enough room.
fn quick_of(table: &Table) -> (Result<u32, Refusal>, u16) {
    let entries = table.rows.len();
    quick(&table.question(), &mut vec![0; entries], &mut vec![0; entries])
}

/// The plain finder's periods and processors.
fn plan_of(table: &Table) -> (Vec<u32>, Vec<u16>) {
    let (mut periods, mut processors) = (vec![0; table.rows.len()], vec![0; table.rows.len()]);
    plain(&table.question(), &mut periods, &mut processors).expect("an accepted table");
    (periods, processors)
}

fn refused<T>(number: u8, place: u32) -> Result<T, Refusal> {
    Err(Refusal { number, place })
}

/// Case B's task.
const HALF_SPRING: Record = Record::new(6, 10, 20, 1000);
