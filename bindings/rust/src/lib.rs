//! The pace setter: it stretches the periods of a controller's repeating tasks so that they fit its processors, all of them by the same
//! compression step, and by the smallest one that is enough.
//!
//! Each function here is a call of the proved library (`include/eelbasket.h`) with Rust's own types. Every call is total: any numbers and
//! bytes may be passed, and bad ones are refused. A [`Refusal`] has the number that the documents give it, its place, and a sentence on what to
//! look at; a refused call leaves what was lent as it was.
//!
//! It needs no standard library. [`find`], [`relief()`], [`check_proposal`], [`Sheet`] and [`filled`] allocate: they come with the feature
//! `alloc`, which is on unless it is turned off, and nothing else does.
//!
//! ```
//! use eelbasket::{find, Policy, Refusal, Station, Task};
//!
//! // two tasks of 6 ticks, every 10 to 20 ticks, on one processor
//! let tasks = [Task::new(6, 10, 20, 1000); 2];
//! let plan = find(&tasks, Station::new(Policy::Pooled, 1))?;
//! assert_eq!(plan.step, 100);
//! assert_eq!(plan.granted[0].period, 12);
//!
//! let refusal = find(&tasks, Station::new(Policy::Pooled, 17)).unwrap_err();
//! assert_eq!(refusal.number(), 2);
//! println!("{refusal}");
//! # Ok::<(), Refusal>(())
//! ```

#![no_std]
#![deny(missing_docs)]

#[cfg(feature = "alloc")]
extern crate alloc;

// all calls stand there, also those of which nothing is made without `alloc`
#[cfg_attr(not(feature = "alloc"), allow(dead_code))]
mod boundary;
mod clock;
mod finders;
mod kept;
mod kinds;
mod office;
mod proposal;
mod reason;
mod records;
mod refusal;
mod relief;
mod sheets;

pub use clock::Clock;
#[cfg(feature = "alloc")]
pub use finders::{find, Plan};
pub use finders::{margin, plain, quick, wide, Looked};
pub use kept::{Index, Kept, Table};
pub use kinds::{Edition, Granted, Policy, Station, Task, WideTask, MOST_TASKS};
pub use office::{export, import};
#[cfg(feature = "alloc")]
pub use proposal::check_proposal;
pub use proposal::check_proposal_into;
pub use reason::{Reason, WideReason};
pub use records::{reason, share, wide_reason};
pub use refusal::Refusal;
pub use relief::relief_into;
#[cfg(feature = "alloc")]
pub use relief::{relief, Relief};
pub use sheets::{change_over, check, fill, Part, Which, LONGEST_SHEET};
#[cfg(feature = "alloc")]
pub use sheets::{filled, Sheet};
