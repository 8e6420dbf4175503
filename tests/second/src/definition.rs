//! Document 01 by brute definition: every step is scanned, every period is searched.
//! One file for each notion, in the order in which document 01 speaks of them.

pub mod admission;
pub mod bound;
pub mod change_over;
pub mod checked;
pub mod clock;
pub mod finder;
pub mod keep;
pub mod kinds;
pub mod load;
pub mod margin;
pub mod office;
pub mod policy;
pub mod program;
pub mod proposal;
pub mod reader;
pub mod reason;
pub mod relief;
pub mod share;
pub mod wide;
pub mod writer;
