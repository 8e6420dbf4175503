//! The independent second program: it makes calls by seed and answers them from document 01. What stands here serves the program and the
//! tests of the Rust crate (`bindings/rust`).

pub mod answer;
pub mod call;
pub mod clock_run;
pub mod command;
pub mod definition;
pub mod generator;
pub mod keeping;
pub mod random;
pub mod readable;
#[cfg(test)]
mod tests;
