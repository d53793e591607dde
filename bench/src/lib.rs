//! The rules of docs/RULES.md and the program of docs/PROGRAM.md, written a second time in plain Rust.
//! Nothing here was taken from the crates, so that agreement of the two says something.

pub mod alignment;
pub mod check;
pub mod ends;
pub mod fit;
pub mod limits;
pub mod parse;
pub mod random;
pub mod report;
pub mod road;
pub mod rows;
pub mod run;
pub mod series;
pub mod session;
pub mod sheet;
pub mod superelevation;
pub mod wide;
pub mod words;

/// The longest length of a clothoid, in millimetres.
pub const LONGEST: u64 = 2_000_000;
