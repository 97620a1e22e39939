//! The register in plain Rust with no dependencies, written from the rules of docs/RULES.md and not from the proved code: its words and
//! steps, one by one and as a row, the schedule file and its run, the judge, which works from the history, and the duty sheet, which was
//! written from the rules alone. The proved programs are compared with them, word for word and line for line, on directed and on random
//! schedules.
pub mod aborts;
pub mod counts;
pub mod course;
pub mod directed;
pub mod generate;
pub mod hexadecimal;
pub mod histories;
pub mod judge;
pub mod lines;
pub mod program;
/// The proved register, linked from its static library: as the library for Rust declares it, so that this is said once.
#[cfg(feature = "proved")]
#[path = "../../../rust/src/raw.rs"]
pub mod proved;
pub mod random;
pub mod reads;
pub mod register;
pub mod registers;
pub mod row;
pub mod runner;
pub mod schedule;
pub mod sheet;
pub mod steps;
