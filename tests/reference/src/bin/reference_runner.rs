//! The runner of docs/SCHEDULE.md in plain Rust: a schedule file on standard input, its lines on standard output.
//! It is measured beside the proved runner.
use reference::{program, runner};

/// The whole program.
fn main() {
    program::run("reference-runner", runner::printed);
}
