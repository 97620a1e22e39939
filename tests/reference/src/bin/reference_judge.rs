//! The judge of docs/RULES.md in plain Rust: a schedule file on standard input, its lines up to a 65th commit on standard output.
//! It is measured beside the proved judge.
use reference::{judge, program};

/// The whole program.
fn main() {
    program::run("reference-judge", judge::printed);
}
