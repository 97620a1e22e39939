//! The codes of the steps are those of docs/CODES.md, row by row, and the register takes with each code the step that its row names.
use std::fs;
use zidlemowo::{Abort, Refusal, Register, Reply, Step};

/// How many codes the page has, and how many cells they name.
const CODES: u32 = 256;
const CELLS: u32 = 32;

/// The rows of the page: a code, its step and its cell.
fn rows() -> Vec<(u32, String, u32)> {
    let path = concat!(env!("CARGO_MANIFEST_DIR"), "/../docs/CODES.md");
    let text = fs::read_to_string(path).expect("docs/CODES.md");
    let entries = text.lines().filter(|line| line.starts_with('|'));
    let split = entries.map(|line| line.trim_matches('|').split('|').map(|entry| entry.trim().to_owned()).collect::<Vec<_>>());
    split.filter_map(|row| Some((row[0].parse().ok()?, row[1].clone(), row[2].parse().ok()?))).collect()
}

/// The step that a row names; none where the code is unknown.
fn step(word: &str, cell: u32) -> Option<Step> {
    match word {
        "begin" => Some(Step::Begin),
        "try" => Some(Step::Try),
        "give up" => Some(Step::GiveUp),
        "read" => Some(Step::Read(cell)),
        "write" => Some(Step::Write(cell, 7)),
        "unknown" => None,
        other => panic!("no step is called {other}"),
    }
}

/// A register whose cells hold 100 and above; its handler is idle.
fn register() -> Register<'static> {
    let mut register = Register::new(CELLS, 1).expect("in range");
    register.begin(0).expect("idle");
    for cell in 0..CELLS {
        register.write(0, cell, 100 + cell).expect("a cell");
    }
    assert_eq!(register.try_commit(0), Ok(Ok(())));
    register
}

/// The reply to a code of a handler that is idle where the step is a begin, and else open.
fn reply(code: u32, step: Option<Step>) -> Reply {
    let mut register = register();
    if step != Some(Step::Begin) {
        register.begin(0).expect("idle");
    }
    register.step(0, code, 7)
}

#[test]
fn each_code_has_its_row() {
    assert_eq!(rows().into_iter().map(|row| row.0).collect::<Vec<_>>(), (0..CODES).collect::<Vec<_>>());
    assert_eq!(Step::NO_CODE, CODES);
}

#[test]
fn the_steps_have_the_codes_of_their_rows() {
    let cells = (0..CELLS).flat_map(|cell| [Step::Read(cell), Step::Write(cell, 7)]);
    let mut steps: Vec<Step> = [Step::Begin, Step::Try, Step::GiveUp].into_iter().chain(cells).collect();
    steps.sort_by_key(|step| step.code());
    let named: Vec<Step> = rows().into_iter().filter_map(|(_, word, cell)| step(&word, cell)).collect();
    assert_eq!(steps, named);
    for (code, word, cell) in rows() {
        assert_eq!(step(&word, cell).map_or(code, Step::code), code);
        assert!(cell == 0 || word == "read" || word == "write", "code {code} names cell {cell}");
    }
}

#[test]
fn the_register_takes_the_step_of_the_row() {
    for (code, word, cell) in rows() {
        let expected = match step(&word, cell) {
            Some(Step::Begin | Step::Write(..)) => Reply::Done,
            Some(Step::Try) => Reply::Committed,
            Some(Step::GiveUp) => Reply::Aborted(Abort::GaveUp),
            Some(Step::Read(cell)) => Reply::Value(100 + cell),
            None => Reply::Refused(Refusal::UnknownStep),
        };
        assert_eq!(reply(code, step(&word, cell)), expected, "code {code}");
    }
    assert_eq!(reply(CODES, None), Reply::Refused(Refusal::UnknownStep));
}

#[test]
fn a_write_writes_the_cell_of_its_row() {
    for (code, _, written) in rows().into_iter().filter(|row| row.1 == "write") {
        let mut register = register();
        register.begin(0).expect("idle");
        assert_eq!(register.step(0, code, 7), Reply::Done);
        for cell in 0..CELLS {
            let expected = if cell == written { 7 } else { 100 + cell };
            assert_eq!(register.read(0, cell), Ok(Ok(Some(expected))), "code {code}, cell {cell}");
        }
    }
}
