//! The directed schedules of `examples/`: the bytes are those of the commented text, and runner, judge and sheet print what is expected.
//! The programs in C there have an expected output too; the gate compiles and runs them.
use reference::{hexadecimal, judge, runner, sheet};
use std::collections::BTreeSet;
use std::ffi::OsStr;
use std::fs;
use std::path::{Path, PathBuf};

/// The folder of the examples.
fn folder() -> PathBuf {
    Path::new(env!("CARGO_MANIFEST_DIR")).join("../../examples")
}

/// The names of the examples that have a file with such an ending.
fn names(ending: &str) -> BTreeSet<String> {
    let paths = fs::read_dir(folder()).expect("examples").map(|entry| entry.expect("an example").path());
    let chosen = paths.filter(|path| path.extension() == Some(OsStr::new(ending)));
    chosen.filter_map(|path| Some(path.file_stem()?.to_str()?.to_owned())).collect()
}

/// What an example's file with such an ending says.
fn text(name: &str, ending: &str) -> String {
    fs::read_to_string(folder().join(format!("{name}.{ending}"))).expect(name)
}

/// An example's schedule file.
fn bytes(name: &str) -> Vec<u8> {
    fs::read(folder().join(format!("{name}.bin"))).expect(name)
}

#[test]
fn each_example_has_its_three_files() {
    let sources = names("hex");
    assert!(sources.len() > 12);
    assert_eq!(sources, names("bin"));
    assert_eq!(&sources | &names("c"), names("out"));
}

#[test]
fn the_bytes_are_those_of_the_text() {
    for name in names("hex") {
        assert_eq!(hexadecimal::bytes(&text(&name, "hex")), Ok(bytes(&name)), "{name}");
    }
}

#[test]
fn the_run_prints_what_is_expected() {
    for name in names("bin") {
        assert_eq!(runner::printed(&bytes(&name)), text(&name, "out"), "{name}");
    }
}

#[test]
fn the_judge_has_a_file_of_its_own_exactly_where_it_stops() {
    let judged = names("judged");
    assert!(judged.len() > 1 && judged.is_subset(&names("hex")));
    for name in names("bin") {
        let expected = text(&name, if judged.contains(&name) { "judged" } else { "out" });
        assert_eq!(judge::printed(&bytes(&name)), expected, "{name}");
        assert_eq!(judged.contains(&name), expected.ends_with(" refused 33\n"), "{name}");
    }
}

#[test]
fn the_duty_sheet_of_three_files() {
    let mut words = [0; sheet::WORDS];
    let mut added = |name: &str| format!("examples/{name}.bin {}\n", sheet::said(sheet::add(&mut words, &bytes(name))));
    let lines = ["listing", "k10-blind-write", "refused-30-gap"].map(&mut added).concat();
    assert_eq!(lines + &sheet::printed(&words), text("three-files", "sheet"));
}
