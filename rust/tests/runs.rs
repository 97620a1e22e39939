//! Whole runs through the library: the examples with what they print, bad files, and outputs of every kind of length.
use std::ffi::OsStr;
use std::fs;
use std::path::{Path, PathBuf};
use zidlemowo::{judge, judge_into, run, run_into, MOST_PRINTED};

/// The schedule files of `examples/`.
fn examples() -> Vec<PathBuf> {
    let folder = Path::new(env!("CARGO_MANIFEST_DIR")).join("../examples");
    let paths = fs::read_dir(folder).expect("examples").map(|entry| entry.expect("an example").path());
    let files: Vec<_> = paths.filter(|path| path.extension() == Some(OsStr::new("bin"))).collect();
    assert!(files.len() > 12);
    files
}

/// What an example has in the file with such an ending, if there is one.
fn content(example: &Path, ending: &str) -> Option<Vec<u8>> {
    fs::read(example.with_extension(ending)).ok()
}

/// Into outputs of many lengths: the length of the whole text, as much of it as fits, and what was behind.
fn fits(file: &[u8], text: &[u8], into: fn(&[u8], &mut [u8]) -> usize) {
    for length in [0, 1, text.len() / 2, text.len() - 1, text.len(), text.len() + 1, text.len() + 99] {
        let mut output = vec![b'#'; length];
        assert_eq!(into(file, &mut output), text.len());
        let fit = length.min(text.len());
        assert_eq!(output[..fit], text[..fit]);
        assert!(output[fit..].iter().all(|&byte| byte == b'#'));
    }
}

#[test]
fn the_examples_print_what_is_expected() {
    for example in examples() {
        let file = content(&example, "bin").expect("the file");
        let printed = content(&example, "out").expect("what the runner prints");
        let judged = content(&example, "judged").unwrap_or_else(|| printed.clone());
        assert_eq!(run(&file), printed, "{}", example.display());
        assert_eq!(judge(&file), judged, "{}", example.display());
    }
}

#[test]
fn an_output_of_any_length() {
    for example in examples() {
        let file = content(&example, "bin").expect("the file");
        fits(&file, &run(&file), run_into);
        fits(&file, &judge(&file), judge_into);
    }
}

#[test]
fn any_bytes_are_a_file() {
    for file in [&[][..], &[0], &[1, 1], &[255; 10], &[0; 65_536], &[1; 100_000]] {
        assert_eq!(run(file), b"refused 30\n");
        assert_eq!(judge(file), b"refused 30\n");
        fits(file, b"refused 30\n", run_into);
        fits(file, b"refused 30\n", judge_into);
    }
}

#[test]
fn a_byte_more_than_the_longest_file_is_refused() {
    let longest = |length: usize| {
        // One handler with an empty script, one cell, and order places to the end.
        let places = (length - 10).to_be_bytes();
        let mut file = vec![1, 1, 0, 10, 0, 0, 0, 10, places[6], places[7]];
        file.resize(length, 0);
        file
    };
    let text = run(&longest(65_535));
    assert!(text.ends_with(b"\n65524 0 - refused 32\ncell 0 unset number 0\n"));
    assert!(text.len() <= MOST_PRINTED);
    assert_eq!(judge(&longest(65_535)), text);
    assert_eq!(run(&longest(65_536)), b"refused 30\n");
    assert_eq!(judge(&longest(65_536)), b"refused 30\n");
}
