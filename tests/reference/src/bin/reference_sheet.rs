//! The duty sheet over the schedule files that are named, in plain Rust: a line for each file, then one for each handler.
//! The proved program `sheet` has to print the same. A file that can't be read is said on standard error, and adds nothing.
use reference::schedule::LONGEST;
use reference::sheet;
use std::ffi::OsStr;
use std::fs::File;
use std::io::{self, Read, Write};
use std::os::unix::ffi::OsStrExt;
use std::process::exit;

/// A file's bytes, one beyond the longest at most.
fn content(name: &OsStr) -> io::Result<Vec<u8>> {
    let mut bytes = Vec::new();
    File::open(name)?.take(LONGEST as u64 + 1).read_to_end(&mut bytes)?;
    Ok(bytes)
}

/// All that is printed of some files, in their order.
fn printed(names: impl Iterator<Item = std::ffi::OsString>) -> Vec<u8> {
    let mut text = Vec::new();
    let mut words = [0; sheet::WORDS];
    for name in names {
        match content(&name) {
            Ok(file) => {
                text.extend(name.as_bytes());
                text.extend(format!(" {}\n", sheet::said(sheet::add(&mut words, &file))).as_bytes());
            }
            Err(error) => eprintln!("{}: {error}", name.to_string_lossy()),
        }
    }
    text.extend(sheet::printed(&words).as_bytes());
    text
}

/// The whole program.
fn main() {
    if let Err(error) = io::stdout().write_all(&printed(std::env::args_os().skip(1))) {
        eprintln!("reference-sheet: {error}");
        exit(1);
    }
}
