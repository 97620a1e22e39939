//! The duty sheet through the library: what the examples' own texts say is counted, refused files and full sheets leave it as it was,
//! and words lead there and back.
use std::ffi::OsStr;
use std::fs;
use std::path::{Path, PathBuf};
use zidlemowo::{Counts, Reason, Refusal, Sheet};

/// The folder of the examples.
fn folder() -> PathBuf {
    Path::new(env!("CARGO_MANIFEST_DIR")).join("../examples")
}

/// An example's schedule file.
fn example(name: &str) -> Vec<u8> {
    fs::read(folder().join(name).with_extension("bin")).expect(name)
}

/// The counts of a handler that there is.
fn of(sheet: &Sheet, handler: u32) -> Counts {
    sheet.counts(handler).expect("a handler below 16")
}

#[test]
fn the_published_listing() {
    let mut sheet = Sheet::new();
    assert_eq!(sheet.add(&example("listing")), Ok(()));
    assert_eq!(of(&sheet, 0), Counts { begun: 1, torn: 1, ..Counts::default() });
    assert_eq!(of(&sheet, 1), Counts { begun: 1, committed: 1, ..Counts::default() });
    assert!((2..16).all(|handler| of(&sheet, handler) == Counts::default()));
}

#[test]
fn a_give_up_is_counted() {
    let mut sheet = Sheet::new();
    assert_eq!(sheet.add(&example("give-up")), Ok(()));
    assert_eq!(of(&sheet, 0), Counts { begun: 2, committed: 1, gave_up: 1, ..Counts::default() });
    assert_eq!(of(&sheet, 1), Counts { begun: 1, committed: 1, ..Counts::default() });
}

/// How many lines of a run's text, `place handler code reply`, are a handler's and have this reply, whatever cell it names. Where a code is given,
/// the line has to have that too.
fn lines(text: &str, handler: u32, code: &str, reply: &str) -> u32 {
    let own = |line: &&str| {
        let words: Vec<&str> = line.splitn(4, ' ').collect();
        let said = words[3].split(" cell ").next();
        words[1] == handler.to_string() && [words[2], ""].contains(&code) && said == Some(reply)
    };
    text.lines().filter(|line| line.starts_with(|letter: char| letter.is_ascii_digit())).filter(own).count() as u32
}

#[test]
fn every_example_counts_what_its_text_says() {
    let paths = fs::read_dir(folder()).expect("examples").map(|entry| entry.expect("an example").path());
    for path in paths.filter(|path| path.extension() == Some(OsStr::new("bin"))) {
        let text = fs::read_to_string(path.with_extension("out")).expect("what the runner prints");
        let mut sheet = Sheet::new();
        let refused = text.strip_prefix("refused ").map(|number| number.trim().parse().expect("a number"));
        assert_eq!(sheet.add(&fs::read(&path).expect("the file")).err().map(Refusal::number), refused, "{}", path.display());
        for handler in 0..Sheet::HANDLERS {
            let counts = of(&sheet, handler);
            assert_eq!(counts.begun, lines(&text, handler, "0", "ok"), "{}", path.display());
            assert_eq!(counts.committed, lines(&text, handler, "", "commit"), "{}", path.display());
            for reason in Reason::ALL {
                assert_eq!(counts.aborted(reason), lines(&text, handler, "", &format!("abort {}", reason.number())));
            }
        }
    }
}

#[test]
fn a_refused_file_adds_nothing() {
    let mut sheet = Sheet::new();
    sheet.add(&example("listing")).expect("a sound file");
    let before = sheet.clone();
    assert_eq!(sheet.add(&example("refused-30-gap")), Err(Refusal::BadFile));
    assert_eq!(sheet.add(&example("refused-15-never-ordered")), Err(Refusal::UnknownStep));
    assert_eq!(sheet.add(&[0; 65_536]), Err(Refusal::BadFile));
    assert_eq!(sheet, before);
}

#[test]
fn a_count_above_the_border_in_any_place_makes_the_sheet_full() {
    let listing = example("listing");
    for place in 0..Sheet::WORDS {
        for (count, expected) in
            [(Sheet::MOST, Ok(())), (Sheet::MOST + 1, Err(Refusal::SheetFull)), (u32::MAX, Err(Refusal::SheetFull))]
        {
            let mut words = [3; Sheet::WORDS];
            words[place] = count;
            let mut sheet = Sheet::from_words(words);
            assert_eq!(sheet.add(&listing), expected, "{count} at {place}");
            assert_eq!(sheet.words() == &words, expected.is_err());
        }
    }
    let mut full = Sheet::from_words([u32::MAX; Sheet::WORDS]);
    assert_eq!(full.add(&example("refused-15-never-ordered")), Err(Refusal::UnknownStep), "the file's number goes before 41");
}

#[test]
fn words_are_kept_and_taken_up_again() {
    let mut sheet = Sheet::default();
    sheet.add(&example("k10-blind-write")).expect("a sound file");
    let mut again = Sheet::from_words(*sheet.words());
    assert_eq!(again, sheet);
    again.add(&example("k10-blind-write")).expect("a sound file");
    assert!(again.words().iter().zip(sheet.words()).all(|(&twice, &once)| twice == 2 * once));
}

#[test]
fn a_table_is_aligned() {
    let mut words = [0; Sheet::WORDS];
    (words[0], words[95]) = (u32::MAX, 5);
    let table = Sheet::from_words(words).to_string();
    let lines: Vec<&str> = table.lines().collect();
    assert_eq!(lines.len(), 17);
    assert!(lines.iter().all(|line| line.len() == lines[0].len()), "{table}");
    assert_eq!(lines[1], "      0 4294967295          0          0          0          0          0");
    assert_eq!(lines[16], "     15          0          0          0          0          0          5");
}
