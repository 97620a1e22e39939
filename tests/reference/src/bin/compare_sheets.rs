//! Compares the proved duty sheet, `zidlemowo_sheet`, with this crate's: the same files onto the same words, every reply and every
//! word compared. The words are too few, enough or more; their counts are small, near the border of 41, at it or above it.
//! Arguments: a seed, how many sets of files.
use reference::counts::Counts;
use reference::random::Random;
use reference::sheet::{self, COLUMNS, FULL_ABOVE, WORDS};
use reference::{generate, hexadecimal, histories, proved, schedule};
use std::process::exit;

/// What a comparison has to meet, or it shows nothing of it. No file reaches abort 3.
const NEEDED: [&str; 13] = [
    "reply 0",
    "reply 21",
    "reply 30",
    "reply 15",
    "reply 41",
    "begun",
    "committed",
    "abort1",
    "abort2",
    "abort5",
    "41 for a handler that the file has not",
    "0 with a count at the border",
    "0 with a full word behind the sheet",
];

/// The columns' names, as the program `sheet` prints them.
const NAMES: [&str; COLUMNS] = ["begun", "committed", "abort1", "abort2", "abort3", "abort5"];

/// A count that makes a sheet full.
fn full(random: &mut Random) -> u32 {
    match random.below(4) {
        0 => FULL_ABOVE + 1,
        1 => u32::MAX,
        _ => random.within(u64::from(FULL_ABOVE) + 1, u32::MAX.into()) as u32,
    }
}

/// A count that does not, of one of four sizes: 0, small, any, or near the border.
fn count(random: &mut Random, size: u64) -> u32 {
    let border = u64::from(FULL_ABOVE);
    match size {
        0 => 0,
        1 => random.below(1000) as u32,
        2 => random.within(0, border) as u32,
        _ => random.within(border - 10, border) as u32,
    }
}

/// The words that are lent for a sheet: too few, just enough, or more, with anything behind.
fn words(random: &mut Random) -> Vec<u32> {
    let length = match random.below(8) {
        0 => random.place(WORDS),
        1..=4 => WORDS,
        _ => WORDS + random.within(1, 40) as usize,
    };
    let size = random.below(5);
    let mut words: Vec<u32> = Vec::new();
    for place in 0..length {
        let size = if size == 4 { random.below(4) } else { size };
        words.push(if place < WORDS { count(random, size) } else { random.one_of(&[0, 41, FULL_ABOVE, u32::MAX]) });
    }
    if length > 0 && random.once_in(4) {
        words[random.place(length.min(WORDS))] = full(random);
    }
    words
}

/// A file: sound, made for the judge, at a border, or damaged.
fn file(random: &mut Random, borders: &[Vec<u8>]) -> Vec<u8> {
    match random.below(12) {
        0..=5 => generate::sound(random),
        6..=7 => histories::file(random),
        8 => borders[random.place(borders.len())].clone(),
        _ => generate::damaged(random),
    }
}

/// What is met where a file is refused with 41, or counted beside words at the border or above it.
fn note_borders(met: &mut Counts, file: &[u8], before: &[u32], number: u32) {
    let rows = schedule::judge(file).map_or(0, |schedule| schedule.handlers as usize * COLUMNS);
    match number {
        41 if before[..rows].iter().all(|&count| count <= FULL_ABOVE) => met.note("41 for a handler that the file has not"),
        0 if before[..WORDS].contains(&FULL_ABOVE) => met.note("0 with a count at the border"),
        0 if before[WORDS..].iter().any(|&word| word > FULL_ABOVE) => met.note("0 with a full word behind the sheet"),
        _ => (),
    }
}

/// A file onto the words by both. Where the reply or a word differs, both are shown and the comparison ends.
fn compare(met: &mut Counts, what: &str, words: &mut Vec<u32>, file: &[u8]) {
    let before = words.clone();
    let mut expected = before.clone();
    let number = sheet::add(&mut expected, file).err().unwrap_or(0);
    let given = proved::sheet(words, file);
    if given != number || *words != expected {
        println!("{what}, {} bytes onto {} words:\n{}", file.len(), before.len(), hexadecimal::text(file));
        println!("reply: proved {given}, reference {number}");
        for place in (0..before.len()).filter(|&place| words[place] != expected[place]) {
            println!("word {place}: before {}, proved {}, reference {}", before[place], words[place], expected[place]);
        }
        exit(1);
    }
    met.note(&format!("reply {number}"));
    note_borders(met, file, &before, number);
    for place in 0..words.len() {
        let more = u64::from(words[place] - before[place]);
        if more > 0 {
            met.add(NAMES[place % COLUMNS], more);
        }
    }
}

/// The files at borders, each onto a fresh sheet, then the sets; then one line that counts what was met.
fn main() {
    let arguments: Vec<u64> = std::env::args().skip(1).map(|word| word.parse().expect("a number")).collect();
    let [seed, sets] = arguments[..] else { panic!("a seed, sets of files") };
    let mut random = Random::new(seed);
    let mut met = Counts::default();
    let borders = generate::borders();
    for (place, file) in borders.iter().enumerate() {
        compare(&mut met, &format!("border {place}"), &mut vec![0; WORDS], file);
    }
    for set in 0..sets {
        let mut words = words(&mut random);
        for place in 0..random.within(1, 6) {
            let file = file(&mut random, &borders);
            compare(&mut met, &format!("seed {seed}, set {set}, file {place}"), &mut words, &file);
        }
    }
    let lacking = met.lacking(&NEEDED);
    if !lacking.is_empty() {
        println!("seed {seed}: never met, so that nothing is shown of it: {}", lacking.join(", "));
        exit(1);
    }
    println!("seed {seed}: {} files at borders and {sets} sets, no difference; {}", borders.len(), met.shown());
}
