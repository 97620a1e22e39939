//! Compares a proved runner with this crate's, line for line, on schedule files at the borders and on random ones, which have to show unset
//! and 0 in each kind of read and in cells at the end, and each way in which an abort chooses the cell that it names, up to a 65th commit.
//! Arguments: the runner's path, a seed, how many sound files, how many damaged ones.
use reference::counts::{Counts, READS};
use reference::random::Random;
use reference::{aborts, generate, judge, lines, program, runner};
use std::process::exit;

/// The files at borders, the sound ones and the damaged ones, one after another; then one line that counts the replies.
fn main() {
    let arguments: Vec<String> = std::env::args().skip(1).collect();
    let numbers: Vec<u64> = arguments.iter().skip(1).filter_map(|word| word.parse().ok()).collect();
    let (Some(proved), &[seed, sound, damaged]) = (arguments.first(), &numbers[..]) else {
        eprintln!("compare-runs: the runner's path, a seed, how many sound files, how many damaged ones");
        exit(2);
    };
    let mut random = Random::new(seed);
    let mut counts = Counts::default();
    let borders = generate::borders();
    let fixed = borders.len() as u64;
    for place in 0..fixed + sound + damaged {
        let (kind, file) = match borders.get(place as usize) {
            Some(file) => ("border", file.clone()),
            None if place < fixed + sound => ("sound", generate::sound(&mut random)),
            None => ("damaged", generate::damaged(&mut random)),
        };
        let run = runner::run(&file);
        counts.answers(run.as_ref());
        // Which cells an abort chose from, this crate's judge says.
        judge::run(&file).iter().for_each(|(_, history)| counts.choices(history));
        let printed = program::printed_by(proved, &file, program::piece(&mut random, &file));
        let what = format!("seed {seed}, file {place} ({kind})");
        program::demand(&what, &file, &printed, "reference", &lines::shown(run.as_ref()));
    }
    let lacking = counts.lacking(&[&READS[..], &aborts::in_files()].concat());
    if !lacking.is_empty() {
        println!("seed {seed}: never met, so that nothing is shown of it: {}", lacking.join(", "));
        exit(1);
    }
    let counts = counts.shown();
    println!("seed {seed}: {fixed} files at borders, {sound} sound and {damaged} damaged ones, no difference; {counts}");
}
