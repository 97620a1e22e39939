//! Compares the proved whole runs, `zidlemowo_run` and `zidlemowo_judge`, with this crate's runner and judge: the same files, each
//! into an output of some length, the length given and every byte of the output compared. The texts have to show unset and 0 in each kind of
//! read and in cells at the end, and each way in which an abort chooses the cell that it names.
//! Arguments: a seed, how many sound files, how many damaged ones.
use reference::counts::{self, READS};
use reference::random::Random;
use reference::{aborts, generate, hexadecimal, histories, judge, lines, proved, runner};
use std::process::exit;

/// What fills an output before a call. No text has such a byte.
const FILLER: u8 = 0xa5;

/// A whole run of either side: the text's length, and the output.
type Into = fn(&[u8], &mut [u8]) -> usize;

/// The length of an output for a text: none, at its borders, or any up to somewhat more than the text needs.
fn room(random: &mut Random, text: usize) -> usize {
    match random.below(8) {
        0 => 0,
        1 => 1,
        2 => text - 1,
        3 => text,
        4 => text + 1,
        5 => text + random.below(5000) as usize,
        _ => random.place(text + 10),
    }
}

/// What was compared.
#[derive(Default)]
struct Counts {
    whole: u64,
    cut: u64,
    bytes: u64,
}

impl Counts {
    /// A file whose text is known, into an output of some length. Where the proved run differs, it is shown and the comparison ends.
    fn compare(&mut self, random: &mut Random, what: &str, file: &[u8], text: &[u8], into: Into) {
        let length = room(random, text.len());
        let fits = length.min(text.len());
        let mut expected = vec![FILLER; length];
        expected[..fits].copy_from_slice(&text[..fits]);
        let mut output = vec![FILLER; length];
        let given = into(file, &mut output);
        if given != text.len() || output != expected {
            println!("{what}, {} bytes into an output of {length}:\n{}", file.len(), hexadecimal::text(file));
            println!("proved: {given} bytes\n{}", String::from_utf8_lossy(&output));
            println!("reference: {} bytes\n{}", text.len(), String::from_utf8_lossy(&expected));
            exit(1);
        }
        if fits == text.len() {
            self.whole += 1;
        } else {
            self.cut += 1;
        }
        self.bytes += fits as u64;
    }
}

/// The files at borders, the sound ones, a third of them made for the judge, and the damaged ones; then one line that counts them.
fn main() {
    let arguments: Vec<u64> = std::env::args().skip(1).map(|word| word.parse().expect("a number")).collect();
    let [seed, sound, damaged] = arguments[..] else { panic!("a seed, sound files, damaged ones") };
    let mut random = Random::new(seed);
    let (mut counts, mut met) = (Counts::default(), counts::Counts::default());
    let borders = generate::borders();
    let fixed = borders.len() as u64;
    for place in 0..fixed + sound + damaged {
        let (kind, file) = match borders.get(place as usize) {
            Some(file) => ("border", file.clone()),
            None if place >= fixed + sound => ("damaged", generate::damaged(&mut random)),
            None if place % 3 == 0 => ("history", histories::file(&mut random)),
            None => ("sound", generate::sound(&mut random)),
        };
        let what = format!("seed {seed}, file {place} ({kind})");
        let run = runner::run(&file);
        met.answers(run.as_ref());
        counts.compare(&mut random, &format!("{what}, run"), &file, lines::shown(run.as_ref()).as_bytes(), proved::run);
        let judged = judge::run(&file);
        judged.iter().for_each(|(_, history)| met.choices(history));
        counts.compare(&mut random, &format!("{what}, judged"), &file, judge::shown(&judged).as_bytes(), proved::judge);
    }
    let lacking = met.lacking(&[&READS[..], &aborts::in_files()].concat());
    if !lacking.is_empty() {
        println!("seed {seed}: never met, so that nothing is shown of it: {}", lacking.join(", "));
        exit(1);
    }
    let Counts { whole, cut, bytes } = counts;
    println!(
        "seed {seed}: {fixed} files at borders, {sound} sound and {damaged} damaged ones, each run and judged: no difference"
    );
    println!("{whole} texts whole and {cut} as far as they fit, {bytes} bytes of text");
}
