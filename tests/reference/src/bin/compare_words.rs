//! Compares the proved register with this crate's, word for word: the same random words and steps, every reply and every word. Each kind of
//! read has to be met, of cells and copies that are unset and of ones that are 0, and each way in which an abort chooses the cell that it names.
//! Arguments: a seed, how many well-formed registers, how many malformed ones.
use reference::counts::Counts;
use reference::random::Random;
use reference::reads::{self, READS};
use reference::{aborts, proved, register, registers};
use std::fmt::Arguments;
use std::process::exit;

/// The size of a register: cells, and handlers.
fn size(random: &mut Random) -> (u32, u32) {
    let m = match random.below(8) {
        0..=2 => random.within(1, 3),
        3 => 32,
        _ => random.within(1, 32),
    };
    (m as u32, random.within(1, 16) as u32)
}

/// Where the two sides differ, in the reply or in a word left behind, both are shown and the comparison ends.
fn demand(call: Arguments, before: &[u32], proved: (u64, &[u32]), reference: (u64, &[u32])) {
    if proved != reference {
        eprintln!("{call}\nbefore    {before:x?}\nproved    {:x} {:x?}", proved.0, proved.1);
        eprintln!("reference {:x} {:x?}", reference.0, reference.1);
        exit(1);
    }
}

/// Some steps on the same words by both, each reply and all words compared.
fn steps(random: &mut Random, met: &mut Counts, words: &[u32], count: u64) -> u64 {
    let (mut ours, mut theirs) = (words.to_vec(), words.to_vec());
    for _ in 0..count {
        let before = ours.clone();
        let n = before.get(1).copied().unwrap_or(1).clamp(1, 16);
        let handler = registers::handler(random, n);
        let (code, value) = (registers::code(random, before.first().copied().unwrap_or(1)), registers::value(random));
        let reply = proved::step(&mut ours, handler, code, value);
        let expected = register::step(&mut theirs, handler, code, value);
        let call = format_args!("step: handler {handler} code {code} value {value}");
        demand(call, &before, (reply, &ours), (expected.packed(), &theirs));
        if let Some(read) = reads::name(&before, handler, code, expected) {
            met.note(read);
        }
        if let Some(choice) = aborts::choice(&before, handler, code, expected) {
            choice.names().iter().for_each(|name| met.note(name));
        }
    }
    count
}

/// An opening of random words by both.
fn opening(random: &mut Random) {
    let (m, n) = (random.below(36) as u32, random.below(19) as u32);
    let need = register::length(m, n);
    assert_eq!(proved::length(m, n) as usize, need.unwrap_or(0), "length of {m} {n}");
    let long = match need {
        Some(need) if !random.once_in(4) => need + random.below(4) as usize,
        _ => random.place(2700),
    };
    let before: Vec<u32> = (0..long).map(|_| random.word()).collect();
    let (mut ours, mut theirs) = (before.clone(), before.clone());
    let reply = proved::open(&mut ours, m, n);
    let expected = register::open(&mut theirs, m, n).err().unwrap_or(0);
    demand(format_args!("open: m {m} n {n}"), &before, (reply.into(), &ours), (expected.into(), &theirs));
}

/// The steps on well-formed and on malformed registers, and the openings; then one line that counts them.
fn main() {
    let arguments: Vec<u64> = std::env::args().skip(1).map(|word| word.parse().expect("a number")).collect();
    let [seed, good, bad] = arguments[..] else { panic!("seed, well-formed registers, malformed ones") };
    let mut random = Random::new(seed);
    let (mut taken, mut met) = (0, Counts::default());
    for _ in 0..good {
        let (m, n) = size(&mut random);
        let words = registers::well_formed(&mut random, m, n);
        let count = random.within(1, 8);
        taken += steps(&mut random, &mut met, &words, count);
    }
    for _ in 0..bad {
        let (m, n) = size(&mut random);
        let words = registers::malformed(&mut random, m, n);
        taken += steps(&mut random, &mut met, &words, 1);
    }
    for _ in 0..good / 10 {
        opening(&mut random);
    }
    let lacking = met.lacking(&[&READS[..], &aborts::in_steps()].concat());
    if !lacking.is_empty() {
        println!("seed {seed}: never met, so that nothing is shown of it: {}", lacking.join("; "));
        exit(1);
    }
    println!(
        "seed {seed}: {good} well-formed and {bad} malformed registers, {taken} steps, {} openings: no difference; {}",
        good / 10,
        met.shown()
    );
}
