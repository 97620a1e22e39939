//! Compares the proved row of steps, `zidlemowo_row`, with this crate's: the same steps on the same words into the same words for reports,
//! the number given and every word compared, with sentinel words around all three. Arguments: a seed, how many rows.
use reference::counts::{name, Counts};
use reference::random::Random;
use reference::reads::{self, READS};
use reference::register::Reply;
use reference::row::{self, REPORT_WORDS, STEP_WORDS};
use reference::{aborts, proved, register, registers};
use std::process::exit;

/// What a comparison has to meet, or it shows nothing of it.
const NEEDED: [&str; 29] = [
    "row 0",
    "row 10",
    "row 42",
    "ok",
    "value",
    "value 0",
    "unset",
    "commit",
    "abort 1",
    "abort 2",
    "abort 3",
    "abort 5",
    "refused 11",
    "refused 12",
    "refused 13",
    "refused 14",
    "refused 15",
    "step after a refused one",
    "code above 255",
    "handler above 255",
    "last step cut short",
    "row of no step",
    "row of forty steps",
    "exactly as many words as the reports need",
    "42, a word too few",
    "42, place beyond the end and no step",
    "42, place + 5 · steps wraps",
    "42, place in bytes wraps",
    "10 where 42 holds too",
];

/// The sizes of the registers: cells, and handlers.
const SIZES: [(u32, u32); 4] = [(1, 1), (2, 2), (8, 4), (32, 16)];

/// How many words stand in front of each buffer and behind it, and what they are.
const AROUND: usize = 16;
const SENTINEL: u32 = 0x5e47_17e1;

/// A buffer between sentinels.
#[derive(Clone, PartialEq)]
struct Lent(Vec<u32>);

impl Lent {
    /// These words between sentinels.
    fn of(words: &[u32]) -> Self {
        Lent([&[SENTINEL; AROUND], words, &[SENTINEL; AROUND]].concat())
    }

    /// The words alone.
    fn words(&self) -> &[u32] {
        &self.0[AROUND..self.0.len() - AROUND]
    }

    /// The words alone, to be changed.
    fn words_mut(&mut self) -> &mut [u32] {
        let end = self.0.len() - AROUND;
        &mut self.0[AROUND..end]
    }

    /// Where it differs from another, counted from the first of the words, and the word there.
    fn differences(&self, other: &Lent) -> Vec<(isize, u32, u32)> {
        let pairs = self.0.iter().zip(&other.0).enumerate();
        pairs.filter(|(_, (one, two))| one != two).map(|(at, (&one, &two))| (at as isize - AROUND as isize, one, two)).collect()
    }
}

/// All that a row is given.
#[derive(Clone, PartialEq)]
struct Given {
    register: Lent,
    steps: Lent,
    reports: Lent,
    place: usize,
}

/// A step of a handler that is likely to be taken, as the words are now.
fn likely(random: &mut Random, words: &[u32]) -> [u32; STEP_WORDS] {
    let (m, handler) = (words[0], random.below(words[1].into()) as u32);
    let block = 2 + m * (m + 1) + handler * (3 + 3 * m);
    let cell = random.below(m.into()) as u32;
    let code = match random.below(8) {
        _ if words[block as usize] == 0 => 0,
        0..=2 => 32 + cell,
        3..=4 => 64 + cell,
        5..=6 => 1,
        _ => 2,
    };
    [handler, code, registers::value(random)]
}

/// A step of any kind, of a register of m cells and n handlers.
fn any(random: &mut Random, m: u32, n: u32) -> [u32; STEP_WORDS] {
    let handler = if random.once_in(12) { random.one_of(&[256, 1 << 16, u32::MAX]) } else { registers::handler(random, n) };
    let code = if random.once_in(12) { 256 + random.below(256) as u32 } else { registers::code(random, m) };
    [handler, code, registers::value(random)]
}

/// The words of a row of steps, which mostly make sense on the register one after another; the last step may be cut short.
fn steps(random: &mut Random, register: &[u32], (m, n): (u32, u32)) -> Vec<u32> {
    let count = match random.below(12) {
        0 => 0,
        1 => 40,
        2..=3 => random.within(8, 64),
        _ => random.within(1, 8),
    };
    let mut words = register.to_vec();
    let formed = register::well_formed(&words);
    let strange = random.one_of(&[2, 6, 100]);
    let mut steps = Vec::new();
    for _ in 0..count {
        let step = if !formed || random.once_in(strange) { any(random, m, n) } else { likely(random, &words) };
        if formed {
            register::formed_step(&mut words, step[0], step[1], step[2]);
        }
        steps.extend(step);
    }
    steps.extend((0..random.below(STEP_WORDS as u64)).map(|_| random.word()));
    steps
}

/// How many words are lent for the reports of so many steps, and the place from which they go there.
fn room(random: &mut Random, count: usize) -> (usize, usize) {
    let need = count * REPORT_WORDS;
    let place = random.one_of(&[0, 1, 3, 4, 30, 160]);
    let more = random.within(1, 9) as usize;
    match random.below(16) {
        0..=4 => (place + need, place),
        5..=9 => (place + need + more, place),
        10 => ((place + need).saturating_sub(1), place),
        11 => ((place + need).saturating_sub(more), place),
        12 => (place, place + more),
        13 => (need + more, usize::MAX - random.place(need + REPORT_WORDS + 1)),
        14 => (need + more, usize::MAX - need.saturating_sub(more)),
        _ => (need + more, random.one_of(&[1 << 30, 1 << 32, 1 << 62, 1 << 63])),
    }
}

/// What a row that was answered alike by both shows.
fn note(met: &mut Counts, given: &Given, after: &Given, number: u32) {
    let (long, count) = (given.reports.words().len(), row::count(given.steps.words()));
    met.note(&format!("row {number}"));
    let fits = row::fits(long, given.place, count);
    match number {
        0 if given.place + count * REPORT_WORDS == long => met.note("exactly as many words as the reports need"),
        10 if !fits => met.note("10 where 42 holds too"),
        42 if given.place.checked_add(count * REPORT_WORDS) == Some(long + 1) => met.note("42, a word too few"),
        42 if given.place.checked_add(count * REPORT_WORDS).is_none() => met.note("42, place + 5 · steps wraps"),
        42 if given.place.checked_mul(4).is_none() => met.note("42, place in bytes wraps"),
        _ => (),
    }
    if number == 42 && count == 0 && given.place > long {
        met.note("42, place beyond the end and no step");
    }
    if number == 0 {
        reported(met, given.steps.words(), &after.reports.words()[given.place..]);
        taken(met, given);
    }
}

/// Which words the reads of a row found, and which cells its aborts chose from, step by step as this crate takes them.
fn taken(met: &mut Counts, given: &Given) {
    let mut words = given.register.words().to_vec();
    for step in given.steps.words().chunks_exact(STEP_WORDS) {
        let before = words.clone();
        let reply = register::formed_step(&mut words, step[0], step[1], step[2]);
        if let Some(read) = reads::name(&before, step[0], step[1], reply) {
            met.note(read);
        }
        if let Some(choice) = aborts::choice(&before, step[0], step[1], reply) {
            choice.names().iter().for_each(|name| met.note(name));
        }
    }
}

/// What the reports of a row show.
fn reported(met: &mut Counts, steps: &[u32], reports: &[u32]) {
    let count = row::count(steps);
    let kinds = [(count == 0, "row of no step"), (count == 40, "row of forty steps")];
    let cut = (steps.len() % STEP_WORDS > 0, "last step cut short");
    kinds.into_iter().chain([cut]).filter(|(is_met, _)| *is_met).for_each(|(_, name)| met.note(name));
    let mut refused = false;
    for report in reports.chunks_exact(REPORT_WORDS).take(count) {
        let kinds =
            [(report[0] > 255, "handler above 255"), (report[1] > 255, "code above 255"), (refused, "step after a refused one")];
        kinds.into_iter().filter(|(is_met, _)| *is_met).for_each(|(_, name)| met.note(name));
        refused = report[2] == 4;
        let reply = match report[2] {
            0 => Reply::Ok,
            1 => Reply::Value(report[3]),
            2 => Reply::Commit,
            3 => Reply::Abort { reason: report[3], cell: Some(report[4]) },
            4 => Reply::Refused(report[3]),
            _ => Reply::Unset,
        };
        met.note(&name(reply));
    }
}

/// A row by both. Where the number or a word differs, both are shown and the comparison ends. The words that are left are given.
fn compare(met: &mut Counts, what: &str, given: &Given) -> Vec<u32> {
    let (mut ours, mut theirs) = (given.clone(), given.clone());
    let number = proved::row(ours.register.words_mut(), ours.steps.words(), ours.reports.words_mut(), given.place);
    let expected = row::row(theirs.register.words_mut(), theirs.steps.words(), theirs.reports.words_mut(), given.place);
    let expected = expected.err().unwrap_or(0);
    if number != expected || ours != theirs {
        println!("{what}: {} words for reports, from place {}", given.reports.words().len(), given.place);
        println!("register {:x?}\nsteps {:?}", given.register.words(), given.steps.words());
        println!("number: proved {number}, reference {expected}; then where a word differs, as place, proved, reference");
        println!("register {:x?}", ours.register.differences(&theirs.register));
        println!("steps {:x?}", ours.steps.differences(&theirs.steps));
        println!("reports {:x?}", ours.reports.differences(&theirs.reports));
        exit(1);
    }
    note(met, given, &ours, number);
    ours.register.words().to_vec()
}

/// A register for some rows: fresh, any well-formed one, or a malformed one.
fn start(random: &mut Random, (m, n): (u32, u32)) -> Vec<u32> {
    match random.below(8) {
        0 => registers::malformed(random, m, n),
        1..=3 => registers::well_formed(random, m, n),
        _ => {
            let mut words = vec![SENTINEL; register::length(m, n).expect("in range") + random.place(4)];
            register::open(&mut words, m, n).expect("it has room");
            words
        }
    }
}

/// The rows, some of them one after another on a register; then one line that counts what was met.
fn main() {
    let arguments: Vec<u64> = std::env::args().skip(1).map(|word| word.parse().expect("a number")).collect();
    let [seed, rows] = arguments[..] else { panic!("a seed, rows") };
    let mut random = Random::new(seed);
    let mut met = Counts::default();
    let mut left: (Vec<u32>, (u32, u32)) = Default::default();
    for place in 0..rows {
        if place == 0 || random.once_in(6) {
            let size = random.one_of(&SIZES);
            left = (start(&mut random, size), size);
        }
        let steps = steps(&mut random, &left.0, left.1);
        let (long, place_of_reports) = room(&mut random, row::count(&steps));
        let reports: Vec<u32> = (0..long).map(|_| random.word()).collect();
        let given =
            Given { register: Lent::of(&left.0), steps: Lent::of(&steps), reports: Lent::of(&reports), place: place_of_reports };
        left.0 = compare(&mut met, &format!("seed {seed}, row {place}"), &given);
    }
    let lacking = met.lacking(&[&NEEDED[..], &READS[..], &aborts::in_rows()].concat());
    if !lacking.is_empty() {
        println!("seed {seed}: never met, so that nothing is shown of it: {}", lacking.join("; "));
        exit(1);
    }
    println!("seed {seed}: {rows} rows, no difference; {}", met.shown());
}
