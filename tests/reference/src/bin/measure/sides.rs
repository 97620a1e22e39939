//! The two sides, called in the same way, checked against each other, counted and timed. The reference's functions have names for C
//! as the proved ones do, so that callgrind can tell where a call begins and ends.
use crate::bursts::{Burst, STEPS as BURST};
use crate::rows::{Call, Row};
use reference::row::{self, REPORT_WORDS, STEP_WORDS};
use reference::{proved, register};
use std::hint::black_box;
use std::ops::Range;
use std::time::Instant;

/// The reference's opening in the shape of the proved one.
#[no_mangle]
#[inline(never)]
pub extern "C" fn reference_open(words: *mut u32, long: usize, m: u32, n: u32) -> u32 {
    let words = unsafe { std::slice::from_raw_parts_mut(words, long) };
    register::open(words, m, n).err().unwrap_or(0)
}

/// The reference's step in the shape of the proved one.
#[no_mangle]
#[inline(never)]
pub extern "C" fn reference_step(words: *mut u32, long: usize, handler: u32, code: u32, value: u32) -> u64 {
    let words = unsafe { std::slice::from_raw_parts_mut(words, long) };
    register::step(words, handler, code, value).packed()
}

/// The reference's row of steps in the shape of the proved one.
#[no_mangle]
#[inline(never)]
pub extern "C" fn reference_row(
    words: *mut u32,
    long: usize,
    steps: *const u32,
    steps_long: usize,
    reports: *mut u32,
    reports_long: usize,
    place: usize,
) -> u32 {
    let words = unsafe { std::slice::from_raw_parts_mut(words, long) };
    let steps = unsafe { std::slice::from_raw_parts(steps, steps_long) };
    let reports = unsafe { std::slice::from_raw_parts_mut(reports, reports_long) };
    row::row(words, steps, reports, place).err().unwrap_or(0)
}

/// Where a count of instructions ends: callgrind writes one down whenever this is called.
#[no_mangle]
#[inline(never)]
pub extern "C" fn measure_mark() {
    black_box(());
}

/// A call of the proved register.
#[inline(always)]
fn ours(call: Call, words: &mut [u32]) -> u64 {
    match call {
        Call::Open { m, n } => proved::open(words, m, n).into(),
        Call::Step { handler, code, value } => proved::step(words, handler, code, value),
    }
}

/// A call of the reference's.
#[inline(always)]
fn theirs(call: Call, words: &mut [u32]) -> u64 {
    match call {
        Call::Open { m, n } => reference_open(words.as_mut_ptr(), words.len(), m, n).into(),
        Call::Step { handler, code, value } => reference_step(words.as_mut_ptr(), words.len(), handler, code, value),
    }
}

/// How many words a burst's reports are.
const REPORTS: usize = BURST as usize * REPORT_WORDS;

/// A burst by one call of the proved register.
#[inline(always)]
fn our_row(burst: &Burst, words: &mut [u32], reports: &mut [u32; REPORTS]) -> u32 {
    proved::row(words, &burst.steps, reports, 0)
}

/// A burst by as many calls of the proved register as it has steps. What each replies is handed on, and may be put aside.
#[inline(always)]
fn our_calls(burst: &Burst, words: &mut [u32], mut reply: impl FnMut(u64)) {
    for step in burst.steps.chunks_exact(STEP_WORDS) {
        reply(proved::step(words, step[0], step[1], step[2]));
    }
}

/// Takes a reply that is not looked at, but has to be given.
#[inline(always)]
fn put_aside(reply: u64) {
    black_box(reply);
}

/// A burst by one call of the reference's.
#[inline(always)]
fn their_row(burst: &Burst, words: &mut [u32], reports: &mut [u32; REPORTS]) -> u32 {
    let (long, steps) = (words.len(), &burst.steps);
    reference_row(words.as_mut_ptr(), long, steps.as_ptr(), steps.len(), reports.as_mut_ptr(), reports.len(), 0)
}

/// Both sides give the row's reply and leave the same words behind: these.
pub fn checked(row: &Row) -> Vec<u32> {
    let (mut one, mut other) = (row.words.clone(), row.words.clone());
    assert_eq!(ours(row.call, &mut one), row.reply, "{} of ({}, {})", row.name, row.m, row.n);
    assert_eq!(theirs(row.call, &mut other), row.reply, "{} of ({}, {}), reference", row.name, row.m, row.n);
    assert_eq!(one, other, "{} of ({}, {}): the words", row.name, row.m, row.n);
    one
}

/// The three ways to take a burst reply alike, refuse and abort nothing, and leave the same words behind: these.
pub fn burst_checked(burst: &Burst) -> Vec<u32> {
    let what = format!("{} of ({}, {})", burst.name, burst.m, burst.n);
    let [mut one, mut many, mut other] = [(); 3].map(|_| burst.words.clone());
    let (mut reports, mut expected, mut replies) = ([0; REPORTS], [0; REPORTS], Vec::new());
    assert_eq!(our_row(burst, &mut one, &mut reports), 0, "{what}");
    assert_eq!(their_row(burst, &mut other, &mut expected), 0, "{what}, reference");
    our_calls(burst, &mut many, |reply| replies.push(reply));
    assert_eq!(reports, expected, "{what}: the reports");
    let packed = |report: &[u32]| u64::from(report[2]) << 32 | u64::from(report[4]) << 16 | u64::from(report[3]);
    let reported: Vec<u64> = reports.chunks_exact(REPORT_WORDS).map(packed).collect();
    assert_eq!(reported, replies, "{what}: the replies one by one");
    assert!(replies.iter().all(|reply| !matches!(reply >> 32, 3 | 4)), "{what}: a step is refused or aborts");
    assert!(one == other && one == many, "{what}: the words");
    one
}

/// Under callgrind: each row by each side and each burst in each way, a mark behind each. What ran before the first mark is not a row's.
pub fn counted(rows: &[Row], bursts: &[Burst]) {
    rows.iter().for_each(|row| drop(checked(row)));
    bursts.iter().for_each(|burst| drop(burst_checked(burst)));
    measure_mark();
    for row in rows {
        ours(row.call, &mut row.words.clone());
        measure_mark();
        theirs(row.call, &mut row.words.clone());
        measure_mark();
    }
    let mut reports = [0; REPORTS];
    for burst in bursts {
        our_row(burst, &mut burst.words.clone(), &mut reports);
        measure_mark();
        our_calls(burst, &mut burst.words.clone(), put_aside);
        measure_mark();
        their_row(burst, &mut burst.words.clone(), &mut reports);
        measure_mark();
    }
}

const STEPS: u32 = 200;
const ROUNDS: u32 = 300;

/// Nanoseconds of a call, so many of them one after another.
fn batch(words: &mut [u32], mut one: impl FnMut(&mut [u32])) -> f64 {
    let began = Instant::now();
    for _ in 0..STEPS {
        one(black_box(&mut *words));
    }
    began.elapsed().as_nanos() as f64 / f64::from(STEPS)
}

/// The part of the words that a call changes, from the first such word to the last.
fn changed(before: &[u32], after: &[u32]) -> Range<usize> {
    let places: Vec<usize> = (0..after.len()).filter(|&place| before[place] != after[place]).collect();
    match places[..] {
        [] => 0..0,
        [first, .., last] => first..last + 1,
        [only] => only..only + 1,
    }
}

/// The quickest of many rounds, each thing of a round by itself.
fn quickest<const THINGS: usize>(mut round: impl FnMut() -> [f64; THINGS]) -> [f64; THINGS] {
    let mut quickest = [f64::INFINITY; THINGS];
    for _ in 0..ROUNDS {
        for (quickest, taken) in quickest.iter_mut().zip(round()) {
            *quickest = quickest.min(taken);
        }
    }
    quickest
}

/// Nanoseconds of a row by each side: the quickest of many batches, in which the two sides and the putting back of the words take
/// turns, less the quickest putting back. Only the part of the words that the step changes is put back.
pub fn timed(row: &Row) -> [f64; 2] {
    let part = changed(&row.words, &checked(row));
    let restore = |words: &mut [u32]| words[part.clone()].copy_from_slice(&row.words[part.clone()]);
    let mut words = row.words.clone();
    let [ours, theirs, putting_back] = quickest(|| {
        [
            batch(&mut words, |words| {
                restore(words);
                black_box(ours(black_box(row.call), words));
            }),
            batch(&mut words, |words| {
                restore(words);
                black_box(theirs(black_box(row.call), words));
            }),
            batch(&mut words, restore),
        ]
    });
    [ours - putting_back, theirs - putting_back]
}

/// Nanoseconds of a burst by one call of ours, by forty, and by one of the reference's, in the same manner.
pub fn burst_timed(burst: &Burst) -> [f64; 3] {
    let part = changed(&burst.words, &burst_checked(burst));
    let restore = |words: &mut [u32]| words[part.clone()].copy_from_slice(&burst.words[part.clone()]);
    let (mut words, mut reports) = (burst.words.clone(), [0; REPORTS]);
    let [row, calls, theirs, putting_back] = quickest(|| {
        [
            batch(&mut words, |words| {
                restore(words);
                black_box(our_row(black_box(burst), words, black_box(&mut reports)));
            }),
            batch(&mut words, |words| {
                restore(words);
                our_calls(black_box(burst), words, put_aside);
            }),
            batch(&mut words, |words| {
                restore(words);
                black_box(their_row(black_box(burst), words, black_box(&mut reports)));
            }),
            batch(&mut words, restore),
        ]
    });
    [row, calls, theirs].map(|taken| taken - putting_back)
}
