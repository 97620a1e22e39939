//! Measures the proved register beside this crate's.
//! `measure rows` takes each row once by each side, and each burst in each way, for callgrind; `measure schedule FILE` writes the largest
//! schedule; `measure memory PROGRAM SCHEDULE` prints the most memory that a program has on it, in KiB; and
//! `measure table COUNTS SCHEDULE RUNNER RUNNER JUDGE JUDGE SHEET SHEET` times all and prints two tables with the counts of a file, a
//! number a line: those of the rows, ours and the reference's, those of the bursts, one call, forty and the reference's, then those of the
//! six programs.
mod bursts;
mod programs;
mod rows;
mod sides;

use std::fs;

const HEAD: &str = "\
|  m,  n | what                                         | instructions |    reference | ratio |  nanoseconds |    reference | ratio |
|-------:|:---------------------------------------------|-------------:|-------------:|------:|-------------:|-------------:|------:|";

const BURSTS_HEAD: &str = "\
|  m,  n | a burst of 40 steps                | instructions | 40 calls | times | reference | ratio | nanoseconds | 40 calls | times | reference | ratio |
|-------:|:-----------------------------------|-------------:|---------:|------:|----------:|------:|------------:|---------:|------:|----------:|------:|";

/// A number with a comma before each three digits.
fn grouped(number: f64) -> String {
    let digits = format!("{number:.0}");
    let mut text = String::new();
    for (place, digit) in digits.chars().enumerate() {
        if place > 0 && (digits.len() - place) % 3 == 0 {
            text.push(',');
        }
        text.push(digit);
    }
    text
}

/// Two measures and their ratio, as three columns.
fn compared([ours, theirs]: [f64; 2], show: fn(f64) -> String) -> String {
    format!("{:>12} | {:>12} | {:>5.2}", show(ours), show(theirs), ours / theirs)
}

/// Prints one line of the table.
fn line(size: &str, name: &str, instructions: [f64; 2], nanoseconds: [f64; 2]) {
    let times = compared(nanoseconds, |number| if number < 1000.0 { format!("{number:.1}") } else { grouped(number) });
    println!("| {size:>6} | {name:<44} | {} | {times} |", compared(instructions, grouped));
}

/// One call, forty calls and how many times as much that is, then the reference and our part of it, as five columns.
fn burst_compared([row, calls, theirs]: [f64; 3], wide: usize) -> String {
    let (times, ratio) = (calls / row, row / theirs);
    format!("{:>wide$} | {:>8} | {times:>5.2} | {:>9} | {ratio:>5.2}", grouped(row), grouped(calls), grouped(theirs))
}

/// Prints the bursts' table.
fn bursts_table(bursts: &[bursts::Burst], counts: &[f64]) {
    println!("{BURSTS_HEAD}");
    for (burst, count) in bursts.iter().zip(counts.chunks(3)) {
        let instructions = burst_compared([count[0], count[1], count[2]], 12);
        let nanoseconds = burst_compared(sides::burst_timed(burst), 11);
        println!("| {:>2}, {:>2} | {:<34} | {instructions} | {nanoseconds} |", burst.m, burst.n, burst.name);
    }
}

/// Prints the tables: the rows, the three programs beside the reference's, and their memory; then the bursts.
fn table(counts: &str, schedule: &str, paths: [&str; 6]) {
    let text = fs::read_to_string(counts).expect("the counts are there");
    let counts: Vec<f64> = text.lines().map(|line| line.parse().expect("a count")).collect();
    let (rows, bursts) = (rows::all(), bursts::all());
    let expected = 2 * rows.len() + 3 * bursts.len() + 6;
    assert_eq!(counts.len(), expected, "a count for each row and side, for each burst and way, and for six programs");
    let (of_rows, others) = counts.split_at(2 * rows.len());
    let (of_bursts, of_programs) = others.split_at(3 * bursts.len());
    println!("{HEAD}");
    for (row, count) in rows.iter().zip(of_rows.chunks(2)) {
        line(&format!("{:>2}, {:>2}", row.m, row.n), row.name, [count[0], count[1]], sides::timed(row));
    }
    let places = programs::places(&fs::read(schedule).expect("the schedule is there"));
    let mut memory = Vec::new();
    let all = format!("{places} places");
    for (name, far, which) in
        [("the runner", all.as_str(), 0), ("the judge", "to a 65th commit", 2), ("the sheet", all.as_str(), 4)]
    {
        let needed = programs::beside([paths[which], paths[which + 1]], schedule);
        let count = [of_programs[which], of_programs[which + 1]];
        line("32, 16", &format!("{name}, {far}, whole program"), count, needed.map(|needed| needed.nanoseconds));
        memory.push((name, needed.map(|needed| needed.memory as f64)));
    }
    for (name, memory) in memory {
        let what = format!("{name}, peak memory in KiB");
        println!("| 32, 16 | {what:<44} | {} | {:>12} | {:>12} | {:>5} |", compared(memory, grouped), "", "", "");
    }
    println!();
    bursts_table(&bursts, of_bursts);
}

/// One of the four things that can be asked for.
fn main() {
    let arguments: Vec<String> = std::env::args().skip(1).collect();
    match arguments.iter().map(String::as_str).collect::<Vec<_>>()[..] {
        ["rows"] => sides::counted(&rows::all(), &bursts::all()),
        ["schedule", file] => fs::write(file, programs::largest()).expect("the schedule is written"),
        ["memory", program, schedule] => println!("{}", programs::memory(program, schedule)),
        ["table", counts, schedule, ref programs @ ..] if programs.len() == 6 => {
            table(counts, schedule, programs.try_into().expect("six of them"))
        }
        _ => panic!("rows, schedule, memory or table"),
    }
}
