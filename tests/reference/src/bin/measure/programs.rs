//! Whole programs on the largest schedule: how long they take, and how much memory at most. Ours and the reference's take turns, so
//! that whatever else the machine does meets both. Runners and judges read standard input, sheets the file of a name: all get both.
use reference::random::Random;
use reference::schedule::LONGEST;
use reference::{generate, schedule};
use std::os::unix::process::CommandExt;
use std::process::{Command, Stdio};
use std::time::Instant;
use std::{env, fs};

/// A schedule of 65,535 bytes with 32 cells and 16 handlers. No transaction in it gives up, so that it is the one that was measured
/// before there was such a step.
pub fn largest() -> Vec<u8> {
    generate::of_length(&mut Random::new(1923), 32, 16, LONGEST, None).file()
}

/// What a program needed: nanoseconds of the quickest run, and the most memory in KiB.
#[derive(Clone, Copy)]
pub struct Needed {
    pub nanoseconds: f64,
    pub memory: u64,
}

extern "C" {
    /// Waits for a child to end; of its 18 numbers of usage the fifth is the most memory that it had, in KiB.
    fn wait4(process: i32, status: *mut i32, options: i32, usage: *mut [i64; 18]) -> i32;
}

/// The most memory that a program had on a schedule file, in KiB, as the system counted it up to the program's end. The count begins
/// with the process that the program is started from: so it is asked for in a process of its own, by `measure memory`, and the hook,
/// which does nothing, has the child forked, where it would share its parent's memory up to its start.
pub fn memory(program: &str, file: &str) -> i64 {
    let input = fs::File::open(file).expect("the schedule is there");
    let mut command = Command::new(program);
    command.arg(file).stdin(input).stdout(Stdio::null());
    // SAFETY: the hook does nothing.
    unsafe { command.pre_exec(|| Ok(())) };
    let process = command.spawn().expect("the program starts").id() as i32;
    let (mut status, mut usage) = (0, [0; 18]);
    // SAFETY: both are as large as the system's own, and the child is waited for here alone.
    let ended = unsafe { wait4(process, &mut status, 0, &mut usage) };
    assert!(ended == process && status == 0, "{program} fails");
    usage[4]
}

/// The same, asked for in a process of its own.
fn peak(program: &str, file: &str) -> u64 {
    let this = env::current_exe().expect("this program has a path");
    let output = Command::new(this).args(["memory", program, file]).output().expect("this program starts");
    let text = String::from_utf8(output.stdout).expect("a number");
    text.trim().parse().expect("a number of KiB")
}

/// One run of a program on a schedule file: what it prints, and how many nanoseconds it took.
fn once(program: &str, file: &str) -> (Vec<u8>, f64) {
    let input = fs::File::open(file).expect("the schedule is there");
    let began = Instant::now();
    let output = Command::new(program).arg(file).stdin(input).stderr(Stdio::inherit()).output().expect("the program starts");
    assert!(output.status.success(), "{program} fails");
    (output.stdout, began.elapsed().as_nanos() as f64)
}

const RUNS: u32 = 10;

/// Two programs on the same file in turns; they have to print the same.
pub fn beside(programs: [&str; 2], file: &str) -> [Needed; 2] {
    let printed = programs.map(|program| once(program, file).0);
    assert!(printed[0] == printed[1], "{} and {} print different lines", programs[0], programs[1]);
    let mut needed = programs.map(|program| Needed { nanoseconds: f64::INFINITY, memory: peak(program, file) });
    for _ in 0..RUNS {
        for (program, needed) in programs.iter().zip(&mut needed) {
            needed.nanoseconds = needed.nanoseconds.min(once(program, file).1);
        }
    }
    needed
}

/// How many order places a schedule file has.
pub fn places(file: &[u8]) -> usize {
    schedule::judge(file).expect("a sound file").order.len()
}
