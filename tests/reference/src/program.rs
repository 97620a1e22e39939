//! Programs that take a schedule file on standard input and print its lines: the frame of this crate's own, and what another one
//! prints, compared with what it should.
use crate::hexadecimal;
use crate::random::Random;
use crate::schedule::LONGEST;
use std::io::{self, ErrorKind, Read, Write};
use std::process::{exit, ChildStdin, Command, Stdio};

/// Reads a file from standard input, one byte beyond the longest at most, and prints what is to be printed for it.
fn print(printed: fn(&[u8]) -> String) -> io::Result<()> {
    let mut file = Vec::new();
    io::stdin().lock().take(LONGEST as u64 + 1).read_to_end(&mut file)?;
    match io::stdout().write_all(printed(&file).as_bytes()) {
        Err(error) if error.kind() == ErrorKind::BrokenPipe => Ok(()),
        written => written,
    }
}

/// The whole of a program with such a name.
pub fn run(name: &str, printed: fn(&[u8]) -> String) {
    if let Err(error) = print(printed) {
        eprintln!("{name}: {error}");
        exit(1);
    }
}

/// Brings a program its input in pieces; a program that has seen enough may stop reading.
fn feed(mut input: ChildStdin, file: &[u8], piece: usize) -> io::Result<()> {
    for part in file.chunks(piece) {
        match input.write_all(part) {
            Err(error) if error.kind() == ErrorKind::BrokenPipe => return Ok(()),
            written => written?,
        }
    }
    Ok(())
}

/// How long the pieces are that a file is brought in: mostly the whole.
pub fn piece(random: &mut Random, file: &[u8]) -> usize {
    let pieces = if random.once_in(4) { random.within(2, 6) as usize } else { 1 };
    file.len() / pieces + 1
}

/// What a program prints for a file, or how it failed.
pub fn printed_by(program: &str, file: &[u8], piece: usize) -> Result<String, String> {
    let started = Command::new(program).stdin(Stdio::piped()).stdout(Stdio::piped()).spawn();
    let mut child = started.map_err(|error| format!("{program} doesn't start: {error}"))?;
    let (input, output) = (child.stdin.take(), child.stdout.take());
    let (Some(input), Some(mut output)) = (input, output) else { return Err("no pipes".into()) };
    let mut printed = Vec::new();
    // The program may print before it has read everything, so the two go on side by side.
    let moved = std::thread::scope(|scope| {
        let feeding = scope.spawn(move || feed(input, file, piece));
        let read = output.read_to_end(&mut printed);
        feeding.join().expect("the feeding ends").and(read)
    });
    let status = child.wait().map_err(|error| error.to_string())?;
    moved.map_err(|error| error.to_string())?;
    let printed = String::from_utf8_lossy(&printed).into_owned();
    match status.success() {
        true => Ok(printed),
        false => Err(format!("{printed}({status})\n")),
    }
}

/// Where a program did not print what it should, by whoever says so, both are shown and the comparison ends.
pub fn demand(what: &str, file: &[u8], proved: &Result<String, String>, whose: &str, expected: &str) {
    let proved = match proved {
        Ok(proved) if proved == expected => return,
        Ok(proved) | Err(proved) => proved,
    };
    let alike = proved.lines().zip(expected.lines()).take_while(|(one, other)| one == other).count();
    println!("{what}, {} bytes: different from line {} on\n{}", file.len(), alike + 1, hexadecimal::text(file));
    println!("proved:\n{proved}\n{whose}:\n{expected}");
    exit(1);
}
