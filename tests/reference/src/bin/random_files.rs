//! Puts random schedule files into a folder and prints their names, for programs that take files by name: sound ones, ones that are
//! refused, empty and too long ones; some names are a folder's, and behind some there is nothing.
//! Arguments: the folder, a seed, how many names.
use reference::generate;
use reference::random::Random;
use reference::schedule::LONGEST;
use std::fs;
use std::io;
use std::process::exit;

/// What is behind a name.
enum Behind {
    File(Vec<u8>),
    Folder,
    Nothing,
}

/// Any of them, a sound file being the most likely.
fn behind(random: &mut Random) -> Behind {
    match random.below(20) {
        0 => Behind::Folder,
        1 => Behind::Nothing,
        2 => Behind::File(Vec::new()),
        3 => Behind::File(vec![1; LONGEST + random.within(1, 3) as usize]),
        4..=8 => Behind::File(generate::damaged(random)),
        _ => Behind::File(generate::sound(random)),
    }
}

/// A name in the folder, now and then with a blank or a letter of two bytes; each is of another number.
fn name(random: &mut Random, folder: &str, number: u64) -> String {
    let middle = random.one_of(&["", "", "", " of a day", "-é"]);
    format!("{folder}/{number:04}{middle}.bin")
}

/// Makes what is behind each name, and prints the name.
fn make(folder: &str, seed: u64, count: u64) -> io::Result<()> {
    let mut random = Random::new(seed);
    for number in 0..count {
        let name = name(&mut random, folder, number);
        match behind(&mut random) {
            Behind::File(bytes) => fs::write(&name, bytes)?,
            Behind::Folder => fs::create_dir(&name)?,
            Behind::Nothing => (),
        }
        println!("{name}");
    }
    Ok(())
}

/// The whole program.
fn main() {
    let arguments: Vec<String> = std::env::args().skip(1).collect();
    let [folder, seed, count] = &arguments[..] else { panic!("a folder, a seed, how many names") };
    let number = |word: &String| word.parse().expect("a number");
    if let Err(error) = make(folder, number(seed), number(count)) {
        eprintln!("random-files: {folder}: {error}");
        exit(1);
    }
}
