//! Compares a proved judge with the proved runner, whose lines it prints up to a 65th commit, and with this crate's judge: on the
//! examples, on directed schedules, at borders and on random files.
//! Arguments: the paths of runner, judge and examples, a seed, how many sound files, how many damaged ones.
use reference::counts::{Counts, READS};
use reference::directed::{self, Directed};
use reference::judge::{self, Judged, MOST};
use reference::random::Random;
use reference::register::Reply;
use reference::schedule;
use reference::{aborts, generate, histories, program};
use std::ffi::OsStr;
use std::path::Path;
use std::process::exit;
use std::time::Instant;

/// What the random files have to meet besides the kinds of read and the choices of a cell, each at least once.
const KINDS: [&str; 23] = [
    "ok",
    "commit",
    "abort 1",
    "abort 2",
    "abort 5",
    "refused 11",
    "refused 12",
    "refused 13",
    "refused 14",
    "refused 32",
    "refused 33",
    "file refused 15",
    "file refused 30",
    "file of no commit",
    "file of 1 to 63 commits",
    "file of exactly 64 commits",
    "file cut at its last place",
    "file cut before its last place",
    "abort 1 after 64 commits",
    "abort 2 after 64 commits",
    "abort 5 after 64 commits",
    "other step after 64 commits",
    "refusal after 64 commits",
];

/// The aborts 1 by how many links led from the version's commit to the one that overtook a read. Each has to be met too.
const LINKS: [&str; 4] =
    ["abort 1 through 0 links", "abort 1 through 1 link", "abort 1 through 2 links", "abort 1 through 3 links or more"];

/// The two programs, and what was met.
struct Comparison {
    runner: String,
    judge: String,
    random: Random,
    counts: Counts,
}

impl Comparison {
    /// Judges a file in all three ways, and gives back what came out.
    fn file(&mut self, what: &str, file: &[u8]) -> Judged {
        let piece = program::piece(&mut self.random, file);
        let whole = program::printed_by(&self.runner, file, piece);
        let printed = program::printed_by(&self.judge, file, piece);
        match whole {
            Ok(whole) => program::demand(what, file, &printed, "the runner's lines up to a 65th commit", &judge::cut(&whole)),
            Err(failure) => fail(&format!("{what}: the runner: {failure}")),
        }
        let judged = judge::run(file);
        program::demand(what, file, &printed, "reference", &judge::shown(&judged));
        judged
    }

    /// Counts what a file with so many order places comes to.
    fn count(&mut self, judged: Judged, places: usize) {
        let counts = &mut self.counts;
        counts.answers(judged.as_ref().map(|(run, _)| run));
        let Ok((run, history)) = judged else { return };
        counts.add("line", run.lines.len() as u64);
        let cut = run.lines.last().is_some_and(|line| line.reply == Reply::Refused(33));
        counts.note(match (cut, history.commits()) {
            (true, _) if places == run.lines.len() => "file cut at its last place",
            (true, _) => "file cut before its last place",
            (false, 0) => "file of no commit",
            (false, MOST) => "file of exactly 64 commits",
            (false, _) => "file of 1 to 63 commits",
        });
        history.links.iter().for_each(|&links| counts.note(LINKS[links.min(3)]));
        counts.choices(&history);
        let mut noted = 0;
        for line in run.lines {
            match line.reply {
                Reply::Commit => noted += 1,
                Reply::Abort { reason: 1, .. } if noted == MOST => counts.note("abort 1 after 64 commits"),
                Reply::Abort { reason: 2, .. } if noted == MOST => counts.note("abort 2 after 64 commits"),
                Reply::Abort { reason: 5, .. } if noted == MOST => counts.note("abort 5 after 64 commits"),
                Reply::Ok | Reply::Value(_) | Reply::Unset if noted == MOST => counts.note("other step after 64 commits"),
                Reply::Refused(number) if noted == MOST && number < 33 => counts.note("refusal after 64 commits"),
                _ => (),
            }
        }
    }

    /// The examples: what the judge prints is in the file that ends in `judged` or, where it is the runner's too, in `out`.
    fn examples(&mut self, folder: &str) -> usize {
        let entries = std::fs::read_dir(folder).unwrap_or_else(|error| fail(&format!("{folder}: {error}")));
        let paths = entries.map(|entry| entry.unwrap_or_else(|error| fail(&error.to_string())).path());
        let mut paths: Vec<_> = paths.filter(|path| path.extension() == Some(OsStr::new("bin"))).collect();
        paths.sort();
        for path in &paths {
            let (what, bytes) = (path.display().to_string(), content(path));
            let judged = path.with_extension("judged");
            let expected = content(&if judged.exists() { judged } else { path.with_extension("out") });
            let printed = judge::shown(&self.file(&what, &bytes));
            program::demand(&what, &bytes, &Ok(printed), "expected", &String::from_utf8_lossy(&expected));
        }
        paths.len()
    }

    /// The directed schedules: each comes to what it says.
    fn directed(&mut self) -> usize {
        let all = directed::all();
        for Directed { name, file, last } in &all {
            let printed = judge::shown(&self.file(name, file));
            if !directed::last_place(&printed).ends_with(last) {
                fail(&format!("{name}: the last line doesn't end in {last}\n{printed}"));
            }
        }
        all.len()
    }

    /// Random files: sound ones, two of three of them made for the judge, then damaged ones.
    fn random_files(&mut self, seed: u64, sound: u64, damaged: u64) {
        for place in 0..sound + damaged {
            let (kind, file) = match place {
                place if place >= sound => ("damaged", generate::damaged(&mut self.random)),
                place if place % 3 == 0 => ("sound", generate::sound(&mut self.random)),
                _ => ("history", histories::file(&mut self.random)),
            };
            let judged = self.file(&format!("seed {seed}, file {place} ({kind})"), &file);
            let places = schedule::judge(&file).map_or(0, |schedule| schedule.order.len());
            self.count(judged, places);
        }
    }

    /// The least time of a few that the judge takes for the largest pasts, in milliseconds.
    fn time(&mut self) -> u128 {
        let Directed { file, .. } = directed::largest_past();
        let time = |_| {
            let began = Instant::now();
            let printed = program::printed_by(&self.judge, &file, file.len());
            printed.map(|_| began.elapsed().as_millis()).unwrap_or_else(|failure| fail(&failure))
        };
        (0..5).map(time).min().unwrap_or(0)
    }
}

/// Says why the comparison ends, and ends it.
fn fail(what: &str) -> ! {
    println!("compare-judged: {what}");
    exit(1);
}

/// The bytes of a file that has to be there.
fn content(path: &Path) -> Vec<u8> {
    std::fs::read(path).unwrap_or_else(|error| fail(&format!("{}: {error}", path.display())))
}

/// All files, what was met, whether each kind was among it, and how long the largest pasts take.
fn main() {
    let arguments: Vec<String> = std::env::args().skip(1).collect();
    let numbers: Vec<u64> = arguments.iter().skip(3).filter_map(|word| word.parse().ok()).collect();
    let ([runner, judge, examples, ..], &[seed, sound, damaged]) = (&arguments[..], &numbers[..]) else {
        eprintln!("compare-judged: runner, judge, examples, a seed, how many sound files, how many damaged ones");
        exit(2);
    };
    let (runner, judge) = (runner.clone(), judge.clone());
    let mut comparison = Comparison { runner, judge, random: Random::new(seed), counts: Counts::default() };
    let (examples, directed) = (comparison.examples(examples), comparison.directed());
    let borders = generate::borders();
    for (place, file) in borders.iter().enumerate() {
        let _not_counted = comparison.file(&format!("border {place}"), file);
    }
    comparison.random_files(seed, sound, damaged);
    let counts = &comparison.counts;
    println!(
        "seed {seed}: {examples} examples, {directed} directed schedules, {} files at borders, no difference",
        borders.len()
    );
    let [lines, aborts_1, aborts_2, cut, full] =
        ["line", "abort 1", "abort 2", "refused 33", "file of exactly 64 commits"].map(|name| counts.of(name));
    println!("{sound} sound and {damaged} damaged files, {lines} lines, {aborts_1} aborts 1, {aborts_2} aborts 2, no difference");
    println!("{cut} files cut at a 65th commit, {full} of exactly 64 commits");
    let of_several = [1, 2].map(|reason| counts.of(&format!("abort {reason} of the lowest of several cells")));
    println!("{} aborts 1 and {} aborts 2 had more than one cell to name", of_several[0], of_several[1]);
    println!("each kind: {}", counts.shown());
    let lacking = counts.lacking(&[&KINDS[..], &LINKS[..], &READS[..], &aborts::in_files()].concat());
    if !lacking.is_empty() {
        fail(&format!("the random files had no {}", lacking.join(", no ")));
    }
    println!("64 commits of 32 cells on 16 handlers, and 512 reads: {} milliseconds", comparison.time());
}
