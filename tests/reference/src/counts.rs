//! How often each kind of thing was met in a comparison, by its name. A comparison of random files that never met what it is for
//! would show nothing.
use crate::aborts::Choice;
use crate::judge::History;
use crate::lines::{Line, Run};
use crate::register::Reply;
use std::collections::{BTreeMap, BTreeSet};

/// What files have to meet of reads and of cells at the end, so that unset and 0 are told apart in each.
pub const READS: [&str; 9] =
    ["unset", "unset again", "value", "value 0", "value 0 again", "own value 0", "cell unset", "cell value", "cell value 0"];

/// The name of a reply: that of an abort has its reason alone, and that of a value only whether it is 0.
pub fn name(reply: Reply) -> String {
    match reply {
        Reply::Value(1..) => "value".into(),
        Reply::Abort { reason, .. } => format!("abort {reason}"),
        reply => reply.to_string(),
    }
}

/// The codes of what each handler's open transaction has read and written up to a line.
#[derive(Default)]
struct Had(BTreeMap<u8, BTreeSet<u8>>);

impl Had {
    /// The name of a line's reply; of a read also whether it came again, or was of the transaction's own write.
    fn name(&mut self, line: &Line) -> String {
        let had = self.0.entry(line.handler).or_default();
        let what = name(line.reply);
        let Some(code) = line.code else { return what };
        match line.reply {
            Reply::Ok if code == 0 => had.clear(),
            Reply::Ok => drop(had.insert(code)),
            _ => (),
        }
        if !matches!(line.reply, Reply::Value(_) | Reply::Unset) {
            return what;
        }
        match (had.contains(&(code + 32)), had.insert(code)) {
            (true, _) => format!("own {what}"),
            (false, true) => what,
            (false, false) => format!("{what} again"),
        }
    }
}

/// How often each name was met.
#[derive(Default)]
pub struct Counts(BTreeMap<String, u64>);

impl Counts {
    /// Notes a name once more.
    pub fn note(&mut self, name: &str) {
        self.add(name, 1);
    }

    /// Notes a name so many times more.
    pub fn add(&mut self, name: &str, times: u64) {
        *self.0.entry(name.into()).or_default() += times;
    }

    /// Notes what was answered: each reply and each cell at the end, or the refusal of the file.
    pub fn answers(&mut self, run: Result<&Run, &u32>) {
        let run = match run {
            Err(number) => return self.note(&format!("file refused {number}")),
            Ok(run) => run,
        };
        let mut had = Had::default();
        run.lines.iter().for_each(|line| self.note(&had.name(line)));
        for cell in &run.left {
            self.note(match cell.value {
                None => "cell unset",
                Some(0) => "cell value 0",
                Some(_) => "cell value",
            });
        }
    }

    /// Notes what the aborts of a history show of the cells that they name.
    pub fn choices(&mut self, history: &History) {
        history.choices.iter().flat_map(Choice::names).for_each(|name| self.note(name));
    }

    /// All names that were met.
    pub fn names(&self) -> Vec<&str> {
        self.0.keys().map(String::as_str).collect()
    }

    /// How often a name was met.
    pub fn of(&self, name: &str) -> u64 {
        self.0.get(name).copied().unwrap_or(0)
    }

    /// Those of some names that were never met.
    pub fn lacking<'a>(&self, names: &[&'a str]) -> Vec<&'a str> {
        names.iter().copied().filter(|&name| self.of(name) == 0).collect()
    }

    /// All names with their counts, in one line.
    pub fn shown(&self) -> String {
        let counts: Vec<_> = self.0.iter().map(|(name, times)| format!("{name} {times} times")).collect();
        counts.join(", ")
    }
}
