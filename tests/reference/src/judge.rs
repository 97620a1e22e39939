//! The judge of docs/RULES.md: what each step comes to, worked out from the history alone, up to a 65th commit. There are no
//! dependency numbers here: a causal past is asked of the versions that were read and of the handlers' earlier commits.
use crate::aborts::Choice;
use crate::lines::{self, Cell, Run};
use crate::register::Reply;
use crate::schedule;
use crate::steps::Step;
use std::collections::{BTreeMap, BTreeSet};

/// The commits that are noted at most.
pub const MOST: usize = 64;

/// A version is told by the commit that wrote it, counted from 1. The opening's was written by nobody, and has no value: it is unset.
const OPENING: usize = 0;

/// A transaction: the version of each cell that it read from the cells, and the value of each cell that it wrote.
#[derive(Clone, Debug, Default)]
struct Transaction {
    read: BTreeMap<usize, usize>,
    written: BTreeMap<usize, u32>,
}

/// A commit: what its transaction read and wrote, and whose it was.
#[derive(Clone, Debug)]
struct Commit {
    handler: usize,
    transaction: Transaction,
}

/// The commits in their order, and the transaction that each handler has open.
#[derive(Clone, Debug)]
pub struct History {
    cells: usize,
    commits: Vec<Commit>,
    open: Vec<Option<Transaction>>,
    /// For each abort 1, how many links led back from the version's commit to the nearest one that overtook a read.
    pub links: Vec<usize>,
    /// For each abort 1 and 2, which cells it was chosen from.
    pub choices: Vec<Choice>,
}

impl History {
    /// The history of a register just opened.
    fn new(cells: usize, handlers: usize) -> Self {
        History { cells, commits: Vec::new(), open: vec![None; handlers], links: Vec::new(), choices: Vec::new() }
    }

    /// How many commits are noted.
    pub fn commits(&self) -> usize {
        self.commits.len()
    }

    /// The commits that wrote a cell, in their order.
    fn writers(&self, cell: usize) -> impl DoubleEndedIterator<Item = usize> + '_ {
        (1..=self.commits.len()).filter(move |&place| self.wrote(place, cell).is_some())
    }

    /// The value that a commit wrote into a cell, if it did.
    fn wrote(&self, place: usize, cell: usize) -> Option<u32> {
        self.commits[place - 1].transaction.written.get(&cell).copied()
    }

    /// A cell's last version.
    fn last_version(&self, cell: usize) -> usize {
        self.writers(cell).next_back().unwrap_or(OPENING)
    }

    /// The value of a cell's version: none of the opening's.
    fn value(&self, cell: usize, version: usize) -> Option<u32> {
        match version {
            OPENING => None,
            place => Some(self.wrote(place, cell).expect("a version was written by its commit")),
        }
    }

    /// The commits that stand directly in a commit's past: its handler's earlier ones, and those whose versions it read.
    fn direct_past(&self, place: usize) -> Vec<usize> {
        let Commit { handler, transaction } = &self.commits[place - 1];
        let earlier = (1..place).filter(|&other| self.commits[other - 1].handler == *handler);
        earlier.chain(transaction.read.values().copied().filter(|&version| version != OPENING)).collect()
    }

    /// The commit that wrote a version and its whole past, each with the least number of links that lead to it.
    fn past(&self, version: usize) -> BTreeMap<usize, usize> {
        let mut marked = BTreeMap::new();
        let mut asked: BTreeSet<usize> = [version].into_iter().filter(|&version| version != OPENING).collect();
        let mut links = 0;
        while !asked.is_empty() {
            marked.extend(asked.iter().map(|&place| (place, links)));
            let behind = asked.iter().flat_map(|&place| self.direct_past(place));
            asked = behind.filter(|place| !marked.contains_key(place)).collect();
            links += 1;
        }
        marked
    }

    /// The cells of which a version's commit, or one in its past, wrote a later version than the one that was read, each with the least
    /// number of links that lead to such a commit.
    fn overtaken_by(&self, version: usize, read: &BTreeMap<usize, usize>) -> BTreeMap<usize, usize> {
        let past = self.past(version);
        let nearest = |cell: usize, version: usize| {
            let later = past.iter().filter(|&(&place, _)| version < place && self.wrote(place, cell).is_some());
            later.map(|(_, &links)| links).min()
        };
        read.iter().filter_map(|(&cell, &version)| Some((cell, nearest(cell, version)?))).collect()
    }

    /// The cells of which another version than the one that was read is the last one now.
    fn stale(&self, read: &BTreeMap<usize, usize>) -> BTreeSet<usize> {
        read.iter().filter(|&(&cell, &version)| version != self.last_version(cell)).map(|(&cell, _)| cell).collect()
    }

    /// An abort of the lowest of some cells that were read; of none where there are none.
    fn abort(&mut self, reason: u32, read: &BTreeMap<usize, usize>, cells: BTreeSet<usize>) -> Option<Reply> {
        let &lowest = cells.first()?;
        self.choices.push(Choice::new(reason, self.cells, |cell| (read.contains_key(&cell), cells.contains(&cell))));
        Some(Reply::abort(reason, lowest))
    }

    /// What a handler's step comes to. A 65th commit is not noted.
    fn step(&mut self, handler: usize, step: Step) -> Reply {
        let code = usize::from(step.code);
        if code >= 32 && code % 32 >= self.cells {
            return Reply::Refused(12);
        }
        match (self.open[handler].take(), code) {
            (Some(open), 0) => self.goes_on(handler, open, Reply::Refused(13)),
            (None, 0) => self.goes_on(handler, Transaction::default(), Reply::Ok),
            (None, _) => Reply::Refused(14),
            (Some(open), 1) => self.attempt(handler, open),
            // What it read and wrote is forgotten: it is in nobody's past, and no commit is counted.
            (Some(_), 2) => Reply::GAVE_UP,
            (Some(open), 32..=63) => self.read(handler, open, code - 32),
            (Some(mut open), _) => {
                open.written.insert(code - 64, step.value);
                self.goes_on(handler, open, Reply::Ok)
            }
        }
    }

    /// A reply after which the transaction is still open.
    fn goes_on(&mut self, handler: usize, open: Transaction, reply: Reply) -> Reply {
        self.open[handler] = Some(open);
        reply
    }

    /// A read: its own value, the version that it has read, or the last one if no commit in that one's past overtakes a cell that was read.
    fn read(&mut self, handler: usize, mut open: Transaction, cell: usize) -> Reply {
        if let Some(&value) = open.written.get(&cell) {
            return self.goes_on(handler, open, Reply::Value(value));
        }
        let last = self.last_version(cell);
        let version = open.read.get(&cell).copied();
        if version.is_none() {
            let overtaken = self.overtaken_by(last, &open.read);
            self.links.extend(overtaken.values().min());
            if let Some(abort) = self.abort(1, &open.read, overtaken.into_keys().collect()) {
                return abort;
            }
            open.read.insert(cell, last);
        }
        let reply = self.value(cell, version.unwrap_or(last)).map_or(Reply::Unset, Reply::Value);
        self.goes_on(handler, open, reply)
    }

    /// A try: every version that was read has to be the last one still.
    fn attempt(&mut self, handler: usize, open: Transaction) -> Reply {
        if let Some(abort) = self.abort(2, &open.read, self.stale(&open.read)) {
            return abort;
        }
        if self.commits.len() == MOST {
            return Reply::Refused(33);
        }
        self.commits.push(Commit { handler, transaction: open });
        Reply::Commit
    }

    /// Each cell with its last value, if it has one, and how many commits wrote it.
    fn left(&self) -> Vec<Cell> {
        let cell = |cell| Cell { value: self.value(cell, self.last_version(cell)), number: self.writers(cell).count() as u32 };
        (0..self.cells).map(cell).collect()
    }
}

/// What the judge makes of a file: the run and the history, or the number of its refusal.
pub type Judged = Result<(Run, History), u32>;

/// Judges a file's run. The last of its lines is a 33 if it comes to that.
pub fn run(file: &[u8]) -> Judged {
    let schedule = schedule::judge(file)?;
    let mut history = History::new(schedule.cells as usize, schedule.handlers as usize);
    let mut run = Run { handlers: schedule.handlers, cells: schedule.cells, lines: Vec::new(), left: Vec::new() };
    for place in schedule.places() {
        let line = place.line(|step| history.step(place.handler.into(), step));
        run.lines.push(line);
        if line.reply == Reply::Refused(33) {
            return Ok((run, history));
        }
    }
    run.left = history.left();
    Ok((run, history))
}

/// The lines of a judged run, or the one line of a refused file.
pub fn shown(judged: &Judged) -> String {
    lines::shown(judged.as_ref().map(|(run, _)| run))
}

/// What the judge prints for a file, whatever it holds.
pub fn printed(file: &[u8]) -> String {
    shown(&run(file))
}

/// What the judge has to print where the runner prints this: the same, or the lines up to a 65th commit, which is 33.
pub fn cut(printed: &str) -> String {
    let mut commits = 0;
    let mut kept = String::new();
    for line in printed.split_inclusive('\n') {
        if let Some(start) = line.strip_suffix(" commit\n") {
            if commits == MOST {
                return kept + start + " refused 33\n";
            }
            commits += 1;
        }
        kept.push_str(line);
    }
    kept
}

#[cfg(test)]
mod tests {
    use super::*;

    /// Lines of some commits, then a cell.
    fn lines(commits: usize) -> String {
        (0..commits).map(|place| format!("{place} 0 1 commit\n")).chain(["cell 0 unset number 0\n".into()]).collect()
    }

    #[test]
    fn a_cut_stands_at_the_65th_commit() {
        assert_eq!(cut(&lines(64)), lines(64));
        let kept = lines(64).replace("cell 0 unset number 0", "64 0 1 refused 33");
        assert_eq!(cut(&lines(65)), kept);
        assert_eq!(cut(&lines(70)), kept);
    }

    #[test]
    fn a_refused_file_is_not_cut() {
        assert_eq!(cut("refused 30\n"), "refused 30\n");
        assert_eq!(printed(&[]), "refused 30\n");
    }
}
