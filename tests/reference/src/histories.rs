//! Random schedules for the judge: rich in commits, with pasts that are long and thin, readers that stay open over many commits,
//! and steps of every kind between the 64th commit and the 65th.
use crate::course::Course;
use crate::generate::any_write;
use crate::judge::MOST;
use crate::random::Random;
use crate::steps::{read, Step, BEGIN, GIVE_UP, TRY};

/// A schedule as it grows: the first handlers read over a long time, the others take whole transactions, and the last is silent.
struct Growing {
    course: Course,
    readers: usize,
    /// The commits that it is to have.
    goal: usize,
    /// One turn of a reader among so many turns.
    reader_in: u64,
    /// The cells of the writes up to now.
    written: Vec<u8>,
}

impl Growing {
    /// A schedule with no step yet, and what it is to become.
    fn new(random: &mut Random) -> Self {
        let most_cells = random.one_of(&[3, 8, 16, 32, 32]);
        let handlers = random.within(3, 16) as usize;
        Growing {
            course: Course::new(random.within(1, most_cells) as u8, handlers),
            readers: random.within(1, handlers as u64 - 2) as usize,
            goal: goal(random),
            reader_in: random.within(1, 5),
            written: Vec::new(),
        }
    }

    /// Whether the commits stand at the goal, or at the most that are noted.
    fn is_full(&self) -> bool {
        [self.goal, MOST].contains(&self.course.commits())
    }

    /// Any cell.
    fn any_cell(&self, random: &mut Random) -> u8 {
        random.below(self.course.cells().into()) as u8
    }

    /// A read, often of a cell that was written lately.
    fn read(&self, random: &mut Random) -> Step {
        let late = &self.written[self.written.len().saturating_sub(4)..];
        match late.is_empty() || random.once_in(2) {
            true => read(self.any_cell(random)),
            false => read(random.one_of(late)),
        }
    }

    /// A write of any cell, which is noted as written.
    fn write(&mut self, random: &mut Random) -> Step {
        let cell = self.any_cell(random);
        self.written.push(cell);
        any_write(random, cell)
    }

    /// Any of the handlers that read over a long time.
    fn reader(&self, random: &mut Random) -> usize {
        random.place(self.readers)
    }

    /// A handler for a whole transaction: now and then a reader that has none open, since its last one is ended.
    fn writer(&self, random: &mut Random) -> usize {
        let reader = self.reader(random);
        match self.course.is_open(reader) || !random.once_in(3) {
            true => random.within(self.readers as u64, self.course.handlers() as u64 - 2) as usize,
            false => reader,
        }
    }

    /// A whole transaction, which commits: of nothing, of reads, of writes or of both.
    fn transaction(&mut self, random: &mut Random) {
        let (reads, writes) = random.one_of(&[(0, 0), (1, 0), (2, 0), (0, 1), (0, 1), (0, 2), (1, 1), (1, 1), (2, 1), (1, 2)]);
        let mut steps: Vec<Step> = (0..reads).map(|_| self.read(random)).collect();
        steps.extend((0..writes).map(|_| self.write(random)).collect::<Vec<_>>());
        if random.once_in(6) {
            steps.reverse();
        }
        self.course.transaction(self.writer(random), &steps);
    }

    /// One step of a handler that has a transaction open for long, after its begin where that is missing.
    fn goes_on(&mut self, handler: usize, step: Step) {
        if !self.course.is_open(handler) {
            self.course.take(handler, BEGIN);
        }
        self.course.take(handler, step);
    }

    /// A step of a reader: mostly a read.
    fn access(&mut self, random: &mut Random) -> Step {
        match random.once_in(8) {
            true => self.write(random),
            false => self.read(random),
        }
    }

    /// A reader reads a cell, which is then written; from there on each commit reads the cell that the one before wrote, mostly,
    /// in the same transaction as its write or in an earlier one. At last the reader reads the cell at the end.
    fn chain(&mut self, random: &mut Random) {
        let reader = self.reader(random);
        let mut cell = self.any_cell(random);
        self.goes_on(reader, read(cell));
        let mut seen = Vec::new();
        for _ in 0..random.within(2, 10) {
            if self.is_full() {
                break;
            }
            let writer = self.writer(random);
            if random.once_in(4) {
                self.course.transaction(writer, &seen);
                seen.clear();
            }
            if self.is_full() {
                break;
            }
            seen.push(any_write(random, cell));
            self.course.transaction(writer, &seen);
            seen = if random.once_in(10) { Vec::new() } else { vec![read(cell)] };
            self.written.push(cell);
            cell = self.any_cell(random);
        }
        self.goes_on(reader, read(self.written.last().copied().unwrap_or(cell)));
    }

    /// What comes next: a reader's step or end, a chain of commits, or one whole transaction.
    fn turn(&mut self, random: &mut Random) {
        match (random.once_in(self.reader_in), random.once_in(10)) {
            (true, true) => self.goes_on(self.reader(random), random.one_of(&[TRY, TRY, GIVE_UP])),
            (true, false) => {
                let step = self.access(random);
                self.goes_on(self.reader(random), step);
            }
            (false, true) => self.chain(random),
            (false, false) => self.transaction(random),
        }
    }

    /// A step or an order place that does not commit: refused, or aborted, or any but a try.
    fn quiet(&mut self, random: &mut Random) {
        let (cells, handlers) = (u64::from(self.course.cells()), self.course.handlers() as u64);
        let handler = random.below(handlers - 1) as usize;
        match (random.below(10), self.course.is_open(handler)) {
            (0, _) => self.course.place(handlers as u8 - 1),
            (1, _) => self.course.place(random.within(handlers, 255) as u8),
            (2, _) if cells < 32 => self.course.take_all(handler, [read(random.within(cells, 31) as u8)]),
            (3, true) => self.course.take_all(handler, [BEGIN]),
            (3, false) => self.course.take_all(handler, [random.one_of(&[TRY, GIVE_UP])]),
            (4, false) => self.course.take_all(handler, [read(0)]),
            (7, true) => self.course.take_all(handler, [GIVE_UP]),
            (4..=6, true) if !self.course.would_commit(handler) => self.course.take_all(handler, [TRY]),
            _ => {
                let step = self.access(random);
                self.goes_on(handler, step);
            }
        }
    }
}

/// How many commits a schedule is to have: few, 64, 65, or more.
fn goal(random: &mut Random) -> usize {
    match random.below(8) {
        0 => random.within(1, 20) as usize,
        1 => random.within(20, 63) as usize,
        2..=3 => MOST,
        4..=5 => MOST + 1,
        _ => MOST + random.within(2, 20) as usize,
    }
}

/// A schedule that goes on up to its goal. Some steps that don't commit may stand after the 64th commit.
pub fn file(random: &mut Random) -> Vec<u8> {
    let mut quiet = if random.once_in(3) { 0 } else { random.within(1, 60) };
    let mut growing = Growing::new(random);
    // Where readers are in each other's way, the goal may be far: the turns are limited.
    for _ in 0..3000 {
        match growing.course.commits() {
            MOST if quiet > 0 => {
                quiet -= 1;
                growing.quiet(random);
            }
            commits if commits >= growing.goal => break,
            _ => growing.turn(random),
        }
    }
    growing.course.file()
}

#[cfg(test)]
mod tests {
    use super::*;
    use crate::counts::Counts;
    use crate::{aborts, judge, runner};

    #[test]
    fn the_judge_prints_what_the_runner_does_up_to_a_65th_commit() {
        let (mut random, mut counts) = (Random::new(7), Counts::default());
        for _ in 0..100 {
            let file = file(&mut random);
            let judged = judge::run(&file);
            assert_eq!(judge::shown(&judged), judge::cut(&runner::printed(&file)));
            judged.iter().for_each(|(_, history)| counts.choices(history));
        }
        assert!(aborts::in_files().iter().all(|name| counts.of(name) > 20), "{}", counts.shown());
    }

    #[test]
    fn the_same_seed_gives_the_same_files() {
        let (mut one, mut other) = (Random::new(8), Random::new(8));
        for _ in 0..20 {
            assert_eq!(file(&mut one), file(&mut other));
        }
    }
}
