//! A schedule written down in the order in which it is taken, beside a register that says what each step comes to: so a schedule
//! can be led to what it is meant to show, and a reader of it needs no order bytes.
use crate::generate::Parts;
use crate::register::{self, Reply};
use crate::steps::{read, write, Step, BEGIN, GIVE_UP, TRY};

/// The schedule up to here: its scripts and its order, the register's words, who has a transaction open, and how many committed.
#[derive(Clone, Debug)]
pub struct Course {
    cells: u8,
    scripts: Vec<Vec<Step>>,
    order: Vec<u8>,
    words: Vec<u32>,
    open: Vec<bool>,
    commits: usize,
}

impl Course {
    /// A schedule with no step yet.
    pub fn new(cells: u8, handlers: usize) -> Self {
        let (m, n) = (cells.into(), handlers as u32);
        let mut words = vec![0; register::length(m, n).expect("sizes in range")];
        register::open(&mut words, m, n).expect("words enough");
        Course { cells, scripts: vec![Vec::new(); handlers], order: Vec::new(), words, open: vec![false; handlers], commits: 0 }
    }

    /// How many cells there are.
    pub fn cells(&self) -> u8 {
        self.cells
    }

    /// How many handlers there are.
    pub fn handlers(&self) -> usize {
        self.scripts.len()
    }

    /// How many commits there were.
    pub fn commits(&self) -> usize {
        self.commits
    }

    /// Whether a handler has a transaction open.
    pub fn is_open(&self, handler: usize) -> bool {
        self.open[handler]
    }

    /// Whether a handler's try would commit now.
    pub fn would_commit(&self, handler: usize) -> bool {
        register::step(&mut self.words.clone(), handler as u32, TRY.code.into(), 0) == Reply::Commit
    }

    /// The handler's next step.
    pub fn take(&mut self, handler: usize, step: Step) -> Reply {
        self.scripts[handler].push(step);
        self.order.push(handler as u8);
        let reply = register::step(&mut self.words, handler as u32, step.code.into(), step.value);
        match reply {
            Reply::Ok => self.open[handler] = true,
            Reply::Commit | Reply::Abort { .. } => self.open[handler] = false,
            Reply::Value(_) | Reply::Unset | Reply::Refused(_) => (),
        }
        self.commits += usize::from(reply == Reply::Commit);
        reply
    }

    /// Some steps of a handler, one after another.
    pub fn take_all(&mut self, handler: usize, steps: impl IntoIterator<Item = Step>) {
        for step in steps {
            self.take(handler, step);
        }
    }

    /// A whole transaction: begin, some reads and writes, try.
    pub fn transaction(&mut self, handler: usize, steps: &[Step]) {
        self.take_all(handler, [&[BEGIN], steps, &[TRY]].concat());
    }

    /// An order place without a step: of no handler, or of one that takes no step from here on.
    pub fn place(&mut self, handler: u8) {
        self.order.push(handler);
    }

    /// Takes the steps of a text: groups such as `0:begin,read1,write2=7,try` of one handler each; `9:none` has no step.
    pub fn follow(&mut self, text: &str) {
        for group in text.split_whitespace() {
            let (handler, names) = group.split_once(':').expect(group);
            for name in names.split(',') {
                match step(name) {
                    Some(step) => self.take_all(number(handler) as usize, [step]),
                    None => self.place(number(handler) as u8),
                }
            }
        }
    }

    /// The schedule's file.
    pub fn file(&self) -> Vec<u8> {
        Parts::new(self.cells, &self.scripts, self.order.clone()).file()
    }
}

/// The number that a text of digits stands for.
fn number(text: &str) -> u32 {
    text.parse().expect(text)
}

/// The step of a name; `none` is no step.
fn step(name: &str) -> Option<Step> {
    let cell = |text| number(text) as u8;
    match (name, name.strip_prefix("read"), name.strip_prefix("write").and_then(|rest| rest.split_once('='))) {
        ("none", ..) => None,
        ("begin", ..) => Some(BEGIN),
        ("try", ..) => Some(TRY),
        ("give-up", ..) => Some(GIVE_UP),
        (_, Some(read_cell), _) => Some(read(cell(read_cell))),
        (_, _, Some((written, value))) => Some(write(cell(written), number(value))),
        _ => panic!("{name} is no step"),
    }
}
