//! The rows that are measured: words, a call on them, and the reply that it has to give. There is a row for each way that a step or
//! an opening can end.
use reference::register::{self, Reply};
use reference::steps;

/// One call of either register.
#[derive(Clone, Copy)]
pub enum Call {
    Open { m: u32, n: u32 },
    Step { handler: u32, code: u32, value: u32 },
}

/// A row of the table: its call, the words before it, and the reply as one number.
pub struct Row {
    pub m: u32,
    pub n: u32,
    pub name: &'static str,
    pub words: Vec<u32>,
    pub call: Call,
    pub reply: u64,
}

pub const SIZES: [(u32, u32); 3] = [(2, 2), (8, 4), (32, 16)];

pub const BEGIN: u32 = steps::BEGIN.code as u32;
pub const TRY: u32 = steps::TRY.code as u32;
const GIVE_UP: u32 = steps::GIVE_UP.code as u32;
const TOO_LARGE: u32 = 65_536;

/// The code that reads a cell.
pub fn read(cell: u32) -> u32 {
    steps::read(cell as u8).code.into()
}

/// The code that writes a cell.
pub fn write(cell: u32) -> u32 {
    steps::write(cell as u8, 0).code.into()
}

/// A register on its way to what a row needs. The last handler's step is measured, with the last cell.
#[derive(Clone)]
pub struct State {
    pub m: u32,
    pub n: u32,
    pub words: Vec<u32>,
}

impl State {
    /// A register where each cell was written three times by handler 0.
    pub fn lived(m: u32, n: u32) -> Self {
        let mut state = State { m, n, words: vec![0; register::length(m, n).expect("in range")] };
        register::open(&mut state.words, m, n).expect("it has room");
        for _ in 0..3 {
            state = state.commit(&(0..m).collect::<Vec<_>>());
        }
        state
    }

    /// The handler whose step is measured.
    fn last_handler(&self) -> u32 {
        self.n - 1
    }

    /// The cell that is measured.
    fn last_cell(&self) -> u32 {
        self.m - 1
    }

    /// The register after steps of a handler, none of which is refused or aborts.
    pub fn after(mut self, handler: u32, codes: &[u32]) -> Self {
        for &code in codes {
            let reply = register::step(&mut self.words, handler, code, 1000 + code);
            assert!(
                matches!(reply, Reply::Ok | Reply::Value(_) | Reply::Unset | Reply::Commit),
                "handler {handler} code {code}: {reply:?}"
            );
        }
        self
    }

    /// The register after handler 0 wrote these cells and committed.
    fn commit(self, cells: &[u32]) -> Self {
        let writes: Vec<u32> = cells.iter().map(|&cell| write(cell)).collect();
        self.after(0, &[BEGIN]).after(0, &writes).after(0, &[TRY])
    }

    /// The register after the measured handler began and took these steps.
    fn begun(self, codes: &[u32]) -> Self {
        let handler = self.last_handler();
        self.after(handler, &[BEGIN]).after(handler, codes)
    }

    /// The register with one word changed.
    fn with(mut self, place: usize, word: u32) -> Self {
        self.words[place] = word;
        self
    }

    /// A row of any call.
    fn row(self, name: &'static str, call: Call, reply: u64) -> Row {
        Row { m: self.m, n: self.n, name, words: self.words, call, reply }
    }

    /// A row of the measured handler's step.
    fn step(self, name: &'static str, code: u32, reply: Reply) -> Row {
        let handler = self.last_handler();
        self.row(name, Call::Step { handler, code, value: 7 }, reply.packed())
    }
}

/// Steps that are taken: none of them is refused.
fn taken(lived: &State) -> Vec<Row> {
    let state = || lived.clone();
    let (m, x) = (lived.m, lived.last_cell());
    let own = 2 + (x * (m + 1) + 1 + x) as usize;
    let value = Reply::Value(1000 + write(x));
    let others: Vec<u32> = (0..x).map(read).collect();
    let all: Vec<u32> = (0..m).flat_map(|cell| [read(cell), write(cell)]).collect();
    vec![
        state().step("begin", BEGIN, Reply::Ok),
        state().begun(&[]).step("first read, none before it", read(x), value),
        state().begun(&others).step("first read, all others before it", read(x), value),
        state().begun(&[read(x)]).step("repeated read", read(x), value),
        state().with(own, 0).begun(&[]).step("first read, unset", read(x), Reply::Unset),
        state().with(own, 0).begun(&[read(x)]).step("repeated read, unset", read(x), Reply::Unset),
        state().begun(&[]).step("write", write(x), Reply::Ok),
        state().begun(&[read(x), write(x)]).step("try, commits 1 cell", TRY, Reply::Commit),
        state().begun(&all).step("try, commits m cells", TRY, Reply::Commit),
        state().begun(&[read(0)]).commit(&[0, x]).step("read, abort 1", read(x), Reply::abort(1, 0)),
        state().begun(&[read(x)]).commit(&[x]).step("try, abort 2", TRY, Reply::abort(2, x as usize)),
        state().begun(&[write(x)]).with(own, 65_535).step("try, abort 3", TRY, Reply::abort(3, x as usize)),
        state().begun(&all).step("give up, abort 5", GIVE_UP, Reply::GAVE_UP),
    ]
}

/// Steps that are refused.
fn refused(lived: &State) -> Vec<Row> {
    let state = || lived.clone();
    let (m, n) = (lived.m, lived.n);
    let last_number = lived.words.len() - 1 - m as usize;
    let mut short = state();
    short.words.pop();
    let mut rows = vec![
        state().with(last_number, TOO_LARGE).step("refused 10, the last number too large", BEGIN, Reply::Refused(10)),
        state().with(3, TOO_LARGE).step("refused 10, the first number too large", BEGIN, Reply::Refused(10)),
        short.step("refused 10, a word too few", BEGIN, Reply::Refused(10)),
        state().row("refused 11", Call::Step { handler: n, code: BEGIN, value: 7 }, Reply::Refused(11).packed()),
    ];
    // With 32 cells every code of a read or a write names one, so there is no such refusal.
    if m < 32 {
        rows.push(state().begun(&[]).step("refused 12", read(m), Reply::Refused(12)));
    }
    rows.push(state().begun(&[]).step("refused 13", BEGIN, Reply::Refused(13)));
    rows.push(state().step("refused 14", TRY, Reply::Refused(14)));
    rows.push(state().step("refused 15", 3, Reply::Refused(15)));
    rows
}

/// Openings, done and refused.
fn opened(lived: &State) -> Vec<Row> {
    let state = || lived.clone();
    let (m, n) = (lived.m, lived.n);
    let mut short = state();
    short.words.pop();
    vec![
        state().row("opening", Call::Open { m, n }, 0),
        state().row("opening, refused 20", Call::Open { m, n: 17 }, 20),
        short.row("opening, refused 21", Call::Open { m, n }, 21),
    ]
}

/// All rows, size by size.
pub fn all() -> Vec<Row> {
    let mut rows = Vec::new();
    for (m, n) in SIZES {
        let lived = State::lived(m, n);
        rows.extend(taken(&lived));
        rows.extend(refused(&lived));
        rows.extend(opened(&lived));
    }
    rows
}
