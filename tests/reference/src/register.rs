//! Opening a register, and its steps, over words as docs/RULES.md lays them out: m cells and n handlers, and X, Y and Z for cells, as
//! they are called there.

/// What a step comes to: an abort with its reason and the cell that it names, if it names one; a refusal with its number.
#[derive(Clone, Copy, Debug, PartialEq, Eq)]
pub enum Reply {
    Ok,
    Value(u32),
    Unset,
    Commit,
    Abort { reason: u32, cell: Option<u32> },
    Refused(u32),
}

impl Reply {
    /// The abort that a give up comes to. It names no cell.
    pub const GAVE_UP: Reply = Reply::Abort { reason: 5, cell: None };

    /// An abort that names a cell.
    pub fn abort(reason: u32, cell: usize) -> Reply {
        Reply::Abort { reason, cell: Some(cell as u32) }
    }

    /// The reply's kind, its value, reason or number, and its cell: 0 where there is none.
    pub fn numbers(self) -> [u32; 3] {
        match self {
            Reply::Ok => [0, 0, 0],
            Reply::Value(value) => [1, value, 0],
            Reply::Commit => [2, 0, 0],
            Reply::Abort { reason, cell } => [3, reason, cell.unwrap_or(0)],
            Reply::Refused(number) => [4, number, 0],
            Reply::Unset => [5, 0, 0],
        }
    }

    /// The reply in one number, as the functions for C give it: kind · 2^32, and the value or number or, of an abort, cell · 65,536 + reason.
    pub fn packed(self) -> u64 {
        let [kind, number, cell] = self.numbers().map(u64::from);
        kind << 32 | cell << 16 | number
    }
}

/// What a code stands for, with its cell.
enum Step {
    Begin,
    Try,
    GiveUp,
    Read(usize),
    Write(usize),
}

/// The step that a code stands for; none for an unknown one.
fn decode(code: u32) -> Option<Step> {
    Some(match code {
        0 => Step::Begin,
        1 => Step::Try,
        2 => Step::GiveUp,
        32..=63 => Step::Read(code as usize - 32),
        64..=95 => Step::Write(code as usize - 64),
        _ => return None,
    })
}

/// The words of a register, where m and n are in range.
pub fn length(m: u32, n: u32) -> Option<usize> {
    if !(1..=32).contains(&m) || !(1..=16).contains(&n) {
        return None;
    }
    let (m, n) = (m as usize, n as usize);
    Some(2 + m * (m + 1) + n * (3 + 3 * m))
}

/// Opens a register; 20 or 21 where it is refused.
pub fn open(words: &mut [u32], m: u32, n: u32) -> Result<(), u32> {
    let need = length(m, n).ok_or(20u32)?;
    if words.len() < need {
        return Err(21);
    }
    words[..need].fill(0);
    words[0] = m;
    words[1] = n;
    Ok(())
}

/// Whether the words are a well-formed register.
pub fn well_formed(words: &[u32]) -> bool {
    if words.len() < 2 {
        return false;
    }
    let Some(need) = length(words[0], words[1]) else {
        return false;
    };
    if words.len() < need {
        return false;
    }
    let m = words[0] as usize;
    let (cells, handlers) = words[2..need].split_at(m * (m + 1));
    let fits = |numbers: &[u32]| numbers.iter().all(|&number| number <= 65_535);
    let set_fits = |set: u32| m == 32 || set >> m == 0;
    cells.chunks(m + 1).all(|cell| fits(&cell[1..]))
        && handlers
            .chunks(3 + 3 * m)
            .all(|block| block[0] <= 1 && set_fits(block[1]) && set_fits(block[2]) && fits(&block[3..3 + 2 * m]))
}

/// One step of a handler. It is inlined so that it is measured with no call in between, as the proved one is.
#[inline(always)]
pub fn step(words: &mut [u32], handler: u32, code: u32, value: u32) -> Reply {
    if !well_formed(words) {
        return Reply::Refused(10);
    }
    formed_step(words, handler, code, value)
}

/// The same on words that are a well-formed register already: they are not tested for it. No step spoils them.
#[inline(always)]
pub fn formed_step(words: &mut [u32], handler: u32, code: u32, value: u32) -> Reply {
    let Some(step) = decode(code) else {
        return Reply::Refused(15);
    };
    let (m, n) = (words[0] as usize, words[1]);
    if handler >= n {
        return Reply::Refused(11);
    }
    if let Step::Read(x) | Step::Write(x) = step {
        if x >= m {
            return Reply::Refused(12);
        }
    }
    let (cells, blocks) = words[2..].split_at_mut(m * (m + 1));
    let long = 3 + 3 * m;
    let at = handler as usize * long;
    let mut register = Open { m, cells, block: &mut blocks[at..at + long] };
    match (register.block[0] == 1, step) {
        (true, Step::Begin) => Reply::Refused(13),
        (false, Step::Begin) => register.begin(),
        (false, _) => Reply::Refused(14),
        (true, Step::Read(x)) => register.read(x),
        (true, Step::Write(x)) => register.write(x, value),
        (true, Step::Try) => register.attempt(),
        (true, Step::GiveUp) => register.give_up(),
    }
}

/// The cells of a register and the block of one handler.
struct Open<'a> {
    m: usize,
    cells: &'a mut [u32],
    block: &'a mut [u32],
}

impl Open<'_> {
    /// A cell's words: its value and its m dependency numbers.
    fn cell(&self, x: usize) -> &[u32] {
        &self.cells[x * (self.m + 1)..(x + 1) * (self.m + 1)]
    }

    /// A cell's dependency number for itself.
    fn own_number(&self, x: usize) -> u32 {
        self.cell(x)[1 + x]
    }

    /// Whether a cell is in the read set.
    fn is_read(&self, x: usize) -> bool {
        self.block[1] >> x & 1 == 1
    }

    /// Whether a cell is in the written set.
    fn is_written(&self, x: usize) -> bool {
        self.block[2] >> x & 1 == 1
    }

    /// Begin: the sets become empty, the transaction's numbers the handler's, and the copies 0.
    fn begin(&mut self) -> Reply {
        let m = self.m;
        self.block[0] = 1;
        self.block[1] = 0;
        self.block[2] = 0;
        self.block.copy_within(3..3 + m, 3 + m);
        self.block[3 + 2 * m..].fill(0);
        Reply::Ok
    }

    /// Phase, sets, the transaction's numbers and the copies become 0.
    fn end(&mut self) {
        let m = self.m;
        self.block[..3].fill(0);
        self.block[3 + m..].fill(0);
    }

    /// What a read replies of a cell that the transaction has not written: its copy, or unset where it holds number 0 for it, whatever
    /// the copy is.
    fn found(&self, x: usize) -> Reply {
        match self.block[3 + self.m + x] {
            0 => Reply::Unset,
            _ => Reply::Value(self.block[3 + 2 * self.m + x]),
        }
    }

    /// Read: the copy of a cell that is in a set, or else a first read, which may abort and then names the lowest cell that was read too
    /// early. A cell with number 0 is unset, not 0.
    fn read(&mut self, x: usize) -> Reply {
        let m = self.m;
        if self.is_written(x) {
            return Reply::Value(self.block[3 + 2 * m + x]);
        }
        if self.is_read(x) {
            return self.found(x);
        }
        self.block[1] |= 1 << x;
        self.block[3 + m + x] = self.own_number(x);
        if let Some(y) = (0..m).find(|&y| self.is_read(y) && self.block[3 + m + y] < self.cell(x)[1 + y]) {
            self.end();
            return Reply::abort(1, y);
        }
        for y in 0..m {
            if !self.is_read(y) {
                self.block[3 + m + y] = self.block[3 + m + y].max(self.cell(x)[1 + y]);
            }
        }
        self.block[3 + 2 * m + x] = self.cell(x)[0];
        self.found(x)
    }

    /// Write: the copy becomes the value.
    fn write(&mut self, x: usize, value: u32) -> Reply {
        self.block[3 + 2 * self.m + x] = value;
        self.block[2] |= 1 << x;
        Reply::Ok
    }

    /// Try: abort 2 where a read cell has another number now, abort 3 where a written one's number is spent, or else a commit. Each abort
    /// names the lowest such cell.
    fn attempt(&mut self) -> Reply {
        let m = self.m;
        if let Some(z) = (0..m).find(|&z| self.is_read(z) && self.block[3 + m + z] != self.own_number(z)) {
            self.end();
            return Reply::abort(2, z);
        }
        if let Some(z) = (0..m).find(|&z| self.is_written(z) && self.own_number(z) == 65_535) {
            self.end();
            return Reply::abort(3, z);
        }
        for x in 0..m {
            if self.is_written(x) {
                self.block[3 + m + x] = self.own_number(x) + 1;
            }
        }
        for x in 0..m {
            if self.is_written(x) {
                let start = x * (m + 1);
                self.cells[start] = self.block[3 + 2 * m + x];
                self.cells[start + 1..start + 1 + m].copy_from_slice(&self.block[3 + m..3 + 2 * m]);
            }
        }
        self.block.copy_within(3 + m..3 + 2 * m, 3);
        self.end();
        Reply::Commit
    }

    /// Give up: the transaction is ended, whatever it read and wrote; cells and the handler's numbers stay.
    fn give_up(&mut self) -> Reply {
        self.end();
        Reply::GAVE_UP
    }
}

#[cfg(test)]
mod tests;
