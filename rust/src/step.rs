//! The five steps and their codes, which are those of docs/CODES.md.

/// A step of a handler.
///
/// ```
/// use zidlemowo::Step;
///
/// assert_eq!(Step::Begin.code(), 0);
/// assert_eq!(Step::Try.code(), 1);
/// assert_eq!(Step::GiveUp.code(), 2);
/// assert_eq!(Step::Read(31).code(), 63);
/// assert_eq!(Step::Write(0, 5).code(), 64);
/// ```
#[derive(Clone, Copy, Debug, PartialEq, Eq, Hash)]
pub enum Step {
    /// Begin a transaction.
    Begin,
    /// Read a cell.
    Read(u32),
    /// Write into a cell a value.
    Write(u32, u32),
    /// Try to commit.
    Try,
    /// Give up: end the transaction, of which nothing is kept.
    GiveUp,
}

/// How many cells have codes.
const CODED: u32 = 32;

impl Step {
    /// Stands for no step, being above 255: what a cell that no code names, 32 or above, gets. It is refused with 15.
    pub const NO_CODE: u32 = 256;

    /// The code that stands for the step; [`NO_CODE`](Step::NO_CODE) where it names a cell that no register has.
    ///
    /// ```
    /// use zidlemowo::Step;
    ///
    /// // 32 + 32 would be the code of a write.
    /// assert_eq!(Step::Read(32).code(), Step::NO_CODE);
    /// ```
    pub fn code(self) -> u32 {
        match self {
            Step::Begin => 0,
            Step::Try => 1,
            Step::GiveUp => 2,
            Step::Read(cell) if cell < CODED => 32 + cell,
            Step::Write(cell, _) if cell < CODED => 64 + cell,
            Step::Read(_) | Step::Write(..) => Step::NO_CODE,
        }
    }

    /// The value that is written; 0 for a step that writes none.
    ///
    /// ```
    /// assert_eq!(zidlemowo::Step::Write(0, 5).value(), 5);
    /// ```
    pub fn value(self) -> u32 {
        match self {
            Step::Write(_, value) => value,
            Step::Begin | Step::Read(_) | Step::Try | Step::GiveUp => 0,
        }
    }
}

#[cfg(test)]
mod tests {
    use super::*;
    use crate::{Refusal, Register, Reply};
    use std::collections::BTreeSet;

    #[test]
    fn the_codes_are_those_that_the_register_knows() {
        let cells = (0..CODED).flat_map(|cell| [Step::Read(cell), Step::Write(cell, 7)]);
        let codes: BTreeSet<u32> = cells.chain([Step::Begin, Step::Try, Step::GiveUp]).map(Step::code).collect();
        assert_eq!(codes.len(), 67);
        for code in (0..300).chain([u32::MAX]) {
            let reply = Register::new(32, 1).expect("in range").step(0, code, 0);
            assert_eq!(reply != Reply::Refused(Refusal::UnknownStep), codes.contains(&code), "code {code}");
        }
    }

    #[test]
    fn no_code_stands_for_a_cell_that_no_register_has() {
        for cell in [32, 33, 63, 64, u32::MAX - 32, u32::MAX] {
            assert_eq!((Step::Read(cell).code(), Step::Write(cell, 7).code()), (Step::NO_CODE, Step::NO_CODE), "cell {cell}");
        }
    }
}
