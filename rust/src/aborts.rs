//! Why a transaction was aborted, and the cell that the abort names: numbers and texts, as `docs/REPLIES.md` has them.
use std::error::Error;
use std::fmt;

/// Why a transaction was aborted, without the cell that is named: what is counted of it, and what it is called.
///
/// ```
/// use zidlemowo::{Abort, Reason};
///
/// assert_eq!(Abort::Torn { cell: 7 }.reason(), Reason::Torn);
/// ```
#[derive(Clone, Copy, Debug, PartialEq, Eq, Hash)]
pub enum Reason {
    /// A first read: the cell depends on a later version of a cell already read.
    Torn = 1,
    /// A try: a cell that was read has another number now.
    Overtaken = 2,
    /// A try, no cell overtaken: a written cell's number stands at 65,535. Every further attempt to write that cell ends so too.
    Spent = 3,
    /// A give up: the handler has ended its transaction itself.
    GaveUp = 5,
}

impl Reason {
    /// Every reason of an abort.
    ///
    /// ```
    /// assert_eq!(zidlemowo::Reason::ALL.len(), 4);
    /// ```
    pub const ALL: [Reason; 4] = [Reason::Torn, Reason::Overtaken, Reason::Spent, Reason::GaveUp];

    /// The reason's number.
    ///
    /// ```
    /// assert_eq!(zidlemowo::Reason::Torn.number(), 1);
    /// ```
    pub fn number(self) -> u32 {
        self as u32
    }

    /// The reason with that number. None has 4.
    ///
    /// ```
    /// use zidlemowo::Reason;
    ///
    /// assert_eq!(Reason::from_number(3), Some(Reason::Spent));
    /// assert_eq!(Reason::from_number(4), None);
    /// ```
    pub fn from_number(number: u32) -> Option<Reason> {
        Reason::ALL.into_iter().find(|reason| reason.number() == number)
    }

    /// The reason in words, without its number.
    ///
    /// ```
    /// assert_eq!(zidlemowo::Reason::Overtaken.text(), "a cell that was read has been written since");
    /// ```
    pub fn text(self) -> &'static str {
        match self {
            Reason::Torn => "this cell depends on a newer version of a cell that was read before",
            Reason::Overtaken => "a cell that was read has been written since",
            Reason::Spent => "a cell to be written has no version number left",
            Reason::GaveUp => "the handler gave the transaction up",
        }
    }
}

/// An abort: why the transaction was ended, and at which cell. Nothing of it is kept. Where several cells meet the reason's condition, the
/// lowest-numbered one is named.
///
/// ```
/// use zidlemowo::Abort;
///
/// assert_eq!(Abort::Overtaken { cell: 1 }.to_string(), "abort 2 cell 1 (a cell that was read has been written since)");
/// assert_eq!(Abort::GaveUp.to_string(), "abort 5 (the handler gave the transaction up)");
/// ```
#[derive(Clone, Copy, Debug, PartialEq, Eq, Hash)]
pub enum Abort {
    /// [`Reason::Torn`].
    Torn {
        /// The cell already read, of which the one to be read depends on a later version. It is never the one to be read.
        cell: u32,
    },
    /// [`Reason::Overtaken`].
    Overtaken {
        /// The cell that was read and has another number now.
        cell: u32,
    },
    /// [`Reason::Spent`].
    Spent {
        /// The written cell whose number stands at 65,535.
        cell: u32,
    },
    /// [`Reason::GaveUp`]. It names no cell.
    GaveUp,
}

impl Abort {
    /// The reason.
    ///
    /// ```
    /// use zidlemowo::{Abort, Reason};
    ///
    /// assert_eq!(Abort::Spent { cell: 0 }.reason(), Reason::Spent);
    /// ```
    pub fn reason(self) -> Reason {
        match self {
            Abort::Torn { .. } => Reason::Torn,
            Abort::Overtaken { .. } => Reason::Overtaken,
            Abort::Spent { .. } => Reason::Spent,
            Abort::GaveUp => Reason::GaveUp,
        }
    }

    /// The cell that is named, if one is.
    ///
    /// ```
    /// use zidlemowo::Abort;
    ///
    /// assert_eq!(Abort::Torn { cell: 0 }.cell(), Some(0));
    /// assert_eq!(Abort::GaveUp.cell(), None);
    /// ```
    pub fn cell(self) -> Option<u32> {
        match self {
            Abort::Torn { cell } | Abort::Overtaken { cell } | Abort::Spent { cell } => Some(cell),
            Abort::GaveUp => None,
        }
    }

    /// The abort with that reason and that cell. The cell is below 32, and 0 where none is named.
    ///
    /// ```
    /// use zidlemowo::{Abort, Reason};
    ///
    /// assert_eq!(Abort::new(Reason::Torn, 31), Some(Abort::Torn { cell: 31 }));
    /// assert_eq!(Abort::new(Reason::Torn, 32), None);
    /// assert_eq!(Abort::new(Reason::GaveUp, 1), None);
    /// ```
    pub fn new(reason: Reason, cell: u32) -> Option<Abort> {
        match (reason, cell) {
            (Reason::Torn, 0..=31) => Some(Abort::Torn { cell }),
            (Reason::Overtaken, 0..=31) => Some(Abort::Overtaken { cell }),
            (Reason::Spent, 0..=31) => Some(Abort::Spent { cell }),
            (Reason::GaveUp, 0) => Some(Abort::GaveUp),
            _ => None,
        }
    }

    /// The number of the reason.
    ///
    /// ```
    /// assert_eq!(zidlemowo::Abort::Torn { cell: 7 }.number(), 1);
    /// ```
    pub fn number(self) -> u32 {
        self.reason().number()
    }

    /// The reason in words, without its number and the cell.
    ///
    /// ```
    /// assert_eq!(zidlemowo::Abort::Overtaken { cell: 7 }.text(), "a cell that was read has been written since");
    /// ```
    pub fn text(self) -> &'static str {
        self.reason().text()
    }

    /// As the runner prints it: `abort 1 cell 0`, or `abort 5`.
    pub(crate) fn printed(self, to: &mut fmt::Formatter<'_>) -> fmt::Result {
        write!(to, "abort {}", self.number())?;
        self.cell().map_or(Ok(()), |cell| write!(to, " cell {cell}"))
    }
}

impl fmt::Display for Abort {
    fn fmt(&self, to: &mut fmt::Formatter<'_>) -> fmt::Result {
        self.printed(to)?;
        write!(to, " ({})", self.text())
    }
}

impl Error for Abort {}
