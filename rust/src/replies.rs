//! What a step came to: the replies, their numbers and their texts, as `docs/REPLIES.md` has them.
use crate::aborts::{Abort, Reason};
use crate::refusals::Refusal;
use std::fmt;

/// What a step came to. It is displayed as the runner prints it; [`text`](Reply::text) says it in words.
///
/// ```
/// use zidlemowo::{Abort, Refusal, Reply};
///
/// assert_eq!(Reply::Value(5).to_string(), "value 5");
/// assert_eq!(Reply::Unset.to_string(), "unset");
/// assert_eq!(Reply::Aborted(Abort::Torn { cell: 0 }).to_string(), "abort 1 cell 0");
/// assert_eq!(Reply::Aborted(Abort::GaveUp).to_string(), "abort 5");
/// assert_eq!(Reply::Refused(Refusal::NoCell).to_string(), "refused 12");
/// ```
#[derive(Clone, Copy, Debug, PartialEq, Eq, Hash)]
pub enum Reply {
    /// A begin or a write was done.
    Done,
    /// What a read found.
    Value(u32),
    /// Commit.
    Committed,
    /// Abort: the transaction is ended, nothing of it is kept.
    Aborted(Abort),
    /// Refused: nothing is changed.
    Refused(Refusal),
    /// What a read found in a cell that no commit had written, nor its own transaction. A cell that was written as 0 is `Value(0)`.
    Unset,
}

impl Reply {
    /// The number of the reply's kind.
    ///
    /// ```
    /// assert_eq!(zidlemowo::Reply::Committed.kind(), 2);
    /// ```
    pub fn kind(self) -> u32 {
        match self {
            Reply::Done => 0,
            Reply::Value(_) => 1,
            Reply::Committed => 2,
            Reply::Aborted(_) => 3,
            Reply::Refused(_) => 4,
            Reply::Unset => 5,
        }
    }

    /// The value, the reason's number or the refusal's; 0 where there is none. It is the fourth word of a [report](crate::Report).
    ///
    /// ```
    /// use zidlemowo::{Abort, Refusal, Reply};
    ///
    /// assert_eq!(Reply::Refused(Refusal::NotOpen).detail(), 14);
    /// assert_eq!(Reply::Aborted(Abort::Overtaken { cell: 7 }).detail(), 2);
    /// ```
    pub fn detail(self) -> u32 {
        match self {
            Reply::Done | Reply::Committed | Reply::Unset => 0,
            Reply::Value(value) => value,
            Reply::Aborted(abort) => abort.number(),
            Reply::Refused(refusal) => refusal.number(),
        }
    }

    /// The cell that an abort names; 0 where there is none. It is the fifth word of a [report](crate::Report).
    ///
    /// ```
    /// use zidlemowo::{Abort, Reply};
    ///
    /// assert_eq!(Reply::Aborted(Abort::Overtaken { cell: 7 }).cell(), 7);
    /// assert_eq!(Reply::Value(7).cell(), 0);
    /// ```
    pub fn cell(self) -> u32 {
        match self {
            Reply::Aborted(abort) => abort.cell().unwrap_or(0),
            Reply::Done | Reply::Value(_) | Reply::Committed | Reply::Refused(_) | Reply::Unset => 0,
        }
    }

    /// The reply in words, without its numbers.
    ///
    /// ```
    /// use zidlemowo::{Abort, Reason, Reply};
    ///
    /// assert_eq!(Reply::Value(5).text(), "a value was read");
    /// assert_eq!(Reply::Aborted(Abort::Torn { cell: 7 }).text(), Reason::Torn.text());
    /// ```
    pub fn text(self) -> &'static str {
        match self {
            Reply::Done => "done",
            Reply::Value(_) => "a value was read",
            Reply::Committed => "committed",
            Reply::Aborted(abort) => abort.text(),
            Reply::Refused(refusal) => refusal.text(),
            Reply::Unset => "an unset cell was read",
        }
    }

    /// The reply with that kind, that detail and that cell.
    ///
    /// ```
    /// use zidlemowo::{Abort, Reply};
    ///
    /// assert_eq!(Reply::from_numbers(3, 2, 7), Some(Reply::Aborted(Abort::Overtaken { cell: 7 })));
    /// assert_eq!(Reply::from_numbers(1, 2, 7), None);
    /// assert_eq!(Reply::from_numbers(2, 1, 0), None);
    /// ```
    pub fn from_numbers(kind: u32, detail: u32, cell: u32) -> Option<Reply> {
        match (kind, detail, cell) {
            (0, 0, 0) => Some(Reply::Done),
            (1, value, 0) => Some(Reply::Value(value)),
            (2, 0, 0) => Some(Reply::Committed),
            (3, number, cell) => Abort::new(Reason::from_number(number)?, cell).map(Reply::Aborted),
            (4, number, 0) => Refusal::from_number(number).map(Reply::Refused),
            (5, 0, 0) => Some(Reply::Unset),
            _ => None,
        }
    }

    /// The reply of the number that a step gives: the kind is the upper half, and the lower one the detail; but of an abort, whose kind is 3, it
    /// is cell · 65,536 + detail.
    pub(crate) fn of_step(packed: u64) -> Reply {
        let (kind, lower) = ((packed >> 32) as u32, packed as u32);
        let (detail, cell) = if kind == 3 { (lower & 0xffff, lower >> 16) } else { (lower, 0) };
        Reply::from_numbers(kind, detail, cell).expect("a step is replied to with numbers of docs/REPLIES.md")
    }

    /// The reply as a result: a refusal is an error, an abort an outcome, and of anything else the value is left that was read, if one was.
    ///
    /// ```
    /// use zidlemowo::{Abort, Refusal, Reply};
    ///
    /// assert_eq!(Reply::Value(0).outcome(), Ok(Ok(Some(0))));
    /// assert_eq!(Reply::Unset.outcome(), Ok(Ok(None)));
    /// assert_eq!(Reply::Committed.outcome(), Ok(Ok(None)));
    /// assert_eq!(Reply::Aborted(Abort::Torn { cell: 0 }).outcome(), Ok(Err(Abort::Torn { cell: 0 })));
    /// assert_eq!(Reply::Refused(Refusal::NoCell).outcome(), Err(Refusal::NoCell));
    /// ```
    pub fn outcome(self) -> Result<Result<Option<u32>, Abort>, Refusal> {
        match self {
            Reply::Value(value) => Ok(Ok(Some(value))),
            Reply::Done | Reply::Unset | Reply::Committed => Ok(Ok(None)),
            Reply::Aborted(abort) => Ok(Err(abort)),
            Reply::Refused(refusal) => Err(refusal),
        }
    }
}

impl fmt::Display for Reply {
    fn fmt(&self, to: &mut fmt::Formatter<'_>) -> fmt::Result {
        match self {
            Reply::Done => write!(to, "ok"),
            Reply::Value(value) => write!(to, "value {value}"),
            Reply::Committed => write!(to, "commit"),
            Reply::Aborted(abort) => abort.printed(to),
            Reply::Refused(refusal) => write!(to, "refused {}", refusal.number()),
            Reply::Unset => write!(to, "unset"),
        }
    }
}
