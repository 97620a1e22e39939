//! The proved transactional register as a safe library: cells that handlers read and change in transactions, one step at a time.
//!
//! Every reply and every word left behind is given by the proved functions of the static library; this crate adds types, and the
//! order of steps in [`Register::transact`]. It can be handed any words, handler, cell and code: the worst answer is a [`Refusal`].
//!
//! ```
//! use zidlemowo::{Register, Stopped};
//!
//! // Two slots of the depot, and two handlers: the desk is handler 0, a feed is handler 1.
//! let mut register = Register::new(2, 2)?;
//!
//! // The feed puts mast 17 into slot 0, step by step.
//! register.begin(1)?;
//! register.write(1, 0, 17)?;
//! assert_eq!(register.try_commit(1), Ok(Ok(())));
//!
//! // The desk moves it to slot 1, as one transaction of at most three attempts.
//! let moved = register.transact(0, 3, |transaction| -> Result<Option<u32>, Stopped> {
//!     let Some(mast) = transaction.read(0)? else { return Ok(None) };
//!     transaction.write(0, 0)?;
//!     transaction.write(1, mast)?;
//!     Ok(Some(mast))
//! })?;
//! assert_eq!(moved, Some(17));
//! # Ok::<(), Box<dyn std::error::Error>>(())
//! ```
//!
//! A read of a cell that no commit has written finds no value, which is not the value 0: it gives `None`, and a cell that was written as 0
//! `Some(0)`.
//!
//! A refusal is an error: nothing was changed. An abort is a normal outcome of a read or a try: it ends the transaction, of which
//! nothing is kept. So a step that can abort gives a result within a result, as in `Ok(Err(Abort::Overtaken { cell: 0 }))`: the abort names the
//! lowest of the cells that stood in the way.
//!
//! # A transaction that is given up
//!
//! Where a closure gives up, with an error or a panic, its transaction is ended by [`Step::GiveUp`]: nothing of it is kept, no cell is
//! changed, and the handler may begin anew.
//!
//! ```
//! use zidlemowo::{NotCommitted, Refusal, Register};
//!
//! let mut register = Register::new(2, 1)?;
//! let given_up = register.transact(0, 3, |transaction| -> Result<(), &str> {
//!     transaction.write(0, 17).map_err(|_| "stopped")?;
//!     Err("the mast is off the air")
//! });
//! assert_eq!(given_up, Err(NotCommitted::GaveUp("the mast is off the air")));
//! assert_eq!(register.try_commit(0), Err(Refusal::NotOpen));
//! assert_eq!(register.transact(0, 1, |transaction| transaction.read(0)), Ok(None));
//! # Ok::<(), Refusal>(())
//! ```
//!
//! A transaction that was begun step by step stays open until a step ends it, and a later [`Register::try_commit`] commits what it
//! wrote: whoever abandons one calls [`Register::give_up`].
//!
//! # Many steps in one call
//!
//! Before each step all words of the register are tested. A burst of steps is far cheaper as a [`Row`], for which that is done once:
//!
//! ```
//! use zidlemowo::{Register, Reply, Row, Step};
//!
//! let mut register = Register::new(2, 2)?;
//! let burst: Row = (0..3).flat_map(|mast| [(1, Step::Begin), (1, Step::Write(0, 17 + mast)), (1, Step::Try)]).collect();
//! let reports = register.row(&burst)?;
//! assert!(reports.iter().all(|report| matches!(report.reply, Reply::Done | Reply::Committed)));
//! # Ok::<(), zidlemowo::Refusal>(())
//! ```
//!
//! # Whole files
//!
//! A whole schedule file is run at once by [`run`] and judged by [`judge`], which give what the programs print of it. A [`Sheet`] counts
//! over many files what each handler began, committed and had aborted.
#![deny(missing_docs, unsafe_code)]

mod aborts;
#[allow(unsafe_code)]
mod raw;
mod refusals;
mod register;
mod replies;
mod row;
mod runs;
mod shared;
mod sheet;
mod step;
mod transact;

pub use aborts::{Abort, Reason};
pub use refusals::Refusal;
pub use register::{needed, Register};
pub use replies::Reply;
pub use row::{Report, Row};
pub use runs::{judge, judge_into, run, run_into, MOST_PRINTED};
pub use shared::Shared;
pub use sheet::{Counts, Sheet};
pub use step::Step;
pub use transact::{NotCommitted, Stopped, Transaction};
