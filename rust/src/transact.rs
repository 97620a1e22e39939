//! Closures as transactions: begun anew after an abort, up to a bound, over whatever takes the steps.
use crate::aborts::{Abort, Reason};
use crate::refusals::Refusal;
use crate::replies::Reply;
use crate::step::Step;
use std::error::Error;
use std::fmt;

/// Why a read or a write within a closure gave nothing. Handed on with `?`, it leads out of the closure.
///
/// ```
/// use zidlemowo::{Abort, Stopped};
///
/// let torn = Abort::Torn { cell: 0 };
/// assert_eq!(Stopped::Aborted(torn).to_string(), torn.to_string());
/// ```
#[derive(Clone, Copy, Debug, PartialEq, Eq, Hash)]
pub enum Stopped {
    /// The transaction is ended; whatever the closure gives back, it counts as aborted.
    Aborted(Abort),
    /// The step was refused and nothing is changed; the closure may go on, or give up by handing this on.
    Refused(Refusal),
}

impl fmt::Display for Stopped {
    fn fmt(&self, to: &mut fmt::Formatter<'_>) -> fmt::Result {
        match self {
            Stopped::Aborted(abort) => abort.fmt(to),
            Stopped::Refused(refusal) => refusal.fmt(to),
        }
    }
}

impl Error for Stopped {}

/// Why a closure's transaction was not committed, and how its handler is left.
///
/// ```
/// use zidlemowo::{Abort, NotCommitted, Stopped};
///
/// let not_committed = NotCommitted::<Stopped>::Aborted(Abort::Spent { cell: 0 });
/// assert_eq!(not_committed.to_string(), Abort::Spent { cell: 0 }.to_string());
/// ```
#[derive(Clone, Copy, Debug, PartialEq, Eq, Hash)]
pub enum NotCommitted<E> {
    /// Every attempt was aborted, the last for this reason. The handler is idle and no cell is changed.
    Aborted(Abort),
    /// The begin or the try was refused: the handler's phase was not the one asked for, or there is no such handler or register.
    Refused(Refusal),
    /// The closure gave up with this error. The handler is idle and no cell is changed.
    GaveUp(E),
}

impl<E: fmt::Display> fmt::Display for NotCommitted<E> {
    fn fmt(&self, to: &mut fmt::Formatter<'_>) -> fmt::Result {
        match self {
            NotCommitted::Aborted(abort) => abort.fmt(to),
            NotCommitted::Refused(refusal) => refusal.fmt(to),
            NotCommitted::GaveUp(error) => write!(to, "given up: {error}"),
        }
    }
}

impl<E: fmt::Debug + fmt::Display> Error for NotCommitted<E> {}

/// Takes the step of a handler.
type Take<'t> = dyn FnMut(u32, Step) -> Reply + 't;

/// An open transaction, as the closure has it. After an abort it takes no further step. Where the closure ends with an error or a panic,
/// it is given up.
///
/// ```
/// use zidlemowo::{Register, Stopped, Transaction};
///
/// fn swap(transaction: &mut Transaction<'_>) -> Result<(), Stopped> {
///     let (first, second) = (transaction.read(0)?, transaction.read(1)?);
///     transaction.write(0, second.unwrap_or(0))?;
///     transaction.write(1, first.unwrap_or(0))
/// }
///
/// assert_eq!(Register::new(2, 1)?.transact(0, 3, swap), Ok(()));
/// # Ok::<(), zidlemowo::Refusal>(())
/// ```
pub struct Transaction<'t> {
    take: &'t mut Take<'t>,
    handler: u32,
    phase: Phase,
}

/// How far a transaction is.
#[derive(Clone, Copy, Debug, PartialEq, Eq)]
enum Phase {
    Open,
    Aborted(Abort),
    Tried,
}

impl fmt::Debug for Transaction<'_> {
    fn fmt(&self, to: &mut fmt::Formatter<'_>) -> fmt::Result {
        to.debug_struct("Transaction").field("handler", &self.handler).field("phase", &self.phase).finish_non_exhaustive()
    }
}

impl Transaction<'_> {
    /// Reads a cell: its value, or none where no commit has written the cell, and neither has this transaction.
    ///
    /// ```
    /// # let mut register = zidlemowo::Register::new(2, 1)?;
    /// assert_eq!(register.transact(0, 1, |transaction| transaction.read(1)), Ok(None));
    /// # Ok::<(), zidlemowo::Refusal>(())
    /// ```
    pub fn read(&mut self, cell: u32) -> Result<Option<u32>, Stopped> {
        self.step(Step::Read(cell))
    }

    /// Writes a cell.
    ///
    /// ```
    /// # let mut register = zidlemowo::Register::new(2, 1)?;
    /// assert_eq!(register.transact(0, 1, |transaction| transaction.write(1, 6)), Ok(()));
    /// assert_eq!(register.transact(0, 1, |transaction| transaction.read(1)), Ok(Some(6)));
    /// # Ok::<(), zidlemowo::Refusal>(())
    /// ```
    pub fn write(&mut self, cell: u32, value: u32) -> Result<(), Stopped> {
        self.step(Step::Write(cell, value)).map(|_| ())
    }

    fn step(&mut self, step: Step) -> Result<Option<u32>, Stopped> {
        if let Phase::Aborted(abort) = self.phase {
            return Err(Stopped::Aborted(abort));
        }
        let outcome = (self.take)(self.handler, step).outcome().map_err(Stopped::Refused)?;
        outcome.map_err(|abort| {
            self.phase = Phase::Aborted(abort);
            Stopped::Aborted(abort)
        })
    }

    /// Tries to commit.
    fn attempt(mut self) -> Result<Result<(), Abort>, Refusal> {
        self.phase = Phase::Tried;
        (self.take)(self.handler, Step::Try).outcome().map(|tried| tried.map(|_| ()))
    }
}

/// Gives up what is still open: a closure has ended with an error, or a panic is on its way through here. Otherwise a later try of the
/// handler would commit what the closure wrote.
impl Drop for Transaction<'_> {
    fn drop(&mut self) {
        if self.phase == Phase::Open {
            // Where the step is refused, someone else has ended the transaction already.
            (self.take)(self.handler, Step::GiveUp);
        }
    }
}

/// Begins a transaction, runs the closure in it, tries to commit; after an abort everything anew, up to the bound.
pub(crate) fn transact<T, E>(
    take: &mut Take<'_>,
    handler: u32,
    attempts: u32,
    mut closure: impl FnMut(&mut Transaction<'_>) -> Result<T, E>,
) -> Result<T, NotCommitted<E>> {
    let mut made = 0;
    loop {
        made += 1;
        match once(take, handler, &mut closure)? {
            Ok(value) => return Ok(value),
            // A spent cell stays spent, so starting over would end the same way.
            Err(abort) if abort.reason() == Reason::Spent || made >= attempts => return Err(NotCommitted::Aborted(abort)),
            Err(_) => (),
        }
    }
}

/// Begins a transaction, runs the closure in it, and tries to commit if the closure has neither given up nor been aborted.
fn once<T, E>(
    take: &mut Take<'_>,
    handler: u32,
    closure: &mut impl FnMut(&mut Transaction<'_>) -> Result<T, E>,
) -> Result<Result<T, Abort>, NotCommitted<E>> {
    take(handler, Step::Begin).outcome().map(|_| ()).map_err(NotCommitted::Refused)?;
    let mut transaction = Transaction { take, handler, phase: Phase::Open };
    let given = closure(&mut transaction);
    // An abort counts whatever the closure made of it: there is nothing left to commit or to give up.
    if let Phase::Aborted(abort) = transaction.phase {
        return Ok(Err(abort));
    }
    let value = given.map_err(NotCommitted::GaveUp)?;
    let tried = transaction.attempt().map_err(NotCommitted::Refused)?;
    Ok(tried.map(|()| value))
}
