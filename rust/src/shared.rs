//! A register that several threads, or several parts of a program, have at once: each step is taken alone.
use crate::refusals::Refusal;
use crate::register::Register;
use crate::replies::Reply;
use crate::row::{Report, Row};
use crate::step::Step;
use crate::transact::{self, NotCommitted, Transaction};
use std::sync::{Mutex, MutexGuard, PoisonError};

/// A register behind a lock that is held for one step, or one row of steps, at a time, so that handlers take turns.
///
/// ```
/// use zidlemowo::{Register, Shared, Stopped};
///
/// let shared = Shared::new(Register::new(1, 4)?);
/// std::thread::scope(|scope| {
///     for handler in 0..4 {
///         let shared = &shared;
///         scope.spawn(move || {
///             let raise = |transaction: &mut zidlemowo::Transaction<'_>| -> Result<(), Stopped> {
///                 let value = transaction.read(0)?;
///                 transaction.write(0, value.unwrap_or(0) + 1)
///             };
///             for _ in 0..100 {
///                 shared.transact(handler, u32::MAX, raise).unwrap();
///             }
///         });
///     }
/// });
/// assert_eq!(shared.transact(0, 1, |transaction| transaction.read(0)), Ok(Some(400)));
/// # Ok::<(), zidlemowo::Refusal>(())
/// ```
#[derive(Debug)]
pub struct Shared<'a> {
    register: Mutex<Register<'a>>,
}

impl<'a> Shared<'a> {
    /// Shares a register.
    ///
    /// ```
    /// # use zidlemowo::{Register, Shared};
    /// let shared = Shared::new(Register::new(2, 2)?);
    /// # drop(shared);
    /// # Ok::<(), zidlemowo::Refusal>(())
    /// ```
    pub fn new(register: Register<'a>) -> Shared<'a> {
        Shared { register: Mutex::new(register) }
    }

    /// The register again, shared no longer.
    ///
    /// ```
    /// # use zidlemowo::{Register, Shared};
    /// let shared = Shared::new(Register::new(2, 1)?);
    /// assert_eq!(shared.into_register().words().len(), 17);
    /// # Ok::<(), zidlemowo::Refusal>(())
    /// ```
    pub fn into_register(self) -> Register<'a> {
        self.register.into_inner().unwrap_or_else(PoisonError::into_inner)
    }

    /// The register for as long as the guard is held, when no one else takes a step: whoever holds it and calls another method of
    /// the same `Shared` waits for itself.
    ///
    /// ```
    /// # use zidlemowo::{Register, Shared};
    /// let shared = Shared::new(Register::new(2, 1)?);
    /// assert_eq!(shared.lock().begin(0), Ok(()));
    /// # Ok::<(), zidlemowo::Refusal>(())
    /// ```
    pub fn lock(&self) -> MutexGuard<'_, Register<'a>> {
        // A panic of another holder leaves a register all the same: each step is taken whole.
        self.register.lock().unwrap_or_else(PoisonError::into_inner)
    }

    /// Takes a step.
    ///
    /// ```
    /// # use zidlemowo::{Register, Shared};
    /// use zidlemowo::{Reply, Step};
    ///
    /// let shared = Shared::new(Register::new(2, 1)?);
    /// assert_eq!(shared.take(0, Step::Begin), Reply::Done);
    /// # Ok::<(), zidlemowo::Refusal>(())
    /// ```
    pub fn take(&self, handler: u32, step: Step) -> Reply {
        self.lock().take(handler, step)
    }

    /// Takes a row of steps, as [`Register::row`] does: no other step comes between them.
    ///
    /// ```
    /// # use zidlemowo::{Register, Shared};
    /// use zidlemowo::{Reply, Row, Step};
    ///
    /// let shared = Shared::new(Register::new(2, 1)?);
    /// let reports = shared.row(&Row::from([(0, Step::Begin), (0, Step::Try)]))?;
    /// assert_eq!(reports[1].reply, Reply::Committed);
    /// # Ok::<(), zidlemowo::Refusal>(())
    /// ```
    pub fn row(&self, row: &Row) -> Result<Vec<Report>, Refusal> {
        self.lock().row(row)
    }

    /// Runs a closure as one transaction, as [`Register::transact`] does; but other handlers may step while it runs, so that it
    /// may be aborted for any reason. Each handler is to be used by one closure at a time; a second one is refused with 13. Where the
    /// closure gives up or panics, its transaction is given up.
    ///
    /// ```
    /// # use zidlemowo::{Register, Shared};
    /// use zidlemowo::{Step, Stopped};
    ///
    /// let shared = Shared::new(Register::new(2, 2)?);
    /// let mut attempts = 0;
    /// let found = shared.transact(0, 3, |transaction| -> Result<Option<u32>, Stopped> {
    ///     attempts += 1;
    ///     let found = transaction.read(0)?;
    ///     if attempts == 1 {
    ///         // Another handler commits meanwhile; what was found is no longer so.
    ///         for step in [Step::Begin, Step::Write(0, 5), Step::Try] {
    ///             shared.take(1, step);
    ///         }
    ///     }
    ///     Ok(found)
    /// });
    /// assert_eq!((found, attempts), (Ok(Some(5)), 2));
    /// # Ok::<(), zidlemowo::Refusal>(())
    /// ```
    pub fn transact<T, E>(
        &self,
        handler: u32,
        attempts: u32,
        closure: impl FnMut(&mut Transaction<'_>) -> Result<T, E>,
    ) -> Result<T, NotCommitted<E>> {
        transact::transact(&mut |handler, step| self.take(handler, step), handler, attempts, closure)
    }
}
