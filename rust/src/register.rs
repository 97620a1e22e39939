//! A register over its own words or over words that are lent, and its steps.
use crate::aborts::Abort;
use crate::raw;
use crate::refusals::Refusal;
use crate::replies::Reply;
use crate::row::{Report, Row};
use crate::step::Step;
use crate::transact::{self, NotCommitted, Transaction};

/// The words that a register of so many cells and handlers needs; none where either is out of range.
///
/// ```
/// assert_eq!(zidlemowo::needed(2, 1), Some(17));
/// assert_eq!(zidlemowo::needed(33, 1), None);
/// ```
pub fn needed(cells: u32, handlers: u32) -> Option<usize> {
    match raw::length(cells, handlers) {
        0 => None,
        count => Some(count as usize),
    }
}

#[derive(Debug)]
enum Words<'a> {
    Own(Vec<u32>),
    Lent(&'a mut [u32]),
}

/// A register of 1 to 32 cells and 1 to 16 handlers.
///
/// Its whole state is its words, laid out as `docs/LAYOUT.md` says; nothing is kept beside them. An open transaction is among them:
/// dropping a closure, a guard or a register that borrows its words ends none, and what it wrote is committed by the next
/// [`try_commit`](Register::try_commit) of its handler. The [crate's page](crate#a-transaction-that-is-given-up) says what to do.
#[derive(Debug)]
pub struct Register<'a> {
    words: Words<'a>,
}

impl Register<'static> {
    /// A fresh register with words of its own; refused with 20 where cells or handlers are out of range.
    ///
    /// ```
    /// use zidlemowo::{Refusal, Register};
    ///
    /// assert_eq!(Register::new(2, 1)?.words().len(), 17);
    /// assert_eq!(Register::new(33, 1).unwrap_err(), Refusal::OutOfRange);
    /// # Ok::<(), Refusal>(())
    /// ```
    pub fn new(cells: u32, handlers: u32) -> Result<Register<'static>, Refusal> {
        let mut words = vec![0; needed(cells, handlers).unwrap_or(0)];
        Refusal::of_number(raw::open(&mut words, cells, handlers))?;
        Ok(Register { words: Words::Own(words) })
    }
}

impl<'a> Register<'a> {
    /// Opens a fresh register in words that are lent; words behind it stay as they are. Refused with 20 or 21, the words unchanged.
    ///
    /// ```
    /// use zidlemowo::{Refusal, Register};
    ///
    /// let mut words = [7; 18];
    /// let register = Register::open(&mut words, 2, 1)?;
    /// assert_eq!(register.words()[..3], [2, 1, 0]);
    /// assert_eq!(words[17], 7);
    /// assert_eq!(Register::open(&mut words[..16], 2, 1).unwrap_err(), Refusal::TooShort);
    /// # Ok::<(), Refusal>(())
    /// ```
    pub fn open(words: &'a mut [u32], cells: u32, handlers: u32) -> Result<Register<'a>, Refusal> {
        Refusal::of_number(raw::open(words, cells, handlers))?;
        Ok(Register::resume(words))
    }

    /// Takes words that are a register already. They are not looked at here: where they are none, every step is refused with 10.
    ///
    /// ```
    /// use zidlemowo::{Refusal, Register};
    ///
    /// let mut first = Register::new(1, 1)?;
    /// first.begin(0)?;
    /// first.write(0, 0, 5)?;
    ///
    /// let mut kept = first.words().to_vec();
    /// let mut second = Register::resume(&mut kept);
    /// assert_eq!(second.read(0, 0), Ok(Ok(Some(5))));
    /// assert_eq!(Register::resume(&mut []).begin(0), Err(Refusal::NotWellFormed));
    /// # Ok::<(), Refusal>(())
    /// ```
    pub fn resume(words: &'a mut [u32]) -> Register<'a> {
        Register { words: Words::Lent(words) }
    }

    /// The words, with those behind the register.
    ///
    /// ```
    /// assert_eq!(zidlemowo::Register::new(1, 1)?.words(), [1, 1, 0, 0, 0, 0, 0, 0, 0, 0]);
    /// # Ok::<(), zidlemowo::Refusal>(())
    /// ```
    pub fn words(&self) -> &[u32] {
        match &self.words {
            Words::Own(words) => words,
            Words::Lent(words) => words,
        }
    }

    /// Takes the step that a code stands for, whatever the code; `value` matters to a write alone.
    ///
    /// ```
    /// use zidlemowo::{Refusal, Register, Reply};
    ///
    /// let mut register = Register::new(2, 1)?;
    /// assert_eq!(register.step(0, 0, 0), Reply::Done);
    /// assert_eq!(register.step(0, 64, 5), Reply::Done);
    /// assert_eq!(register.step(0, 32, 0), Reply::Value(5));
    /// assert_eq!(register.step(0, 255, 0), Reply::Refused(Refusal::UnknownStep));
    /// # Ok::<(), Refusal>(())
    /// ```
    pub fn step(&mut self, handler: u32, code: u32, value: u32) -> Reply {
        Reply::of_step(raw::step(self.lent(), handler, code, value))
    }

    /// The words, to be changed by a proved function.
    fn lent(&mut self) -> &mut [u32] {
        match &mut self.words {
            Words::Own(words) => words,
            Words::Lent(words) => words,
        }
    }

    /// Takes a step. A read or a write of cell m or above is refused with 12, and of cell 32 or above, which no code names, with 15.
    ///
    /// ```
    /// use zidlemowo::{Refusal, Register, Reply, Step};
    ///
    /// let mut register = Register::new(2, 1)?;
    /// assert_eq!(register.take(0, Step::Begin), Reply::Done);
    /// assert_eq!(register.take(0, Step::Read(1)), Reply::Unset);
    /// assert_eq!(register.take(0, Step::Read(31)), Reply::Refused(Refusal::NoCell));
    /// assert_eq!(register.take(0, Step::Read(32)), Reply::Refused(Refusal::UnknownStep));
    /// assert_eq!(register.take(0, Step::Try), Reply::Committed);
    /// # Ok::<(), Refusal>(())
    /// ```
    pub fn take(&mut self, handler: u32, step: Step) -> Reply {
        self.step(handler, step.code(), step.value())
    }

    /// Takes a row of steps in one call, and gives the report of each, in their order. A step that is refused is reported too, and the
    /// row goes on. The row itself is refused with 10 where the words are no register; then no step is taken.
    ///
    /// ```
    /// use zidlemowo::{Refusal, Register, Reply, Row, Step};
    ///
    /// let mut register = Register::new(2, 1)?;
    /// let row = Row::from([(0, Step::Begin), (0, Step::Read(31)), (0, Step::Write(0, 5)), (0, Step::Try)]);
    /// let replies: Vec<Reply> = register.row(&row)?.iter().map(|report| report.reply).collect();
    /// assert_eq!(replies, [Reply::Done, Reply::Refused(Refusal::NoCell), Reply::Done, Reply::Committed]);
    /// assert_eq!(Register::resume(&mut []).row(&row), Err(Refusal::NotWellFormed));
    /// # Ok::<(), Refusal>(())
    /// ```
    pub fn row(&mut self, row: &Row) -> Result<Vec<Report>, Refusal> {
        let mut reports = vec![0; row.len() * Report::WORDS];
        self.row_into(row.words(), &mut reports, 0)?;
        Ok(Report::all(&reports))
    }

    /// Takes a row of steps as words, [three](Row::STEP_WORDS) each, and puts the reports, [five](Report::WORDS) words each, into words that
    /// are lent, from the place on. A last step that is cut short is ignored. Refused with 10, or with 42 where the reports would
    /// pass the end; then no step is taken and no word is changed.
    ///
    /// ```
    /// use zidlemowo::{Refusal, Register};
    ///
    /// let mut register = Register::new(2, 1)?;
    /// let mut reports = [9; 12];
    /// register.row_into(&[0, 0, 0, 0, 300, 0], &mut reports, 1)?;
    /// assert_eq!(reports, [9, 0, 0, 0, 0, 0, 0, 300, 4, 15, 0, 9]);
    /// assert_eq!(register.row_into(&[0, 1, 0], &mut reports, 8), Err(Refusal::NoRoom));
    /// # Ok::<(), Refusal>(())
    /// ```
    pub fn row_into(&mut self, steps: &[u32], reports: &mut [u32], place: usize) -> Result<(), Refusal> {
        Refusal::of_number(raw::row(self.lent(), steps, reports, place))
    }

    /// Begins a transaction of the handler.
    ///
    /// ```
    /// use zidlemowo::{Refusal, Register};
    ///
    /// let mut register = Register::new(2, 1)?;
    /// assert_eq!(register.begin(0), Ok(()));
    /// assert_eq!(register.begin(0), Err(Refusal::AlreadyOpen));
    /// # Ok::<(), Refusal>(())
    /// ```
    pub fn begin(&mut self, handler: u32) -> Result<(), Refusal> {
        self.take(handler, Step::Begin).outcome().map(|_| ())
    }

    /// Reads a cell in the handler's transaction: its value, or the abort that has ended the transaction. There is no value where no commit
    /// has written the cell, and neither has this transaction; later reads find what the first one found.
    ///
    /// ```
    /// use zidlemowo::{Refusal, Register};
    ///
    /// let mut register = Register::new(2, 1)?;
    /// assert_eq!(register.read(0, 1), Err(Refusal::NotOpen));
    /// register.begin(0)?;
    /// assert_eq!(register.read(0, 1), Ok(Ok(None)));
    /// register.write(0, 1, 0)?;
    /// assert_eq!(register.read(0, 1), Ok(Ok(Some(0))));
    /// # Ok::<(), Refusal>(())
    /// ```
    pub fn read(&mut self, handler: u32, cell: u32) -> Result<Result<Option<u32>, Abort>, Refusal> {
        self.take(handler, Step::Read(cell)).outcome()
    }

    /// Writes a cell in the handler's transaction; others see it once that has committed.
    ///
    /// ```
    /// use zidlemowo::{Refusal, Register};
    ///
    /// let mut register = Register::new(2, 1)?;
    /// register.begin(0)?;
    /// assert_eq!(register.write(0, 1, 6), Ok(()));
    /// assert_eq!(register.write(0, 2, 6), Err(Refusal::NoCell));
    /// # Ok::<(), Refusal>(())
    /// ```
    pub fn write(&mut self, handler: u32, cell: u32, value: u32) -> Result<(), Refusal> {
        self.take(handler, Step::Write(cell, value)).outcome().map(|_| ())
    }

    /// Tries to commit the handler's transaction, which is ended either way.
    ///
    /// ```
    /// use zidlemowo::{Abort, Refusal, Register};
    ///
    /// let mut register = Register::new(2, 2)?;
    /// register.begin(0)?;
    /// assert_eq!(register.read(0, 0), Ok(Ok(None)));
    /// register.begin(1)?;
    /// register.write(1, 0, 5)?;
    /// assert_eq!(register.try_commit(1), Ok(Ok(())));
    /// assert_eq!(register.try_commit(0), Ok(Err(Abort::Overtaken { cell: 0 })));
    /// # Ok::<(), Refusal>(())
    /// ```
    pub fn try_commit(&mut self, handler: u32) -> Result<Result<(), Abort>, Refusal> {
        self.take(handler, Step::Try).outcome().map(|tried| tried.map(|_| ()))
    }

    /// Gives the handler's transaction up: it is ended as [`Abort::GaveUp`], and nothing of it is kept.
    ///
    /// ```
    /// use zidlemowo::{Refusal, Register};
    ///
    /// let mut register = Register::new(2, 1)?;
    /// register.begin(0)?;
    /// register.write(0, 1, 7)?;
    /// assert_eq!(register.give_up(0), Ok(()));
    /// assert_eq!(register.give_up(0), Err(Refusal::NotOpen));
    /// assert_eq!(register.transact(0, 1, |transaction| transaction.read(1)), Ok(None));
    /// # Ok::<(), Refusal>(())
    /// ```
    pub fn give_up(&mut self, handler: u32) -> Result<(), Refusal> {
        self.take(handler, Step::GiveUp).outcome().map(|_| ())
    }

    /// Runs a closure as one transaction of the handler: begin, the closure's reads and writes, and a try to commit. After an abort
    /// it starts over, the closure with it, until it has been begun `attempts` times (once, for 0); then the last abort is given.
    /// [`Abort::Spent`] is given at once, since starting over would not help.
    ///
    /// The register is the closure's for the whole of it, so no other handler comes between, and on a register that was opened
    /// nothing but [`Abort::Spent`] is to be expected. Where handlers are to take turns, use [`Shared`](crate::Shared).
    ///
    /// Where the closure gives up with an error, or panics, its transaction is given up: nothing of it is kept, and the handler is idle.
    ///
    /// ```
    /// use zidlemowo::{NotCommitted, Refusal, Register, Stopped};
    ///
    /// let mut register = Register::new(2, 1)?;
    /// let raised = register.transact(0, 3, |transaction| -> Result<u32, Stopped> {
    ///     let value = transaction.read(0)?.unwrap_or(0) + 1;
    ///     transaction.write(0, value)?;
    ///     Ok(value)
    /// });
    /// assert_eq!(raised, Ok(1));
    ///
    /// let no_cell = register.transact(0, 3, |transaction| transaction.read(2));
    /// assert_eq!(no_cell, Err(NotCommitted::GaveUp(Stopped::Refused(Refusal::NoCell))));
    /// assert_eq!(register.begin(0), Ok(()));
    /// # Ok::<(), Refusal>(())
    /// ```
    pub fn transact<T, E>(
        &mut self,
        handler: u32,
        attempts: u32,
        closure: impl FnMut(&mut Transaction<'_>) -> Result<T, E>,
    ) -> Result<T, NotCommitted<E>> {
        transact::transact(&mut |handler, step| self.take(handler, step), handler, attempts, closure)
    }
}
