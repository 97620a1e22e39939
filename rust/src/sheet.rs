//! The duty sheet: over many schedule files, how many transactions each handler began and committed, and how many were aborted by
//! each reason. The words are counted by the proved function; here they get names.
use crate::aborts::Reason;
use crate::raw;
use crate::refusals::Refusal;
use std::fmt;

/// The counts of a handler.
///
/// ```
/// use zidlemowo::{Counts, Reason};
///
/// let counts = Counts { begun: 9, committed: 4, torn: 2, overtaken: 1, spent: 0, gave_up: 1 };
/// assert_eq!(counts.aborted(Reason::Torn), 2);
/// assert_eq!(Counts::default().begun, 0);
/// ```
#[derive(Clone, Copy, Debug, Default, PartialEq, Eq, Hash)]
pub struct Counts {
    /// Transactions begun. A begin that was refused is none.
    pub begun: u32,
    /// Transactions committed.
    pub committed: u32,
    /// Transactions aborted by [`Reason::Torn`].
    pub torn: u32,
    /// Transactions aborted by [`Reason::Overtaken`].
    pub overtaken: u32,
    /// Transactions aborted by [`Reason::Spent`]. No schedule file is long enough for one.
    pub spent: u32,
    /// Transactions that their handler gave up, [`Reason::GaveUp`].
    pub gave_up: u32,
}

impl Counts {
    /// Transactions aborted by a reason, at whichever cell.
    ///
    /// ```
    /// use zidlemowo::{Counts, Reason};
    ///
    /// assert_eq!(Counts { overtaken: 3, ..Counts::default() }.aborted(Reason::Overtaken), 3);
    /// ```
    pub fn aborted(self, reason: Reason) -> u32 {
        match reason {
            Reason::Torn => self.torn,
            Reason::Overtaken => self.overtaken,
            Reason::Spent => self.spent,
            Reason::GaveUp => self.gave_up,
        }
    }

    /// The counts of a row of words.
    fn of_row(row: &[u32]) -> Counts {
        Counts { begun: row[0], committed: row[1], torn: row[2], overtaken: row[3], spent: row[4], gave_up: row[5] }
    }
}

/// A duty sheet: for each of 16 handlers the counts of its transactions, over the schedule files that were added.
///
/// A handler's transactions are told by the replies of the runs: a begin that was done, a commit, and an abort by its reason. A file
/// that is refused adds nothing. It is displayed as a table.
///
/// ```
/// use zidlemowo::{Refusal, Sheet};
///
/// // One handler and one cell; the handler begins, writes 5 into the cell and commits.
/// let file = [1, 1, 0, 10, 0, 7, 0, 17, 0, 3, 0, 64, 0, 0, 0, 5, 1, 0, 0, 0];
/// let mut sheet = Sheet::new();
/// sheet.add(&file)?;
/// sheet.add(&file)?;
/// assert_eq!(sheet.add(&file[1..]), Err(Refusal::BadFile));
/// assert_eq!(sheet.counts(0).map(|counts| (counts.begun, counts.committed)), Some((2, 2)));
/// # Ok::<(), Refusal>(())
/// ```
#[derive(Clone, Debug, PartialEq, Eq, Hash)]
pub struct Sheet {
    words: [u32; Sheet::WORDS],
}

impl Sheet {
    /// The handlers of a sheet, however many a file has.
    ///
    /// ```
    /// assert_eq!(zidlemowo::Sheet::HANDLERS, 16);
    /// ```
    pub const HANDLERS: u32 = 16;

    /// The counts of a handler, and so the words of its row: begun, committed, torn, overtaken, spent, gave up.
    ///
    /// ```
    /// assert_eq!(zidlemowo::Sheet::COLUMNS, 6);
    /// ```
    pub const COLUMNS: usize = 6;

    /// The words of a sheet: a row for each handler.
    ///
    /// ```
    /// assert_eq!(zidlemowo::Sheet::WORDS, 96);
    /// ```
    pub const WORDS: usize = Sheet::HANDLERS as usize * Sheet::COLUMNS;

    /// The largest count with which a sheet still takes a file.
    ///
    /// ```
    /// assert_eq!(zidlemowo::Sheet::MOST, 4_294_000_000);
    /// ```
    pub const MOST: u32 = 4_294_000_000;

    /// A sheet on which nothing is counted yet.
    ///
    /// ```
    /// use zidlemowo::{Counts, Sheet};
    ///
    /// assert_eq!(Sheet::new().counts(15), Some(Counts::default()));
    /// ```
    pub fn new() -> Sheet {
        Sheet { words: [0; Sheet::WORDS] }
    }

    /// A sheet that was kept as its words. Any 96 words are one.
    ///
    /// ```
    /// use zidlemowo::Sheet;
    ///
    /// let mut words = [0; Sheet::WORDS];
    /// words[6] = 7;
    /// let sheet = Sheet::from_words(words);
    /// assert_eq!(sheet.counts(1).map(|counts| counts.begun), Some(7));
    /// assert_eq!(sheet.words(), &words);
    /// ```
    pub fn from_words(words: [u32; Sheet::WORDS]) -> Sheet {
        Sheet { words }
    }

    /// The sheet's words, to be kept: handler h's row begins at word 6h.
    ///
    /// ```
    /// use zidlemowo::Sheet;
    ///
    /// assert_eq!(Sheet::new().words(), &[0; Sheet::WORDS]);
    /// ```
    pub fn words(&self) -> &[u32; Sheet::WORDS] {
        &self.words
    }

    /// Runs a schedule file from a fresh register and counts the replies of its run. Refused with 30 or 15 where the file is bad, and
    /// with 41 where any count of the sheet is above [`Sheet::MOST`] already; then the sheet is as it was.
    ///
    /// ```
    /// use zidlemowo::{Refusal, Sheet};
    ///
    /// let nothing_to_do = [1, 1, 0, 10, 0, 0, 0, 10, 0, 0];
    /// let mut full = Sheet::from_words([Sheet::MOST + 1; Sheet::WORDS]);
    /// assert_eq!(full.add(&nothing_to_do), Err(Refusal::SheetFull));
    /// assert_eq!(full.add(&[]), Err(Refusal::BadFile));
    /// assert_eq!(Sheet::new().add(&nothing_to_do), Ok(()));
    /// ```
    pub fn add(&mut self, file: &[u8]) -> Result<(), Refusal> {
        Refusal::of_number(raw::sheet(&mut self.words, file))
    }

    /// The counts of a handler; none where it is 16 or above.
    ///
    /// ```
    /// use zidlemowo::{Counts, Sheet};
    ///
    /// let sheet = Sheet::from_words(std::array::from_fn(|place| place as u32));
    /// assert_eq!(sheet.counts(2), Some(Counts { begun: 12, committed: 13, torn: 14, overtaken: 15, spent: 16, gave_up: 17 }));
    /// assert_eq!(sheet.counts(16), None);
    /// ```
    pub fn counts(&self, handler: u32) -> Option<Counts> {
        self.words.chunks_exact(Sheet::COLUMNS).nth(handler as usize).map(Counts::of_row)
    }
}

impl Default for Sheet {
    fn default() -> Sheet {
        Sheet::new()
    }
}

/// The sheet as a table: a line of headings, and a line for each of the 16 handlers.
///
/// ```
/// let table = zidlemowo::Sheet::new().to_string();
/// assert!(table.starts_with("handler      begun  committed    abort 1    abort 2    abort 3    abort 5\n      0 "));
/// assert_eq!(table.lines().count(), 17);
/// ```
impl fmt::Display for Sheet {
    fn fmt(&self, to: &mut fmt::Formatter<'_>) -> fmt::Result {
        write!(to, "handler {:>10} {:>10}", "begun", "committed")?;
        for reason in Reason::ALL {
            write!(to, " {:>10}", format!("abort {}", reason.number()))?;
        }
        for (handler, row) in self.words.chunks_exact(Sheet::COLUMNS).enumerate() {
            write!(to, "\n{handler:>7}")?;
            row.iter().try_for_each(|count| write!(to, " {count:>10}"))?;
        }
        writeln!(to)
    }
}
