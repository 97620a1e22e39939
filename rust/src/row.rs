//! A row of steps that is taken in one call, and the reports of its steps: the words of both, and their types.
use crate::replies::Reply;
use crate::step::Step;

/// Steps to be taken one after another in one call, [`Register::row`](crate::Register::row), each of any handler.
///
/// The replies, and the words that are left, are those of the same steps taken one by one; but the register's words are tested once, and
/// not before each step. A row may be kept and taken again, or cleared and filled anew.
///
/// ```
/// use zidlemowo::{Register, Reply, Row, Step};
///
/// let mut register = Register::new(2, 2)?;
/// let mut row = Row::from([(1, Step::Begin), (1, Step::Write(0, 17)), (1, Step::Try)]);
/// row.extend([(0, Step::Begin), (0, Step::Read(0)), (0, Step::Read(1))]);
/// let reports = register.row(&row)?;
/// assert_eq!(reports[2].reply, Reply::Committed);
/// assert_eq!(reports[4].reply, Reply::Value(17));
/// assert_eq!(reports[5].reply, Reply::Unset);
/// # Ok::<(), zidlemowo::Refusal>(())
/// ```
#[derive(Clone, Debug, Default, PartialEq, Eq, Hash)]
pub struct Row {
    words: Vec<u32>,
}

impl Row {
    /// The words of a step: handler, code and value.
    ///
    /// ```
    /// assert_eq!(zidlemowo::Row::STEP_WORDS, 3);
    /// ```
    pub const STEP_WORDS: usize = 3;

    /// A row of no step.
    ///
    /// ```
    /// assert!(zidlemowo::Row::new().is_empty());
    /// ```
    pub fn new() -> Row {
        Row::default()
    }

    /// Adds a step of a handler at the end.
    ///
    /// ```
    /// use zidlemowo::{Row, Step};
    ///
    /// let mut row = Row::new();
    /// row.push(0, Step::Begin);
    /// row.push(0, Step::Write(1, 6));
    /// assert_eq!(row.words(), [0, 0, 0, 0, 65, 6]);
    /// ```
    pub fn push(&mut self, handler: u32, step: Step) {
        self.push_code(handler, step.code(), step.value());
    }

    /// Adds the step that a code stands for, whatever the code; `value` matters to a write alone.
    ///
    /// ```
    /// use zidlemowo::{Refusal, Register, Reply, Row};
    ///
    /// let mut row = Row::new();
    /// row.push_code(7, 1000, 0);
    /// let reports = Register::new(2, 1)?.row(&row)?;
    /// assert_eq!((reports[0].handler, reports[0].code), (7, 1000));
    /// assert_eq!(reports[0].reply, Reply::Refused(Refusal::UnknownStep));
    /// # Ok::<(), Refusal>(())
    /// ```
    pub fn push_code(&mut self, handler: u32, code: u32, value: u32) {
        self.words.extend([handler, code, value]);
    }

    /// How many steps there are.
    ///
    /// ```
    /// assert_eq!(zidlemowo::Row::from([(0, zidlemowo::Step::Begin)]).len(), 1);
    /// ```
    pub fn len(&self) -> usize {
        self.words.len() / Row::STEP_WORDS
    }

    /// Whether there is no step.
    ///
    /// ```
    /// assert!(!zidlemowo::Row::from([(0, zidlemowo::Step::Begin)]).is_empty());
    /// ```
    pub fn is_empty(&self) -> bool {
        self.words.is_empty()
    }

    /// Takes all steps out; the memory for them is kept.
    ///
    /// ```
    /// let mut row = zidlemowo::Row::from([(0, zidlemowo::Step::Begin)]);
    /// row.clear();
    /// assert_eq!(row, zidlemowo::Row::new());
    /// ```
    pub fn clear(&mut self) {
        self.words.clear();
    }

    /// The steps' words, three for each.
    ///
    /// ```
    /// assert_eq!(zidlemowo::Row::from([(3, zidlemowo::Step::Read(1))]).words(), [3, 33, 0]);
    /// ```
    pub fn words(&self) -> &[u32] {
        &self.words
    }
}

impl Extend<(u32, Step)> for Row {
    fn extend<I: IntoIterator<Item = (u32, Step)>>(&mut self, steps: I) {
        steps.into_iter().for_each(|(handler, step)| self.push(handler, step));
    }
}

impl FromIterator<(u32, Step)> for Row {
    fn from_iter<I: IntoIterator<Item = (u32, Step)>>(steps: I) -> Row {
        let mut row = Row::new();
        row.extend(steps);
        row
    }
}

impl<const N: usize> From<[(u32, Step); N]> for Row {
    fn from(steps: [(u32, Step); N]) -> Row {
        steps.into_iter().collect()
    }
}

/// What a step of a row came to. A step that is refused is reported as any other.
///
/// ```
/// use zidlemowo::{Refusal, Register, Reply, Report, Row, Step};
///
/// let reports = Register::new(2, 1)?.row(&Row::from([(0, Step::Try), (0, Step::Begin)]))?;
/// assert_eq!(reports[0], Report { handler: 0, code: 1, reply: Reply::Refused(Refusal::NotOpen) });
/// assert_eq!(reports[1].reply, Reply::Done);
/// # Ok::<(), Refusal>(())
/// ```
#[derive(Clone, Copy, Debug, PartialEq, Eq, Hash)]
pub struct Report {
    /// The handler, as it was given.
    pub handler: u32,
    /// The step's code, as it was given.
    pub code: u32,
    /// What the step came to.
    pub reply: Reply,
}

impl Report {
    /// The words of a report: handler, code, and the kind, the detail and the cell of the reply.
    ///
    /// ```
    /// assert_eq!(zidlemowo::Report::WORDS, 5);
    /// ```
    pub const WORDS: usize = 5;

    /// The report of these words; none where kind, detail and cell are no reply's.
    ///
    /// ```
    /// use zidlemowo::{Abort, Reply, Report};
    ///
    /// assert_eq!(Report::from_words([2, 33, 1, 7, 0]), Some(Report { handler: 2, code: 33, reply: Reply::Value(7) }));
    /// assert_eq!(Report::from_words([2, 33, 5, 0, 0]), Some(Report { handler: 2, code: 33, reply: Reply::Unset }));
    /// let aborted = Report::from_words([2, 33, 3, 1, 7]).map(|report| report.reply);
    /// assert_eq!(aborted, Some(Reply::Aborted(Abort::Torn { cell: 7 })));
    /// assert_eq!(Report::from_words([2, 33, 5, 0, 7]), None);
    /// ```
    pub fn from_words([handler, code, kind, detail, cell]: [u32; Report::WORDS]) -> Option<Report> {
        Reply::from_numbers(kind, detail, cell).map(|reply| Report { handler, code, reply })
    }

    /// The reports that a row has left in these words.
    pub(crate) fn all(words: &[u32]) -> Vec<Report> {
        let each = words.chunks_exact(Report::WORDS).map(|report| [report[0], report[1], report[2], report[3], report[4]]);
        each.map(|words| Report::from_words(words).expect("a step is reported with numbers of docs/REPLIES.md")).collect()
    }
}
