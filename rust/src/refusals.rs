//! Why something was refused: numbers and texts, as `docs/REPLIES.md` has them.
use std::error::Error;
use std::fmt;

/// Why something was refused. Nothing is changed by it. 30, 32, 33 and 41 are of schedule files, the judge and the duty sheet; no
/// register gives them. 42 is of a whole row, and no step's.
///
/// ```
/// use zidlemowo::Refusal;
///
/// assert_eq!(Refusal::AlreadyOpen.to_string(), "refused 13 (the handler has an open transaction already)");
/// ```
#[derive(Clone, Copy, Debug, PartialEq, Eq, Hash)]
pub enum Refusal {
    /// The words are no well-formed register, or too short for one.
    NotWellFormed = 10,
    /// Handler n or above.
    NoHandler = 11,
    /// Read or write of cell m or above.
    NoCell = 12,
    /// Begin while open.
    AlreadyOpen = 13,
    /// Read, write, try or give up while idle.
    NotOpen = 14,
    /// A code that stands for no step.
    UnknownStep = 15,
    /// Opening with m or n out of range.
    OutOfRange = 20,
    /// Opening with a buffer shorter than the register; a duty sheet with fewer than 96 words.
    TooShort = 21,
    /// A schedule file that is too long, has m or n out of range, or a bad table.
    BadFile = 30,
    /// At an order place: the handler's script is used up.
    UsedUp = 32,
    /// The judge: a try that would be the 65th commit.
    TooManyCommits = 33,
    /// A duty sheet that already holds a count above 4,294,000,000.
    SheetFull = 41,
    /// A row whose reports would pass the end of the words for them.
    NoRoom = 42,
}

impl Refusal {
    /// Every refusal.
    ///
    /// ```
    /// assert_eq!(zidlemowo::Refusal::ALL.len(), 13);
    /// ```
    pub const ALL: [Refusal; 13] = [
        Refusal::NotWellFormed,
        Refusal::NoHandler,
        Refusal::NoCell,
        Refusal::AlreadyOpen,
        Refusal::NotOpen,
        Refusal::UnknownStep,
        Refusal::OutOfRange,
        Refusal::TooShort,
        Refusal::BadFile,
        Refusal::UsedUp,
        Refusal::TooManyCommits,
        Refusal::SheetFull,
        Refusal::NoRoom,
    ];

    /// The refusal's number.
    ///
    /// ```
    /// assert_eq!(zidlemowo::Refusal::TooShort.number(), 21);
    /// ```
    pub fn number(self) -> u32 {
        self as u32
    }

    /// The refusal with that number.
    ///
    /// ```
    /// use zidlemowo::Refusal;
    ///
    /// assert_eq!(Refusal::from_number(10), Some(Refusal::NotWellFormed));
    /// assert_eq!(Refusal::from_number(31), None);
    /// ```
    pub fn from_number(number: u32) -> Option<Refusal> {
        Refusal::ALL.into_iter().find(|refusal| refusal.number() == number)
    }

    /// What the number that an opening, a row or a duty sheet gives comes to.
    pub(crate) fn of_number(number: u32) -> Result<(), Refusal> {
        match number {
            0 => Ok(()),
            _ => Err(Refusal::from_number(number).expect("whatever is refused has a number of docs/REPLIES.md")),
        }
    }

    /// The refusal in words, without its number.
    ///
    /// ```
    /// assert_eq!(zidlemowo::Refusal::NoCell.text(), "there is no such cell");
    /// ```
    pub fn text(self) -> &'static str {
        match self {
            Refusal::NotWellFormed => "the words are no well-formed register, or too few for one",
            Refusal::NoHandler => "there is no such handler",
            Refusal::NoCell => "there is no such cell",
            Refusal::AlreadyOpen => "the handler has an open transaction already",
            Refusal::NotOpen => "the handler has no open transaction",
            Refusal::UnknownStep => "no step has this code",
            Refusal::OutOfRange => "a register has 1 to 32 cells and 1 to 16 handlers",
            Refusal::TooShort => "too few words for a register of this size, or for a sheet",
            Refusal::BadFile => "these bytes are no schedule file",
            Refusal::UsedUp => "the script of this handler is used up",
            Refusal::TooManyCommits => "the judge notes 64 commits, and this would be the 65th",
            Refusal::SheetFull => "a count of the sheet is above 4,294,000,000",
            Refusal::NoRoom => "too few words for the reports of this row",
        }
    }
}

impl fmt::Display for Refusal {
    fn fmt(&self, to: &mut fmt::Formatter<'_>) -> fmt::Result {
        write!(to, "refused {} ({})", self.number(), self.text())
    }
}

impl Error for Refusal {}
