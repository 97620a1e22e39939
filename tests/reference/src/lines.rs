//! What a runner or a judge prints: a header, a line for each order place and one for each cell at the end, or the one line of a
//! refused file.
use crate::register::Reply;
use std::fmt;

/// What an order place gave: the step's code, unless none was taken, and the reply.
#[derive(Clone, Copy, Debug, PartialEq, Eq)]
pub struct Line {
    pub handler: u8,
    pub code: Option<u8>,
    pub reply: Reply,
}

/// A cell at the end of a run, with its own number. A cell that no commit wrote has no value.
#[derive(Clone, Copy, Debug, PartialEq, Eq)]
pub struct Cell {
    pub value: Option<u32>,
    pub number: u32,
}

/// All that a runner prints of a sound file. A run that stopped at an order place leaves no cells to print.
#[derive(Clone, Debug, PartialEq, Eq)]
pub struct Run {
    pub handlers: u32,
    pub cells: u32,
    pub lines: Vec<Line>,
    pub left: Vec<Cell>,
}

/// A reply, with its value, its reason and cell, or its number.
impl fmt::Display for Reply {
    fn fmt(&self, out: &mut fmt::Formatter) -> fmt::Result {
        match self {
            Reply::Ok => write!(out, "ok"),
            Reply::Value(value) => write!(out, "value {value}"),
            Reply::Unset => write!(out, "unset"),
            Reply::Commit => write!(out, "commit"),
            Reply::Abort { reason, cell: Some(cell) } => write!(out, "abort {reason} cell {cell}"),
            Reply::Abort { reason, cell: None } => write!(out, "abort {reason}"),
            Reply::Refused(number) => write!(out, "refused {number}"),
        }
    }
}

/// A line without its place.
impl fmt::Display for Line {
    fn fmt(&self, out: &mut fmt::Formatter) -> fmt::Result {
        let (handler, reply) = (self.handler, self.reply);
        match self.code {
            Some(code) => write!(out, "{handler} {code} {reply}"),
            None => write!(out, "{handler} - {reply}"),
        }
    }
}

/// All lines of a run.
impl fmt::Display for Run {
    fn fmt(&self, out: &mut fmt::Formatter) -> fmt::Result {
        writeln!(out, "handlers {} cells {}", self.handlers, self.cells)?;
        for (place, line) in self.lines.iter().enumerate() {
            writeln!(out, "{place} {line}")?;
        }
        for (cell, Cell { value, number }) in self.left.iter().enumerate() {
            match value {
                Some(value) => writeln!(out, "cell {cell} value {value} number {number}")?,
                None => writeln!(out, "cell {cell} unset number {number}")?,
            }
        }
        Ok(())
    }
}

/// The lines of a run, or the one line of a refused file.
pub fn shown(run: Result<&Run, &u32>) -> String {
    match run {
        Ok(run) => run.to_string(),
        Err(number) => format!("refused {number}\n"),
    }
}
