//! A schedule in its parts, and the file that they are laid out as: two numbers, the table of contents, the bodies.
//! Another table can be put in place of the right one, for files that are to be refused.
use crate::steps::{self, Step};

/// A schedule in its parts: how many cells, the bytes of each handler's script, and the order.
#[derive(Clone, Debug)]
pub struct Parts {
    pub cells: u8,
    pub scripts: Vec<Vec<u8>>,
    pub order: Vec<u8>,
}

impl Parts {
    /// The parts of some scripts of steps and an order.
    pub(crate) fn new(cells: u8, scripts: &[Vec<Step>], order: Vec<u8>) -> Self {
        Parts { cells, scripts: scripts.iter().map(|script| steps::bytes(script)).collect(), order }
    }

    /// How many handlers there are.
    pub(super) fn handlers(&self) -> usize {
        self.scripts.len()
    }

    /// The place behind the table, which has an entry for each script and one for the order.
    pub(super) fn table_end(&self) -> usize {
        2 + 4 * (self.handlers() + 1)
    }

    /// The scripts and the order, as they stand in the file.
    fn bodies(&self) -> Vec<&[u8]> {
        self.scripts.iter().chain([&self.order]).map(Vec::as_slice).collect()
    }

    /// Offset and length of each body where it belongs.
    pub(super) fn table(&self) -> Vec<(usize, usize)> {
        let mut position = self.table_end();
        let mut table = Vec::new();
        for body in self.bodies() {
            table.push((position, body.len()));
            position += body.len();
        }
        table
    }

    /// The file with this table, and with the bodies one after another.
    pub(super) fn with_table(&self, table: &[(usize, usize)]) -> Vec<u8> {
        let mut file = vec![self.handlers() as u8, self.cells];
        for &(offset, length) in table {
            file.extend((offset as u16).to_be_bytes());
            file.extend((length as u16).to_be_bytes());
        }
        file.extend(self.bodies().concat());
        file
    }

    /// The file of a right table; only the last body may end behind 65,535 bytes.
    pub fn file(&self) -> Vec<u8> {
        self.with_table(&self.table())
    }

    /// How long the file is.
    pub(super) fn length(&self) -> usize {
        self.table_end() + self.bodies().iter().map(|body| body.len()).sum::<usize>()
    }

    /// The same with the order cut, or filled up with a byte, so that the file is so long.
    pub(super) fn resized(mut self, length: usize, byte: u8) -> Self {
        let order = self.order.len() + length - self.length();
        self.order.resize(order, byte);
        self
    }
}
