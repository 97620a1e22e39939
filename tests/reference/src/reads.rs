//! Which words a read finds, as comparisons of registers count them: whether it is the transaction's first read of the cell, a later one or
//! one of its own write, and whether the number and the word that it goes by are 0. Where the number is 0 and the cell is not written by
//! the transaction, unset has to be replied whatever the word is; everywhere else the word.
use crate::register::Reply;

/// What a comparison has to meet, or it shows nothing of what is unset and what is 0.
pub const READS: [&str; 12] = [
    "first read with number 0 and word 0",
    "first read with number 0 and word not 0",
    "first read with number not 0 and word 0",
    "first read with number not 0 and word not 0",
    "later read with number 0 and word 0",
    "later read with number 0 and word not 0",
    "later read with number not 0 and word 0",
    "later read with number not 0 and word not 0",
    "own write read with number 0 and word 0",
    "own write read with number 0 and word not 0",
    "own write read with number not 0 and word 0",
    "own write read with number not 0 and word not 0",
];

/// The name of a step with this reply on these words before it; none where it is no read, or one that is refused or aborts.
pub fn name(before: &[u32], handler: u32, code: u32, reply: Reply) -> Option<&'static str> {
    if !matches!(reply, Reply::Value(_) | Reply::Unset) {
        return None;
    }
    let (m, cell) = (before[0] as usize, code as usize - 32);
    let block = &before[2 + m * (m + 1) + handler as usize * (3 + 3 * m)..];
    let has = |set: u32| set >> cell & 1 == 1;
    let first = 2 + cell * (m + 1);
    let (which, number, word) = match (has(block[1]), has(block[2])) {
        (_, true) => (2, block[3 + m + cell], block[3 + 2 * m + cell]),
        (true, false) => (1, block[3 + m + cell], block[3 + 2 * m + cell]),
        (false, false) => (0, before[first + 1 + cell], before[first]),
    };
    Some(READS[4 * which + 2 * usize::from(number > 0) + usize::from(word > 0)])
}
