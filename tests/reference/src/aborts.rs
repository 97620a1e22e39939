//! Which cells an abort chose the one that it names from, as comparisons count them: whether it is cell 0, whether several meet the condition,
//! and which lower ones are passed over. Where only one cell could be named, nothing is shown of the lowest being taken.
use crate::register::Reply;

/// What is counted of aborts 1, 2 and 3, in this order. The first four are met in files too, but for abort 3, which no file reaches; the last one
/// is seldom.
const NAMES: [[&str; 6]; 3] = [
    [
        "abort 1 of cell 0",
        "abort 1 of a cell above 0",
        "abort 1 of the lowest of several cells",
        "abort 1 past a lower cell of the set",
        "abort 1 past a lower cell outside the set",
        "abort 1 of cell 31",
    ],
    [
        "abort 2 of cell 0",
        "abort 2 of a cell above 0",
        "abort 2 of the lowest of several cells",
        "abort 2 past a lower cell of the set",
        "abort 2 past a lower cell outside the set",
        "abort 2 of cell 31",
    ],
    [
        "abort 3 of cell 0",
        "abort 3 of a cell above 0",
        "abort 3 of the lowest of several cells",
        "abort 3 past a lower cell of the set",
        "abort 3 past a lower cell outside the set",
        "abort 3 of cell 31",
    ],
];

/// What a comparison of words, step by step, has to meet, or it shows nothing of it.
pub fn in_steps() -> Vec<&'static str> {
    NAMES.concat()
}

/// What a comparison of rows has to meet.
pub fn in_rows() -> Vec<&'static str> {
    NAMES.iter().flat_map(|names| &names[..5]).copied().collect()
}

/// What a comparison of files has to meet. A history has no numbers of cells that were not read.
pub fn in_files() -> Vec<&'static str> {
    NAMES[..2].iter().flat_map(|names| &names[..4]).copied().collect()
}

/// A cell that an abort might have named: whether it is in the set that is asked, and whether it meets the condition.
#[derive(Clone, Copy, Debug)]
struct Candidate {
    in_set: bool,
    meets: bool,
}

/// An abort with all cells, from cell 0 on.
#[derive(Clone, Debug)]
pub struct Choice {
    reason: usize,
    cells: Vec<Candidate>,
}

impl Choice {
    /// An abort of m cells. Of each it is said whether it is in the set, and whether it meets the condition.
    pub fn new(reason: u32, m: usize, said: impl Fn(usize) -> (bool, bool)) -> Self {
        let candidate = |(in_set, meets)| Candidate { in_set, meets };
        Choice { reason: reason as usize, cells: (0..m).map(|cell| candidate(said(cell))).collect() }
    }

    /// What the abort shows, by the names above. Some cell is in the set and meets the condition.
    pub fn names(&self) -> Vec<&'static str> {
        let named = |cell: &Candidate| cell.in_set && cell.meets;
        let lowest = self.cells.iter().position(named).expect("an abort has a cell");
        let lower = &self.cells[..lowest];
        let met = [
            lowest == 0,
            lowest > 0,
            self.cells.iter().filter(|&cell| named(cell)).count() > 1,
            lower.iter().any(|cell| cell.in_set),
            lower.iter().any(|cell| cell.meets),
            lowest == 31,
        ];
        NAMES[self.reason - 1].into_iter().zip(met).filter(|&(_, met)| met).map(|(name, _)| name).collect()
    }
}

/// The choice of a step with this reply on these words before it; none where it names no cell.
pub fn choice(before: &[u32], handler: u32, code: u32, reply: Reply) -> Option<Choice> {
    let Reply::Abort { reason, cell: Some(_) } = reply else { return None };
    let m = before[0] as usize;
    let block = &before[2 + m * (m + 1) + handler as usize * (3 + 3 * m)..];
    let number = |y: usize| block[3 + m + y];
    let dependency = |x: usize, y: usize| before[2 + x * (m + 1) + 1 + y];
    let (read, written) = (|y: usize| block[1] >> y & 1 == 1, |y: usize| block[2] >> y & 1 == 1);
    Some(Choice::new(reason, m, |y| match reason {
        // The cell that is read joins the set with its own number, and so never meets the condition itself.
        1 => (read(y), y != code as usize - 32 && number(y) < dependency(code as usize - 32, y)),
        2 => (read(y), number(y) != dependency(y, y)),
        _ => (written(y), dependency(y, y) == 65_535),
    }))
}

#[cfg(test)]
mod tests {
    use super::*;
    use crate::counts::Counts;
    use crate::random::Random;
    use crate::{register, registers};

    #[test]
    fn what_an_abort_shows() {
        let of = |said: &[(bool, bool)]| Choice::new(2, said.len(), |cell| said[cell]).names();
        let [zero, above, several, inside, outside, last] = NAMES[1];
        let (yes, other, none) = ((true, true), (true, false), (false, false));
        assert_eq!(of(&[yes, other, none]), [zero]);
        assert_eq!(of(&[yes, none, yes]), [zero, several]);
        assert_eq!(of(&[none, yes]), [above]);
        assert_eq!(of(&[none, other, yes, yes]), [above, several, inside]);
        assert_eq!(of(&[(false, true), yes, other]), [above, outside]);
        assert_eq!(of(&[&[none; 31][..], &[yes]].concat()), [above, last]);
    }

    #[test]
    fn the_cell_that_is_named_is_the_lowest_of_the_choice() {
        let (mut random, mut met) = (Random::new(6), Counts::default());
        for _ in 0..40_000 {
            let (m, n) = (random.one_of(&[2, 7, 32, 32, 32]), random.within(1, 2) as u32);
            let mut words = registers::well_formed(&mut random, m, n);
            let (before, handler, code) = (words.clone(), random.below(n.into()) as u32, registers::code(&mut random, m));
            let reply = register::step(&mut words, handler, code, 7);
            let Some(choice) = choice(&before, handler, code, reply) else { continue };
            let lowest = choice.cells.iter().position(|cell| cell.in_set && cell.meets);
            assert_eq!(reply, Reply::abort(choice.reason as u32, lowest.unwrap()));
            choice.names().iter().for_each(|name| met.note(name));
            met.note(&reply.to_string());
        }
        assert!(in_rows().iter().all(|name| met.of(name) > 50), "{}", met.shown());
        // Every cell that there can be is named by each of them.
        for reason in 1..=3 {
            let missing: Vec<_> = (0..32).filter(|&cell| met.of(&Reply::abort(reason, cell).to_string()) == 0).collect();
            assert_eq!(missing, [], "abort {reason}");
        }
    }
}
