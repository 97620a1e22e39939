//! Random transactions in some manner, and the orders in which their steps are taken. Now and then a step or an order place is
//! one that should be refused.
use crate::random::Random;
use crate::steps::{read, write, Step, BEGIN, GIVE_UP, TRY};

/// A value: mostly a small one, sometimes at a border or any.
fn value(random: &mut Random) -> u32 {
    match random.below(8) {
        0 => random.one_of(&[0, 1, 0x7FFF_FFFF, 0x8000_0000, u32::MAX]),
        1 => random.word(),
        _ => random.below(10) as u32,
    }
}

/// A write of some value.
pub(crate) fn any_write(random: &mut Random, cell: u8) -> Step {
    write(cell, value(random))
}

/// A read or a write, one write among so many steps.
pub(super) fn access(random: &mut Random, cell: u8, once_in: u64) -> Step {
    match random.once_in(once_in) {
        true => any_write(random, cell),
        false => read(cell),
    }
}

/// What ends a transaction: once in so many times a give up, else a try. Where there is to be none, nothing is drawn.
pub(super) fn ending(random: &mut Random, give_up_in: Option<u64>) -> Step {
    match give_up_in {
        Some(times) if random.once_in(times) => GIVE_UP,
        _ => TRY,
    }
}

/// What the transactions of a schedule are like.
pub(super) struct Manner {
    pub(super) cells: u8,
    /// Reads and writes of a transaction, at most.
    pub(super) longest: u64,
    /// One write among so many steps.
    pub(super) write_in: u64,
    /// Once in so many steps a cell is taken that the transaction already had.
    pub(super) again_in: u64,
    /// Once in so many steps there is one that should be refused, or the begin or the end is missing.
    pub(super) odd_in: u64,
    /// Once in so many transactions there is one that gives up.
    pub(super) give_up_in: Option<u64>,
}

impl Manner {
    /// Adds a transaction to a script: begin, some reads and writes, and its end.
    pub(super) fn transaction(&self, random: &mut Random, script: &mut Vec<Step>) {
        let mut had = Vec::new();
        if !random.once_in(self.odd_in) {
            script.push(BEGIN);
        }
        for _ in 0..random.below(self.longest + 1) {
            if random.once_in(self.odd_in) {
                script.push(self.odd(random));
            }
            let cell = match had.is_empty() || !random.once_in(self.again_in) {
                true => random.below(self.cells.into()) as u8,
                false => random.one_of(&had),
            };
            had.push(cell);
            script.push(access(random, cell, self.write_in));
        }
        if !random.once_in(self.odd_in) {
            script.push(ending(random, self.give_up_in));
        }
    }

    /// A second begin, or a cell that is not there where there can be one.
    fn odd(&self, random: &mut Random) -> Step {
        if self.cells == 32 || random.once_in(3) {
            return BEGIN;
        }
        let cell = match random.once_in(2) {
            true => self.cells,
            false => random.within(self.cells.into(), 31) as u8,
        };
        access(random, cell, 2)
    }

    /// The scripts of so many handlers, each of some transactions up to the most.
    pub(super) fn scripts(&self, random: &mut Random, handlers: u64, most: u64) -> Vec<Vec<Step>> {
        let mut scripts = Vec::new();
        for _ in 0..handlers {
            let mut script = Vec::new();
            for _ in 0..random.below(most + 1) {
                self.transaction(random, &mut script);
            }
            scripts.push(script);
        }
        scripts
    }
}

/// An order that takes every step of the scripts, some steps of a handler at a time. A handler's last turn may go on behind the
/// end of its script, and a few places name any handler or none.
pub(super) fn interleaved(random: &mut Random, scripts: &[Vec<Step>], burst: u64, odd_in: u64) -> Vec<u8> {
    let mut left: Vec<(u8, usize)> = scripts.iter().enumerate().map(|(handler, script)| (handler as u8, script.len())).collect();
    let mut order = Vec::new();
    while !left.is_empty() {
        if random.once_in(odd_in) {
            order.push(odd_order_byte(random, scripts.len() as u8));
        }
        let chosen = random.place(left.len());
        let (handler, steps) = &mut left[chosen];
        for _ in 0..random.within(1, burst) {
            order.push(*handler);
            *steps = steps.saturating_sub(1);
        }
        if *steps == 0 {
            left.swap_remove(chosen);
        }
    }
    order
}

/// An order byte that is refused by 11, or any handler's.
pub(super) fn odd_order_byte(random: &mut Random, handlers: u8) -> u8 {
    match random.below(4) {
        0 => handlers,
        1 => random.within(handlers.into(), 255) as u8,
        2 => random.byte(),
        _ => random.below(handlers.into()) as u8,
    }
}
