//! Random schedules of several shapes: transactions that meet, long pasts, cells that are overtaken together, steps in no order that makes
//! sense, and the smallest and largest registers. All of them are sound.
use super::parts::Parts;
use super::transactions::{access, any_write, ending, interleaved, odd_order_byte, Manner};
use crate::random::Random;
use crate::steps::{read, Step, BEGIN, GIVE_UP, TRY};

/// Few cells and some handlers, whose transactions meet.
pub(super) fn contended(random: &mut Random) -> Parts {
    let cells = random.within(1, 5) as u8;
    let manner = Manner {
        cells,
        longest: random.within(2, 8),
        write_in: random.within(2, 4),
        again_in: random.within(2, 8),
        odd_in: random.one_of(&[15, 60, 1000]),
        give_up_in: Some(8),
    };
    let handlers = if random.once_in(3) { random.within(1, 16) } else { random.within(2, 6) };
    let scripts = manner.scripts(random, handlers, 6);
    let (burst, odd_in) = (random.within(1, 6), random.one_of(&[10, 40, 1000]));
    let mut order = interleaved(random, &scripts, burst, odd_in);
    // The order may end early, or go on behind the scripts.
    match random.below(4) {
        0 => order.truncate(random.place(order.len() + 1)),
        1 => order.extend((0..random.below(6)).map(|_| random.below(handlers + 2) as u8).collect::<Vec<_>>()),
        _ => (),
    }
    Parts::new(cells, &scripts, order)
}

/// Readers of several cells against writers of several, where the first read of one is long before the next.
pub(super) fn readers_and_writers(random: &mut Random) -> Parts {
    let cells = random.within(2, 6) as u8;
    let handlers = random.within(2, 8);
    let reading = Manner { cells, longest: 5, write_in: 8, again_in: 10, odd_in: 200, give_up_in: Some(8) };
    let writing = Manner { cells, longest: 3, write_in: 2, again_in: 4, odd_in: 200, give_up_in: Some(8) };
    let mut scripts = reading.scripts(random, handlers / 2, 4);
    scripts.extend(writing.scripts(random, handlers - handlers / 2, 10));
    let order = interleaved(random, &scripts, 2, 100);
    Parts::new(cells, &scripts, order)
}

/// Readers that take a step now and then, and whole short transactions of writers in between: a version's past is long, through
/// reads and through the handlers' earlier commits.
pub(super) fn long_pasts(random: &mut Random) -> Parts {
    let cells = random.within(2, 5) as u8;
    let reading = Manner { cells, longest: 5, write_in: 6, again_in: 8, odd_in: 100, give_up_in: Some(8) };
    let writing = Manner { cells, longest: 2, write_in: 2, again_in: 4, odd_in: 200, give_up_in: Some(8) };
    let readers = random.within(1, 10) as usize;
    let mut scripts = vec![Vec::new(); readers + random.within(1, 4) as usize];
    let mut left = vec![Vec::new(); readers];
    let mut order = Vec::new();
    for _ in 0..random.within(6, 120) {
        let handler = random.place(scripts.len());
        let mut steps = Vec::new();
        match left.get_mut(handler) {
            None => writing.transaction(random, &mut steps),
            Some(left) => {
                if left.is_empty() {
                    let manner = if random.once_in(3) { &writing } else { &reading };
                    manner.transaction(random, left);
                    left.reverse();
                }
                steps.extend(left.pop());
            }
        }
        order.extend(vec![handler as u8; steps.len()]);
        scripts[handler].extend(steps);
    }
    Parts::new(cells, &scripts, order)
}

/// Some reads or writes of any cells.
fn accesses(random: &mut Random, cells: u8, (least, most): (u64, u64), write_in: u64) -> Vec<Step> {
    let step = |random: &mut Random| {
        let cell = random.below(cells.into()) as u8;
        access(random, cell, write_in)
    };
    (0..random.within(least, most)).map(|_| step(random)).collect()
}

/// One handler reads about half of the cells, others write several in whole transactions, and the first reads on and tries: an abort then has
/// more than one cell to name.
pub(super) fn half_seen(random: &mut Random) -> Parts {
    let cells = random.within(4, 12) as u8;
    let handlers = random.within(2, 6);
    let (mut scripts, mut order) = (vec![Vec::new(); handlers as usize], Vec::new());
    let mut take = |handler: u64, steps: Vec<Step>| {
        order.extend(vec![handler as u8; steps.len()]);
        scripts[handler as usize].extend(steps);
    };
    for _ in 0..random.within(1, 16) {
        let reader = random.below(handlers);
        take(reader, [vec![BEGIN], accesses(random, cells, (2, u64::from(cells) / 2), 12)].concat());
        for _ in 0..random.within(1, 3) {
            let writer = (reader + random.within(1, handlers - 1)) % handlers;
            take(writer, [vec![BEGIN], accesses(random, cells, (2, 7), 2), vec![TRY]].concat());
        }
        take(reader, [accesses(random, cells, (0, 5), 12), vec![ending(random, Some(8))]].concat());
    }
    Parts::new(cells, &scripts, order)
}

/// Any step of a known code.
fn careless_step(random: &mut Random) -> Step {
    match random.below(4) {
        0 => BEGIN,
        1 => random.one_of(&[BEGIN, TRY, TRY, GIVE_UP]),
        _ => {
            let cell = random.below(32) as u8;
            access(random, cell, 2)
        }
    }
}

/// Any known codes, in no order that makes sense.
pub(super) fn careless(random: &mut Random) -> Parts {
    let cells = random.within(1, 32) as u8;
    let handlers = random.within(1, 16) as u8;
    let mut scripts: Vec<Vec<Step>> = Vec::new();
    for _ in 0..handlers {
        let steps = random.below(30);
        scripts.push((0..steps).map(|_| careless_step(random)).collect());
    }
    let order = (0..random.below(300)).map(|_| odd_order_byte(random, handlers)).collect();
    Parts::new(cells, &scripts, order)
}

/// Files at the edge: nothing to do, all bytes as an order, the smallest and the largest register.
pub(super) fn edge(random: &mut Random) -> Parts {
    let cells = random.one_of(&[1, 2, 31, 32]);
    let handlers = random.one_of(&[1, 2, 15, 16]);
    let mut scripts = vec![Vec::new(); handlers];
    if random.once_in(2) {
        let last = cells - 1;
        let written = any_write(random, last);
        let whole = [BEGIN, read(last), written, read(last), ending(random, Some(8))];
        scripts[handlers - 1] = whole[..random.place(6)].to_vec();
    }
    let order = match random.below(4) {
        0 => Vec::new(),
        1 => (0..=255).collect(),
        2 => vec![handlers as u8 - 1; 7],
        _ => (0..handlers as u8 + 1).cycle().take(40).collect(),
    };
    Parts::new(cells, &scripts, order)
}
