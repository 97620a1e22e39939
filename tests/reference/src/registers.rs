//! Random words for comparisons: registers, well formed and malformed, reachable or not, and the handlers and codes that they are asked
//! with.
use crate::random::Random;

/// A number of a cell, a handler or a transaction, often near 0 or 65,535.
fn number(random: &mut Random) -> u32 {
    match random.below(6) {
        0 => 65_535,
        1 => 65_534,
        2 => random.within(0, 65_535) as u32,
        _ => random.below(4) as u32,
    }
}

/// A set of cells: none, all, few or any.
fn set(random: &mut Random, m: u32) -> u32 {
    let all = if m == 32 { u32::MAX } else { (1 << m) - 1 };
    match random.below(4) {
        0 => 0,
        1 => all,
        2 => random.word() & random.word() & all,
        _ => random.word() & all,
    }
}

/// A value or a copy, now and then 0. With number 0 beside it, 0 or not, a read has to find it unset.
pub fn value(random: &mut Random) -> u32 {
    if random.once_in(4) {
        0
    } else {
        random.word()
    }
}

/// Gives every transaction the cells' own numbers, so that it has a chance to commit.
fn settle(words: &mut [u32]) {
    let m = words[0] as usize;
    let (cells, blocks) = words[2..].split_at_mut(m * (m + 1));
    for block in blocks.chunks_mut(3 + 3 * m) {
        for cell in 0..m {
            block[3 + m + cell] = cells[cell * (m + 1) + 1 + cell];
        }
    }
}

/// The same, and no cell depends on another; but for one to three cells, which have been written since, are spent, or have later versions on
/// which all others depend. So an abort has few cells to choose from, and a high one is named as often as a low one, the highest not seldom.
fn calm(random: &mut Random, words: &mut [u32]) {
    let m = words[0] as usize;
    let place = |x: usize, y: usize| 2 + x * (m + 1) + 1 + y;
    for (x, y) in (0..m).flat_map(|x| (0..m).map(move |y| (x, y))) {
        words[place(x, y)] = if x == y { random.below(4) as u32 } else { 0 };
    }
    let cell = |random: &mut Random| if random.once_in(4) { m - 1 } else { random.place(m) };
    let chosen: Vec<(usize, u64)> = (0..random.within(1, 3)).map(|_| (cell(random), random.below(3))).collect();
    chosen.iter().filter(|(_, how)| *how == 0).for_each(|&(cell, _)| words[place(cell, cell)] = 65_535);
    settle(words);
    for &(cell, how) in &chosen {
        match how {
            0 => (),
            1 => words[place(cell, cell)] ^= 1,
            _ => (0..m).filter(|&x| x != cell).for_each(|x| words[place(x, cell)] = 65_535),
        }
    }
}

/// Words of a well-formed register of m cells and n handlers, reachable or not, with words behind it.
pub fn well_formed(random: &mut Random, m: u32, n: u32) -> Vec<u32> {
    let mut words = vec![m, n];
    for _ in 0..m {
        words.push(value(random));
        words.extend((0..m).map(|_| number(random)).collect::<Vec<_>>());
    }
    for _ in 0..n {
        words.push(u32::from(!random.once_in(4)));
        words.push(set(random, m));
        words.push(set(random, m));
        words.extend((0..2 * m).map(|_| number(random)).collect::<Vec<_>>());
        words.extend((0..m).map(|_| value(random)).collect::<Vec<_>>());
    }
    match random.below(3) {
        0 => settle(&mut words),
        1 => calm(random, &mut words),
        _ => (),
    }
    words.extend((0..random.below(5)).map(|_| 0xdead_beef));
    words
}

/// Words that are no register: one thing of a well-formed one is spoilt.
pub fn malformed(random: &mut Random, m: u32, n: u32) -> Vec<u32> {
    let mut words = well_formed(random, m, n);
    let (m, n) = (m as usize, n as usize);
    let (first, long) = (2 + m * (m + 1), 3 + 3 * m);
    let block = first + random.place(n) * long;
    let big = random.one_of(&[65_536, 1 << 31, u32::MAX]);
    match random.below(9) {
        0 => words[0] = random.one_of(&[0, 33, u32::MAX]),
        1 => words[1] = random.one_of(&[0, 17, u32::MAX]),
        2 => words.truncate(random.place(first + n * long)),
        3 => words[2 + random.place(m) * (m + 1) + 1 + random.place(m)] = big,
        4 => words[block] = random.one_of(&[2, u32::MAX]),
        5 if m < 32 => words[block + 1] |= 1 << random.within(m as u64, 31),
        6 if m < 32 => words[block + 2] |= 1 << random.within(m as u64, 31),
        7 => words[block + 3 + random.place(m)] = big,
        _ => words[block + 3 + m + random.place(m)] = big,
    }
    words
}

/// A handler: mostly one that there is.
pub fn handler(random: &mut Random, n: u32) -> u32 {
    match random.below(10) {
        0 => n,
        1 => u32::MAX,
        _ => random.below(u64::from(n)) as u32,
    }
}

/// A step code: mostly one that stands for a step of a cell that there is.
pub fn code(random: &mut Random, m: u32) -> u32 {
    let m = u64::from(m.clamp(1, 32));
    match random.below(12) {
        0 => 0,
        1..=2 => 1,
        3 => 2,
        4..=6 => 32 + random.below(m) as u32,
        7..=8 => 64 + random.below(m) as u32,
        9 => random.byte().into(),
        10 => 32 + random.below(64) as u32,
        _ => random.one_of(&[3, 31, 96, 255, 256, u32::MAX]),
    }
}
