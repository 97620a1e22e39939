//! Damage to scripts: unknown codes and writes cut short, which are 15, also where the script is never ordered; and an unknown code
//! in a file that is 30 besides, which goes first.
use super::lengths::{one_byte_behind_the_longest, one_byte_more, tail};
use super::sizes::{many_cells, many_handlers, no_cells, no_handlers};
use super::table::{gap, last_body_too_long, last_body_too_short};
use super::Spoil;
use crate::generate::Parts;
use crate::random::Random;
use crate::steps::is_write;

/// A code that stands for no step, often next to those that do.
fn any_unknown_code(random: &mut Random) -> u8 {
    match random.below(3) {
        0 => random.one_of(&[3, 31, 96, 255]),
        1 => random.within(3, 31) as u8,
        _ => random.within(96, 255) as u8,
    }
}

/// The places of a script where a step begins, and its end.
fn step_places(script: &[u8]) -> Vec<usize> {
    let mut places = vec![0];
    let mut place = 0;
    while place < script.len() {
        place += if is_write(script[place]) { 5 } else { 1 };
        places.push(place);
    }
    places
}

/// Puts an unknown code before, between or behind the steps of a script, and gives the handler back. Often four bytes follow that
/// are known codes and would do for a value.
fn put_unknown_code(random: &mut Random, parts: &mut Parts) -> usize {
    let code = any_unknown_code(random);
    let handler = random.place(parts.handlers());
    let script = &mut parts.scripts[handler];
    let place = random.one_of(&step_places(script));
    let behind = if random.once_in(2) { 4 } else { 0 };
    script.splice(place..place, [vec![code], vec![0; behind]].concat());
    handler
}

/// An unknown code in some script.
pub(super) fn unknown_code(random: &mut Random, mut parts: Parts) -> Vec<u8> {
    put_unknown_code(random, &mut parts);
    parts.file()
}

/// An unknown code in the script of a handler that the order never names.
pub(super) fn unknown_code_never_ordered(random: &mut Random, mut parts: Parts) -> Vec<u8> {
    let handler = put_unknown_code(random, &mut parts);
    parts.order.retain(|&byte| usize::from(byte) != handler);
    parts.file()
}

/// A script that ends in a write of a cell from the first to the last, which lacks bytes of its value.
fn cut_short(random: &mut Random, mut parts: Parts, first: u8, last: u8) -> Vec<u8> {
    let handler = random.place(parts.handlers());
    let script = &mut parts.scripts[handler];
    script.push(64 + random.within(first.into(), last.into()) as u8);
    script.extend(vec![0; random.place(4)]);
    parts.file()
}

/// A write cut short of a cell that there is.
pub(super) fn write_cut_short(random: &mut Random, parts: Parts) -> Vec<u8> {
    let last = parts.cells - 1;
    cut_short(random, parts, 0, last)
}

/// A write cut short of a cell that there is not: 15 still, and not 12.
pub(super) fn write_cut_short_of_no_cell(random: &mut Random, parts: Parts) -> Vec<u8> {
    let first = parts.cells;
    cut_short(random, parts, first, 31)
}

/// An unknown code, and one of some other damages besides.
fn with_unknown_code(random: &mut Random, mut parts: Parts, others: &[Spoil]) -> Vec<u8> {
    put_unknown_code(random, &mut parts);
    random.one_of(others)(random, parts)
}

/// An unknown code in a file whose numbers, table or end are not right.
pub(super) fn table_and_code(random: &mut Random, parts: Parts) -> Vec<u8> {
    let others: [Spoil; 8] =
        [no_handlers, many_handlers, no_cells, many_cells, gap, tail, last_body_too_long, last_body_too_short];
    with_unknown_code(random, parts, &others)
}

/// An unknown code in a file that is too long by one byte.
pub(super) fn length_and_code(random: &mut Random, parts: Parts) -> Vec<u8> {
    with_unknown_code(random, parts, &[one_byte_more, one_byte_behind_the_longest])
}
