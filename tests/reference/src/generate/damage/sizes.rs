//! Damage to the two numbers in front of the table: handlers or cells out of range, in files that are right for them or not.
//! All of it is 30.
use crate::generate::Parts;
use crate::random::Random;

/// The file with another byte at a place.
fn with_byte(mut file: Vec<u8>, place: usize, byte: u8) -> Vec<u8> {
    file[place] = byte;
    file
}

/// The number of handlers is 0: the table has one entry then, or those that it had.
pub(super) fn no_handlers(random: &mut Random, parts: Parts) -> Vec<u8> {
    match random.once_in(2) {
        true => vec![0, 1, 0, 6, 0, 0],
        false => with_byte(parts.file(), 0, 0),
    }
}

/// Handlers above 16, mostly by one, each with its script.
pub(super) fn many_handlers(random: &mut Random, mut parts: Parts) -> Vec<u8> {
    parts.scripts.resize(random.one_of(&[17, 17, 18, 64, 255]), Vec::new());
    parts.file()
}

/// The number of cells is 0.
pub(super) fn no_cells(_: &mut Random, parts: Parts) -> Vec<u8> {
    with_byte(parts.file(), 1, 0)
}

/// The number of cells is above 32, mostly by one.
pub(super) fn many_cells(random: &mut Random, parts: Parts) -> Vec<u8> {
    with_byte(parts.file(), 1, random.one_of(&[33, 33, 33, 34, 255]))
}
