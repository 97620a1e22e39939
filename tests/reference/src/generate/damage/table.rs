//! Damage to the table of contents: entries that leave a gap, overlap, change places, have their bytes the other way round, or give
//! a body another length or place than it has. All of it is 30.
use crate::generate::Parts;
use crate::random::Random;

/// Any entry of the table.
fn any_entry(random: &mut Random, parts: &Parts) -> usize {
    random.place(parts.handlers() + 1)
}

/// The file whose table has the bodies from an entry on so many bytes further back, and the place where they began. The bodies
/// themselves still stand there.
fn moved(parts: &Parts, entry: usize, bytes: isize) -> (Vec<u8>, usize) {
    let mut table = parts.table();
    let began = table[entry].0;
    for (offset, _) in &mut table[entry..] {
        *offset = offset.wrapping_add_signed(bytes);
    }
    (parts.with_table(&table), began)
}

/// A few bytes that belong to no body before one of the bodies.
pub(super) fn gap(random: &mut Random, parts: Parts) -> Vec<u8> {
    let (entry, wide) = (any_entry(random, &parts), random.within(1, 4) as usize);
    let (mut file, began) = moved(&parts, entry, wide as isize);
    file.splice(began..began, vec![0; wide]);
    file
}

/// A body that begins with the last byte before it, of another body or of the table.
pub(super) fn overlap(random: &mut Random, parts: Parts) -> Vec<u8> {
    let (mut file, began) = moved(&parts, any_entry(random, &parts), -1);
    file.remove(began - 1);
    file
}

/// The order stands first and the scripts behind it, each where its entry says.
pub(super) fn exchanged(_: &mut Random, parts: Parts) -> Vec<u8> {
    let (first, order) = (parts.table_end(), parts.order.len());
    let mut table = parts.table();
    table.iter_mut().for_each(|(offset, _)| *offset += order);
    table[parts.handlers()].0 = first;
    let mut file = parts.with_table(&table);
    file[first..].rotate_right(order);
    file
}

/// Each number of the table with its bytes the other way round.
pub(super) fn little_endian(_: &mut Random, parts: Parts) -> Vec<u8> {
    let mut file = parts.file();
    file[2..parts.table_end()].chunks_mut(2).for_each(|pair| pair.swap(0, 1));
    file
}

/// The file whose table gives the order one of these lengths.
fn with_last_length(random: &mut Random, parts: &Parts, lengths: &[usize]) -> Vec<u8> {
    let mut table = parts.table();
    table[parts.handlers()].1 = random.one_of(lengths);
    parts.with_table(&table)
}

/// The order is longer by the table than it is.
pub(super) fn last_body_too_long(random: &mut Random, parts: Parts) -> Vec<u8> {
    let length = parts.order.len();
    with_last_length(random, &parts, &[length + 1, length + 256, 65_535])
}

/// The order is shorter by the table than it is.
pub(super) fn last_body_too_short(random: &mut Random, parts: Parts) -> Vec<u8> {
    with_last_length(random, &parts, &[parts.order.len() - 1, 0])
}

/// An empty body that the table has at another place than its own.
pub(super) fn empty_body_elsewhere(random: &mut Random, mut parts: Parts) -> Vec<u8> {
    let entry = any_entry(random, &parts);
    match parts.scripts.get_mut(entry) {
        Some(script) => script.clear(),
        None => parts.order.clear(),
    }
    let mut table = parts.table();
    let right = table[entry].0;
    let places = [0, 2, parts.table_end(), right - 1, right + 1, right + 256, parts.length(), 65_535];
    table[entry].0 = match random.one_of(&places) {
        place if place == right => 0,
        place => place,
    };
    parts.with_table(&table)
}

/// Right but for multiples of 65,536: two neighbours are longer together than they are by just that.
pub(super) fn wrapping(random: &mut Random, parts: Parts) -> Vec<u8> {
    let mut table = parts.table();
    let entry = random.place(parts.handlers());
    let together = table[entry].1 + table[entry + 1].1;
    let more = random.within(together as u64 + 1, 65_535) as usize;
    table[entry].1 = more;
    table[entry + 1] = ((table[entry].0 + more) % 65_536, together + 65_536 - more);
    parts.with_table(&table)
}
