//! Damage to a file's length: no byte, or so few that the table or a body is not all there; bytes behind the last body; and more
//! bytes than the longest file has. All of it is 30.
use crate::generate::Parts;
use crate::random::Random;
use crate::schedule::LONGEST;

/// No byte at all.
pub(super) fn empty(_: &mut Random, _: Parts) -> Vec<u8> {
    Vec::new()
}

/// One byte, whatever it is.
pub(super) fn one_byte(random: &mut Random, _: Parts) -> Vec<u8> {
    vec![random.byte()]
}

/// The file, cut anywhere before a place.
fn cut(random: &mut Random, parts: &Parts, place: usize) -> Vec<u8> {
    let mut file = parts.file();
    file.truncate(random.place(place));
    file
}

/// A file that ends before its table does.
pub(super) fn table_past_the_end(random: &mut Random, parts: Parts) -> Vec<u8> {
    cut(random, &parts, parts.table_end())
}

/// A file that ends before its last body does.
pub(super) fn truncated(random: &mut Random, parts: Parts) -> Vec<u8> {
    cut(random, &parts, parts.length())
}

/// A few bytes behind the last body.
pub(super) fn tail(random: &mut Random, parts: Parts) -> Vec<u8> {
    [parts.file(), vec![0; random.within(1, 5) as usize]].concat()
}

/// One byte more than the longest file has, and a table that is right.
pub(super) fn one_byte_more(_: &mut Random, parts: Parts) -> Vec<u8> {
    parts.resized(LONGEST + 1, 0).file()
}

/// The longest file, and a byte behind it.
pub(super) fn one_byte_behind_the_longest(_: &mut Random, parts: Parts) -> Vec<u8> {
    [parts.resized(LONGEST, 0).file(), vec![0]].concat()
}

/// A much longer file: the order's own length is right, or right but for multiples of 65,536.
pub(super) fn much_too_long(random: &mut Random, mut parts: Parts) -> Vec<u8> {
    parts.order.resize(random.one_of(&[65_535, 65_536, 65_537, 131_072, 200_000]), 0);
    parts.file()
}
