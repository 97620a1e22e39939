//! Damage by chance, which may leave a file sound: flipped bits, a byte of the table changed, and bytes that never were a schedule.
//! Only the comparison says what these come to.
use crate::generate::Parts;
use crate::random::Random;

/// Some bits of the file flipped.
pub(super) fn flipped(random: &mut Random, parts: Parts) -> Vec<u8> {
    let mut file = parts.file();
    for _ in 0..random.within(1, 3) {
        let place = random.place(file.len());
        file[place] ^= 1 << random.below(8);
    }
    file
}

/// One byte before the bodies changed: by a bit, by one, or to any.
pub(super) fn changed_table(random: &mut Random, parts: Parts) -> Vec<u8> {
    let mut file = parts.file();
    let byte = &mut file[random.place(parts.table_end())];
    *byte = match random.below(3) {
        0 => *byte ^ 1 << random.below(8),
        1 => byte.wrapping_add(random.one_of(&[1, 255])),
        _ => random.byte(),
    };
    file
}

/// Bytes that are no schedule, half of them with numbers of handlers and cells in range.
pub(super) fn noise(random: &mut Random, _: Parts) -> Vec<u8> {
    let length = random.below(200);
    let mut file: Vec<u8> = (0..length).map(|_| random.byte()).collect();
    if length > 2 && random.once_in(2) {
        file[0] = random.within(1, 16) as u8;
        file[1] = random.within(1, 32) as u8;
    }
    file
}
