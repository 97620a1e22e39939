//! Files damaged in every way that docs/SCHEDULE.md refuses, and by chance. Each way is listed once, in `ALL`, with the number that its
//! files are refused with; what does it stands in the modules, by the part of the file that is spoilt.
mod chance;
mod codes;
mod lengths;
mod sizes;
mod table;

use super::parts::Parts;
use super::shapes::{careless, contended, edge};
use crate::random::Random;

/// Makes a damaged file of a sound schedule.
type Spoil = fn(&mut Random, Parts) -> Vec<u8>;

/// A way to damage a file.
#[derive(Clone, Copy)]
pub struct Damage {
    pub name: &'static str,
    /// The number that such a file is refused with, where the damage alone decides it.
    pub number: Option<u32>,
    /// Whether the file gets very long, so that it is made less often.
    long: bool,
    spoil: Spoil,
}

/// A way that is always refused with a number.
const fn refused(number: u32, name: &'static str, spoil: Spoil) -> Damage {
    Damage { name, number: Some(number), long: false, spoil }
}

/// A way that makes a file very long, which is always refused with 30.
const fn long(name: &'static str, spoil: Spoil) -> Damage {
    Damage { name, number: Some(30), long: true, spoil }
}

/// A way that may leave a file sound.
const fn by_chance(name: &'static str, spoil: Spoil) -> Damage {
    Damage { name, number: None, long: false, spoil }
}

impl Damage {
    /// Every way. What a seed leads to depends on their order, and nothing else does.
    pub const ALL: [Damage; 29] = [
        refused(30, "no byte", lengths::empty),
        refused(30, "one byte", lengths::one_byte),
        refused(30, "a table past the end", lengths::table_past_the_end),
        refused(30, "no handlers", sizes::no_handlers),
        refused(30, "too many handlers", sizes::many_handlers),
        refused(30, "no cells", sizes::no_cells),
        refused(30, "too many cells", sizes::many_cells),
        refused(30, "a gap", table::gap),
        refused(30, "an overlap", table::overlap),
        refused(30, "bodies exchanged", table::exchanged),
        refused(30, "little-endian", table::little_endian),
        refused(30, "a tail", lengths::tail),
        refused(30, "truncated", lengths::truncated),
        refused(30, "the last body too long", table::last_body_too_long),
        refused(30, "the last body too short", table::last_body_too_short),
        refused(30, "an empty body elsewhere", table::empty_body_elsewhere),
        refused(30, "right but for 65,536", table::wrapping),
        long("one byte more than the longest", lengths::one_byte_more),
        long("one byte behind the longest", lengths::one_byte_behind_the_longest),
        long("much too long", lengths::much_too_long),
        refused(15, "an unknown code", codes::unknown_code),
        refused(15, "an unknown code never ordered", codes::unknown_code_never_ordered),
        refused(15, "a write cut short", codes::write_cut_short),
        refused(15, "a write cut short, of no cell", codes::write_cut_short_of_no_cell),
        refused(30, "the table and a code", codes::table_and_code),
        long("the length and a code", codes::length_and_code),
        by_chance("flipped bits", chance::flipped),
        by_chance("a byte of the table changed", chance::changed_table),
        by_chance("noise", chance::noise),
    ];

    /// A file damaged so.
    pub fn file(self, random: &mut Random) -> Vec<u8> {
        let parts = small(random);
        (self.spoil)(random, parts)
    }
}

/// A smaller schedule to be damaged: fewer than 32 cells, its order and the script of handler 0 not empty.
fn small(random: &mut Random) -> Parts {
    let mut parts = match random.below(3) {
        0 => careless(random),
        1 => edge(random),
        _ => contended(random),
    };
    parts.cells = parts.cells.min(31);
    if parts.scripts[0].is_empty() {
        parts.scripts[0].push(0);
    }
    if parts.order.is_empty() {
        parts.order.push(0);
    }
    parts
}

/// A damaged file, each way about as often as another; of the very long ones, most give way to something shorter.
pub fn damaged(random: &mut Random) -> Vec<u8> {
    let mut damage = random.one_of(&Damage::ALL);
    if damage.long && !random.once_in(4) {
        damage.spoil = random.one_of(&[chance::flipped as Spoil, chance::changed_table, codes::table_and_code]);
    }
    damage.file(random)
}

#[cfg(test)]
mod tests {
    use super::*;
    use crate::schedule::judge;
    use std::collections::BTreeSet;

    /// The numbers that some files of a way are refused with; none for a sound one.
    fn numbers(seed: u64, files: u32, damage: Damage) -> BTreeSet<Option<u32>> {
        let mut random = Random::new(seed);
        (0..files).map(|_| judge(&damage.file(&mut random)).err()).collect()
    }

    #[test]
    fn each_damage_has_its_number() {
        for damage in Damage::ALL.into_iter().filter(|damage| damage.number.is_some()) {
            assert_eq!(numbers(2, 100, damage), [damage.number].into(), "{}", damage.name);
        }
    }

    #[test]
    fn damage_by_chance_has_some_numbers() {
        let chances = Damage::ALL.into_iter().filter(|damage| damage.number.is_none());
        let found = chances.map(|damage| (damage.name, numbers(3, 300, damage)));
        let expected: [(&str, BTreeSet<_>); 3] = [
            ("flipped bits", [None, Some(15), Some(30)].into()),
            ("a byte of the table changed", [None, Some(30)].into()),
            ("noise", [Some(30)].into()),
        ];
        assert_eq!(found.collect::<Vec<_>>(), expected);
    }
}
