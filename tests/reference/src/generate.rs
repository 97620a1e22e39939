//! Random schedule files from a seed: sound ones of several shapes, and ones damaged in every way that docs/SCHEDULE.md refuses; and
//! files at the borders, which are no chance. The proved programs are compared with this crate's on all of them.
mod borders;
mod damage;
mod exact;
mod parts;
mod shapes;
mod transactions;

use crate::random::Random;
use crate::schedule::LONGEST;

pub use borders::borders;
pub use damage::{damaged, Damage};
pub use exact::{of_length, with_commits};
pub use parts::Parts;
pub(crate) use transactions::any_write;

/// A schedule of any shape, the longest files being seldom.
fn any_shape(random: &mut Random) -> Parts {
    match random.below(1000) {
        0..=9 => {
            let length = LONGEST - random.one_of(&[0, 0, 1, 7]);
            let (cells, handlers) = random.one_of(&[(32, 16), (32, 16), (2, 16), (5, 3)]);
            of_length(random, cells, handlers, length, Some(8))
        }
        10..=59 => {
            let (cells, handlers) = (random.within(1, 32) as u8, random.within(1, 16) as u8);
            let length = random.within(300, 6000) as usize;
            of_length(random, cells, handlers, length, Some(8))
        }
        60..=149 => {
            let commits = random.one_of(&[2, 63, 64, 64, 65, 65, 66, 130]);
            with_commits(random, commits)
        }
        150..=219 => shapes::edge(random),
        220..=319 => shapes::careless(random),
        320..=569 => shapes::long_pasts(random),
        570..=669 => shapes::readers_and_writers(random),
        670..=819 => shapes::half_seen(random),
        _ => shapes::contended(random),
    }
}

/// A sound file.
pub fn sound(random: &mut Random) -> Vec<u8> {
    any_shape(random).file()
}

#[cfg(test)]
mod tests {
    use super::*;
    use crate::counts::Counts;
    use crate::runner::run;
    use crate::{aborts, judge};

    #[test]
    fn sound_files_have_every_reply() {
        let mut random = Random::new(1);
        let mut counts = Counts::default();
        for _ in 0..600 {
            counts.answers(run(&sound(&mut random)).as_ref());
        }
        let all = [
            "abort 1",
            "abort 2",
            "abort 5",
            "cell unset",
            "cell value",
            "cell value 0",
            "commit",
            "ok",
            "own value",
            "own value 0",
            "refused 11",
            "refused 12",
            "refused 13",
            "refused 14",
            "refused 32",
            "unset",
            "unset again",
            "value",
            "value 0",
            "value 0 again",
            "value again",
        ];
        assert_eq!(counts.names(), all);
        assert!(all.iter().all(|name| counts.of(name) > 100), "{}", counts.shown());
    }

    #[test]
    fn aborts_of_sound_files_choose_from_several_cells() {
        let mut random = Random::new(2);
        let mut counts = Counts::default();
        for _ in 0..600 {
            judge::run(&sound(&mut random)).iter().for_each(|(_, history)| counts.choices(history));
        }
        assert!(aborts::in_files().iter().all(|name| counts.of(name) > 50), "{}", counts.shown());
    }

    #[test]
    fn the_same_seed_gives_the_same_files() {
        let (mut one, mut other) = (Random::new(6), Random::new(6));
        for _ in 0..50 {
            assert_eq!(sound(&mut one), sound(&mut other));
            assert_eq!(damaged(&mut one), damaged(&mut other));
        }
    }
}
