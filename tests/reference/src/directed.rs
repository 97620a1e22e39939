//! Schedules for the judge that are no chance: one for each way in which a past can be asked wrongly, and those at the 64th and
//! the 65th commit. Each says how the judge's last line of an order place ends.
mod limits;
mod pasts;
mod short;

use crate::course::Course;
pub use pasts::largest_past;

/// A schedule with its name, and with what it has to come to.
pub struct Directed {
    pub name: String,
    pub file: Vec<u8>,
    /// How the last line of an order place ends.
    pub last: &'static str,
}

/// The schedule of a course.
fn directed(name: &str, course: &Course, last: &'static str) -> Directed {
    Directed { name: name.into(), file: course.file(), last }
}

/// All of them.
pub fn all() -> Vec<Directed> {
    let short = short::SHORT.iter().map(|&(name, text, last)| {
        let mut course = Course::new(4, 4);
        course.follow(text);
        directed(name, &course, last)
    });
    short.chain(limits::all()).chain(pasts::all()).collect()
}

/// The last line of an order place, in what was printed.
pub fn last_place(printed: &str) -> &str {
    printed.lines().rfind(|line| !line.starts_with("cell")).unwrap_or("")
}

#[cfg(test)]
mod tests {
    use super::*;
    use crate::{judge, runner};

    #[test]
    fn each_comes_to_what_it_says() {
        for Directed { name, file, last } in all() {
            let printed = judge::printed(&file);
            assert!(last_place(&printed).ends_with(last), "{name}: {printed}");
            assert_eq!(judge::cut(&runner::printed(&file)), printed, "{name}");
        }
    }

    #[test]
    fn each_cell_is_named_in_turn() {
        let named = |name: &str, ending: &str| {
            let file = all().into_iter().find(|directed| directed.name == name).expect(name).file;
            let lines = runner::printed(&file);
            let aborts = lines.lines().filter_map(|line| line.split_once(ending)?.1.parse().ok());
            aborts.collect::<Vec<u32>>()
        };
        assert_eq!(named("each cell overtaken in turn", "abort 1 cell "), (0..32).collect::<Vec<_>>());
        assert_eq!(named("each cell the lowest of those overtaken, read", "abort 1 cell "), (0..31).collect::<Vec<_>>());
        assert_eq!(named("each cell the lowest of those overtaken, tried", "abort 2 cell "), (0..32).collect::<Vec<_>>());
    }

    #[test]
    fn the_deep_ones_are_deep() {
        let links = |directed: &Directed| judge::run(&directed.file).unwrap().1.links;
        let deepest = |name| all().iter().filter(|directed| directed.name == name).flat_map(links).max();
        assert_eq!((deepest("14 reads deep"), deepest("28 deep through handlers")), (Some(14), Some(28)));
    }
}
