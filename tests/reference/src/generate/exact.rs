//! Random schedules that have exactly so many commits, or exactly so many bytes. The judge notes 64 commits at most, and a file
//! has 65,535 bytes at most: what stands at these limits should not be left to chance.
use super::parts::Parts;
use super::transactions::{access, any_write, ending, interleaved, Manner};
use crate::random::Random;
use crate::steps::{self, read, Step, BEGIN, GIVE_UP, TRY};

/// A schedule with exactly so many commits (at least 2), many of them of transactions that read and wrote nothing. Whole
/// transactions come one after another, some of which give up and begin anew. Before them handler 0 reads cell 0, which is written,
/// and handler 1 the last cell, which is not; after them handler 0 tries and aborts, and handler 1 commits.
pub fn with_commits(random: &mut Random, commits: u64) -> Parts {
    let cells = random.within(2, 6) as u8;
    let handlers = random.within(3, 16);
    let mut scripts = vec![Vec::new(); handlers as usize];
    scripts[0].extend([BEGIN, read(0)]);
    scripts[1].extend([BEGIN, read(cells - 1)]);
    let mut order = vec![0, 0, 1, 1];
    let mut whole = |random: &mut Random, steps: &[Step]| {
        let handler = random.within(2, handlers - 1);
        scripts[handler as usize].extend(steps);
        order.extend(vec![handler as u8; steps.len()]);
    };
    let written = any_write(random, 0);
    whole(random, &[BEGIN, written, TRY]);
    for _ in 2..commits {
        let mut steps = vec![BEGIN];
        if !random.once_in(3) {
            for _ in 0..random.below(4) {
                let cell = random.below(u64::from(cells) - 1) as u8;
                steps.push(access(random, cell, 2));
            }
        }
        steps.push(ending(random, Some(8)));
        if steps.ends_with(&[GIVE_UP]) {
            steps.extend([BEGIN, TRY]);
        }
        whole(random, &steps);
    }
    scripts[0].extend([TRY, BEGIN, read(0)]);
    scripts[1].extend([TRY, TRY]);
    order.extend(random.one_of(&[[0, 1, 0, 0, 1], [1, 0, 0, 0, 1], [1, 1, 0, 0, 0]]));
    Parts::new(cells, &scripts, order)
}

/// A larger file: exactly so many bytes, about a step for each byte of the order; once in so many transactions one gives up.
pub fn of_length(random: &mut Random, cells: u8, handlers: u8, length: usize, give_up_in: Option<u64>) -> Parts {
    let manner = Manner { cells, longest: 12, write_in: random.within(2, 6), again_in: 4, odd_in: 300, give_up_in };
    let mut scripts = vec![Vec::new(); handlers.into()];
    // Each step needs its bytes in a script and one in the order; the last ones may not have theirs.
    let mut room = length.saturating_sub(Parts::new(cells, &scripts, Vec::new()).length());
    loop {
        let script = &mut scripts[random.place(handlers.into())];
        let before = script.len();
        manner.transaction(random, script);
        let need = steps::bytes(&script[before..]).len() + script.len() - before;
        if need > room {
            script.truncate(before);
            break;
        }
        room -= need;
    }
    let order = interleaved(random, &scripts, 3, 500);
    Parts::new(cells, &scripts, order).resized(length, handlers - 1)
}

#[cfg(test)]
mod tests {
    use super::*;
    use crate::register::Reply;
    use crate::runner::run;
    use crate::schedule::judge;

    #[test]
    fn exactly_so_many_commits() {
        let mut random = Random::new(4);
        for commits in [2, 63, 64, 65, 66, 130] {
            for _ in 0..20 {
                let run = run(&with_commits(&mut random, commits).file()).unwrap();
                assert_eq!(run.lines.iter().filter(|line| line.reply == Reply::Commit).count() as u64, commits);
                assert_eq!(run.lines.iter().filter(|line| line.reply == Reply::abort(2, 0)).count(), 1);
            }
        }
    }

    #[test]
    fn exactly_so_many_bytes() {
        let mut random = Random::new(5);
        for (cells, handlers, length) in [(1, 1, 300), (1, 16, 300), (32, 16, 65_535), (2, 3, 65_534)] {
            let file = of_length(&mut random, cells, handlers, length, Some(8)).file();
            assert_eq!(file.len(), length);
            let schedule = judge(&file).unwrap();
            let steps: usize = schedule.scripts.iter().map(Vec::len).sum();
            assert!(schedule.order.len().abs_diff(steps) < 100, "about as many places as steps");
        }
    }
}
