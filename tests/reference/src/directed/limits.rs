//! Schedules for the judge with 64 commits, with 65 and with more: of one handler, of several in turn, of all side by side, and of
//! transactions that read and write nothing; and what may stand between the 64th and the 65th.
use super::{directed, Directed};
use crate::course::Course;
use crate::judge::MOST;
use crate::steps::{read, write, BEGIN, GIVE_UP, TRY};

/// One handler alone, which reads its cell and writes it.
fn alone(commits: usize) -> Course {
    let mut course = Course::new(1, 1);
    for place in 0..commits {
        course.transaction(0, &[read(0), write(0, place as u32)]);
    }
    course
}

/// One handler alone, which gives up before each commit.
fn giving_up(commits: usize) -> Course {
    let mut course = Course::new(1, 1);
    for place in 0..commits {
        course.take_all(0, [BEGIN, read(0), write(0, 9), GIVE_UP]);
        course.transaction(0, &[write(0, place as u32)]);
    }
    course
}

/// Transactions that read and write nothing, each handler in turn.
fn nothing(handlers: usize, commits: usize) -> Course {
    let mut course = Course::new(2, handlers);
    for place in 0..commits {
        course.transaction(place % handlers, &[]);
    }
    course
}

/// Transactions of nothing, of a read, of a write, and of both, in turn, of five handlers.
fn mixed(commits: usize) -> Course {
    let mut course = Course::new(3, 5);
    for place in 0..commits {
        let (read, write) = (read((place % 3) as u8), write((place / 2 % 3) as u8, place as u32));
        let kinds = [&[][..], &[read], &[write], &[read, write]];
        course.transaction(place % 5, kinds[place % 4]);
    }
    course
}

/// All 16 handlers begin, read and write a cell of their own, and then try one after another, so many times.
fn side_by_side(rounds: usize) -> Course {
    let mut course = Course::new(16, 16);
    for round in 0..rounds {
        for handler in 0..16 {
            course.take_all(handler, [BEGIN, read(handler as u8), write(handler as u8, round as u32)]);
        }
        for handler in 0..16 {
            course.take(handler, TRY);
        }
    }
    course
}

/// With 64 commits noted: aborts 2, reads, writes and every refusal. Then the text, which may commit.
fn at_the_limit(then: &str) -> Course {
    let mut course = Course::new(3, 5);
    course.follow("0:begin,read0 1:begin,read0,write1=3 2:begin,read1");
    for place in 0..MOST {
        course.transaction(3, &[write(0, place as u32)]);
    }
    course.follow("0:try 1:read0,write2=5,try 9:none 4:none 0:read1,begin,begin,read5,read0,write1=4 3:none");
    course.follow(then);
    course
}

/// The schedules at the 64th and 65th commit.
pub(super) fn all() -> Vec<Directed> {
    vec![
        directed("one handler, 64 commits", &alone(64), "255 0 1 commit"),
        directed("one handler, 65 commits", &alone(65), "259 0 1 refused 33"),
        directed("one handler, 66 commits", &alone(66), "259 0 1 refused 33"),
        directed("one handler, 64 commits, as many give ups", &giving_up(64), "447 0 1 commit"),
        directed("one handler, 65 commits, as many give ups", &giving_up(65), "454 0 1 refused 33"),
        directed("one handler, 63 commits of nothing", &nothing(1, 63), "125 0 1 commit"),
        directed("one handler, 64 commits of nothing", &nothing(1, 64), "127 0 1 commit"),
        directed("one handler, 65 commits of nothing", &nothing(1, 65), "129 0 1 refused 33"),
        directed("one handler, 66 commits of nothing", &nothing(1, 66), "129 0 1 refused 33"),
        directed("16 handlers, 64 commits of nothing", &nothing(16, 64), "127 15 1 commit"),
        directed("16 handlers, 65 commits of nothing", &nothing(16, 65), "129 0 1 refused 33"),
        directed("16 handlers, 66 commits of nothing", &nothing(16, 66), "129 0 1 refused 33"),
        directed("64 commits, some of nothing", &mixed(64), "191 3 1 commit"),
        directed("65 commits, some of nothing", &mixed(65), "193 4 1 refused 33"),
        directed("200 commits, some of nothing", &mixed(200), "193 4 1 refused 33"),
        directed("64 commits side by side", &side_by_side(4), "255 15 1 commit"),
        directed("80 commits side by side", &side_by_side(5), "304 0 1 refused 33"),
        directed("aborts and refusals after 64 commits", &at_the_limit(""), "211 3 - refused 32"),
        directed("aborts and refusals, then a commit", &at_the_limit("0:try"), "212 0 1 refused 33"),
        directed("a commit of reads after 64", &at_the_limit("2:try 0:read2,try"), "212 2 1 refused 33"),
        directed("a try while idle after 64 commits", &at_the_limit("1:try"), "212 1 1 refused 14"),
        directed("a give up after 64 commits", &at_the_limit("2:give-up"), "212 2 2 abort 5"),
        directed("a give up while idle after 64 commits", &at_the_limit("1:give-up"), "212 1 2 refused 14"),
        directed("give ups after 64, then a commit", &at_the_limit("2:give-up 0:give-up,begin,try"), "215 0 1 refused 33"),
        directed("a commit of nothing after 64", &at_the_limit("1:try,begin,try 2:read2"), "214 1 1 refused 33"),
    ]
}
