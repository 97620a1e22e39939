//! Schedules for the judge with large and deep pasts, with each cell and each handler in turn, and with each cell as the one that an abort
//! names. A random schedule hardly gets so far.
use super::{directed, Directed};
use crate::course::Course;
use crate::judge::MOST;
use crate::steps::{read, write, BEGIN, TRY};

/// 64 commits of so many handlers, each of all 32 cells read and then written. Before them the 16th handler does what the text
/// says.
fn largest(writers: usize, before: &str) -> Course {
    let mut course = Course::new(32, 16);
    course.follow(before);
    for place in 0..MOST {
        let reads = (0..32).map(read);
        let writes = (0..32).map(|cell| write(cell, 32 * place as u32 + u32::from(cell)));
        course.transaction(place % writers, &reads.chain(writes).collect::<Vec<_>>());
    }
    course
}

/// The largest pasts, and each handler reads all cells once more.
pub fn largest_past() -> Directed {
    let mut course = largest(16, "");
    for handler in 0..16 {
        course.take(handler, BEGIN);
        course.take_all(handler, (0..32).map(read));
    }
    directed("64 commits of 32 cells on 16 handlers", &course, "4751 15 63 value 2047")
}

/// 64 commits of 15 handlers in turn, each of a read of the cell that the one before wrote and a write of the next. Handler 0 has
/// read the first of these cells, and reads the last.
fn long_chain() -> Course {
    let mut course = Course::new(32, 16);
    course.follow("0:begin,read0 1:begin,write0=1,try");
    let cell = |place: usize| if place == 0 { 0 } else { 1 + ((place - 1) % 31) as u8 };
    for place in 1..MOST {
        course.transaction(1 + place % 15, &[read(cell(place - 1)), write(cell(place), place as u32)]);
    }
    course.take(0, read(cell(MOST - 1)));
    course
}

/// Handler 1 writes cell 0, and each handler after it reads a cell and writes the next, in one transaction or in two. Handler 0
/// reads cell 0 before all that or, late, after the first commit, and cell 14 at the end. One handler may read another cell.
fn deep(two: bool, late: bool, astray: usize) -> Course {
    let mut course = Course::new(16, 16);
    course.follow(if late { "1:begin,write0=1,try 0:begin,read0" } else { "0:begin,read0 1:begin,write0=1,try" });
    for handler in 2..16 {
        let from = read(if handler == astray { 15 } else { handler as u8 - 2 });
        let to = write(handler as u8 - 1, handler as u32);
        if two {
            course.transaction(handler, &[from]);
            course.transaction(handler, &[to]);
        } else {
            course.transaction(handler, &[from, to]);
        }
    }
    course.take(0, read(14));
    course
}

/// Handler 0 has read cell 0, which the 64th commit writes, the only one of something, along with cell 1.
fn the_last() -> Course {
    let mut course = Course::new(2, 2);
    course.follow("0:begin,read0");
    for _ in 1..MOST {
        course.transaction(1, &[]);
    }
    course.follow("1:begin,write0=5,write1=7,try 0:read1");
    course
}

/// Handler 0 reads a cell, which is then written together with the next cell, and reads that one: for each cell.
fn each_cell() -> Course {
    let mut course = Course::new(32, 2);
    for cell in 0..32 {
        let next = (cell + 1) % 32;
        course.take_all(0, [BEGIN, read(cell)]);
        course.transaction(1, &[write(cell, 5), write(next, 7)]);
        course.take(0, read(next));
    }
    course
}

/// Handler 0 reads cell 0, another writes it and in a second transaction cell 1, which handler 0 reads: for each other handler.
fn each_handler() -> Course {
    let mut course = Course::new(2, 16);
    for handler in 1..16 {
        course.take_all(0, [BEGIN, read(0)]);
        course.transaction(handler, &[write(0, 5)]);
        course.transaction(handler, &[write(1, 7)]);
        course.take(0, read(1));
    }
    course
}

/// Handler 0 reads all cells but the last, in falling order, of which another then writes those from one cell on; handler 0 reads the last: for
/// each cell.
fn each_lowest_read() -> Course {
    let mut course = Course::new(32, 2);
    for lowest in 0..31 {
        course.take(0, BEGIN);
        course.take_all(0, (0..31).rev().map(read));
        course.transaction(1, &(lowest..32).map(|cell| write(cell, 5)).collect::<Vec<_>>());
        course.take(0, read(31));
    }
    course
}

/// Handler 0 reads all cells, of which another then writes those from one cell on, the highest first; handler 0 tries: for each cell.
fn each_lowest_tried() -> Course {
    let mut course = Course::new(32, 2);
    for lowest in 0..32 {
        course.take(0, BEGIN);
        course.take_all(0, (0..32).map(read));
        course.transaction(1, &(lowest..32).rev().map(|cell| write(cell, 5)).collect::<Vec<_>>());
        course.take(0, TRY);
    }
    course
}

/// The schedules of large and deep pasts.
pub(super) fn all() -> Vec<Directed> {
    let stale = |then: &str| {
        let mut course = largest(15, "15:begin,read0");
        course.follow(then);
        course
    };
    vec![
        largest_past(),
        directed("the largest past of an early reader, read", &stale("15:read31"), "4226 15 63 abort 1 cell 0"),
        directed("the largest past of an early reader, tried", &stale("15:try,begin,read0,try"), "4229 15 1 refused 33"),
        directed("a chain of 64 commits", &long_chain(), "257 0 33 abort 1 cell 0"),
        directed("the 64th commit", &the_last(), "132 0 33 abort 1 cell 0"),
        directed("each cell overtaken in turn", &each_cell(), "223 0 32 abort 1 cell 31"),
        directed("each cell the lowest of those overtaken, read", &each_lowest_read(), " 0 63 abort 1 cell 30"),
        directed("each cell the lowest of those overtaken, tried", &each_lowest_tried(), " 0 1 abort 2 cell 31"),
        directed("each handler's earlier commit in turn", &each_handler(), "134 0 33 abort 1 cell 0"),
        directed("14 reads deep", &deep(false, false, 0), "61 0 46 abort 1 cell 0"),
        directed("14 reads deep, the reader late", &deep(false, true, 0), "61 0 46 value 15"),
        directed("14 reads deep, one astray", &deep(false, false, 8), "61 0 46 value 15"),
        directed("28 deep through handlers", &deep(true, false, 0), "89 0 46 abort 1 cell 0"),
        directed("28 deep through handlers, the reader late", &deep(true, true, 0), "89 0 46 value 15"),
        directed("28 deep through handlers, one astray", &deep(true, false, 8), "89 0 46 value 15"),
    ]
}
