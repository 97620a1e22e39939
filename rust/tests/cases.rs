//! The cases of docs/RULES.md, K1 to K14, through the library.
use zidlemowo::{needed, Abort, Refusal, Register, Reply, Step};

fn register(handlers: u32) -> Register<'static> {
    Register::new(2, handlers).expect("in range")
}

/// A transaction of the handler that writes these cells and commits.
fn commits(register: &mut Register<'_>, handler: u32, writes: &[(u32, u32)]) {
    assert_eq!(register.begin(handler), Ok(()));
    for &(cell, value) in writes {
        assert_eq!(register.write(handler, cell, value), Ok(()));
    }
    assert_eq!(register.try_commit(handler), Ok(Ok(())));
}

/// A transaction of the handler is begun, and its first read finds this: a value, or that the cell is unset.
fn begins_and_reads(register: &mut Register<'_>, handler: u32, cell: u32, found: Option<u32>) {
    assert_eq!(register.begin(handler), Ok(()));
    assert_eq!(register.read(handler, cell), Ok(Ok(found)));
}

/// A cell of a register of two: its value, and its numbers.
fn cell(register: &Register<'_>, cell: usize) -> (u32, [u32; 2]) {
    let words = &register.words()[2 + 3 * cell..];
    (words[0], [words[1], words[2]])
}

#[test]
fn k1_seventeen_words_open_and_sixteen_do_not() {
    let mut words = [7; 17];
    assert_eq!(Register::open(&mut words[..16], 2, 1).unwrap_err(), Refusal::TooShort);
    assert_eq!(words, [7; 17]);
    assert!(Register::open(&mut words, 2, 1).is_ok());
}

#[test]
fn k2_which_check_goes_first() {
    let mut register = register(1);
    assert_eq!(register.read(0, 31), Err(Refusal::NoCell));
    assert_eq!(register.step(16, 3, 0), Reply::Refused(Refusal::UnknownStep));
}

#[test]
fn k3_begin_begin() {
    let mut register = register(1);
    assert_eq!(register.begin(0), Ok(()));
    assert_eq!(register.begin(0), Err(Refusal::AlreadyOpen));
}

#[test]
fn k4_begin_try() {
    let mut register = register(1);
    let before = register.words().to_vec();
    commits(&mut register, 0, &[]);
    assert_eq!(register.words(), before);
}

#[test]
fn k5_own_write() {
    let mut register = register(2);
    assert_eq!(register.begin(0), Ok(()));
    assert_eq!(register.write(0, 0, 5), Ok(()));
    assert_eq!(register.read(0, 0), Ok(Ok(Some(5))));
    commits(&mut register, 1, &[(0, 9)]);
    assert_eq!(register.try_commit(0), Ok(Ok(())));
    assert_eq!(cell(&register, 0), (5, [2, 0]));
}

#[test]
fn k6_stale_read() {
    for writes_too in [false, true] {
        let mut register = register(2);
        begins_and_reads(&mut register, 0, 0, None);
        commits(&mut register, 1, &[(0, 5)]);
        if writes_too {
            assert_eq!(register.write(0, 0, 7), Ok(()));
        }
        assert_eq!(register.try_commit(0), Ok(Err(Abort::Overtaken { cell: 0 })));
        assert_eq!(cell(&register, 0), (5, [1, 0]));
        assert_eq!(register.try_commit(0), Err(Refusal::NotOpen));
    }
}

#[test]
fn k7_the_listing() {
    let order = [
        (0, Step::Begin),
        (0, Step::Read(0)),
        (1, Step::Begin),
        (1, Step::Write(0, 5)),
        (1, Step::Write(1, 7)),
        (1, Step::Try),
        (0, Step::Read(1)),
    ];
    let mut register = register(2);
    let mut printed = String::from("handlers 2 cells 2\n");
    for (place, (handler, step)) in order.into_iter().enumerate() {
        let code = step.code();
        printed += &format!("{place} {handler} {code} {}\n", register.take(handler, step));
    }
    for c in 0..2 {
        let (value, numbers) = cell(&register, c);
        printed += &format!("cell {c} value {value} number {}\n", numbers[c]);
    }
    assert_eq!(printed, include_str!("../../examples/listing.out"));
}

#[test]
fn k8_past_through_a_read() {
    let mut register = register(3);
    begins_and_reads(&mut register, 0, 0, None);
    commits(&mut register, 1, &[(0, 5)]);
    begins_and_reads(&mut register, 2, 0, Some(5));
    assert_eq!(register.write(2, 1, 6), Ok(()));
    assert_eq!(register.try_commit(2), Ok(Ok(())));
    assert_eq!(register.read(0, 1), Ok(Err(Abort::Torn { cell: 0 })));
    assert_eq!(cell(&register, 1), (6, [1, 1]));
}

#[test]
fn k9_past_through_a_handler() {
    let mut register = register(2);
    begins_and_reads(&mut register, 0, 0, None);
    commits(&mut register, 1, &[(0, 5)]);
    commits(&mut register, 1, &[(1, 6)]);
    assert_eq!(register.read(0, 1), Ok(Err(Abort::Torn { cell: 0 })));
}

#[test]
fn k10_blind_write() {
    let mut register = register(3);
    begins_and_reads(&mut register, 0, 0, None);
    commits(&mut register, 1, &[(0, 5)]);
    commits(&mut register, 2, &[(1, 6)]);
    assert_eq!(register.read(0, 1), Ok(Ok(Some(6))));
    assert_eq!(register.try_commit(0), Ok(Err(Abort::Overtaken { cell: 0 })));
}

#[test]
fn k11_commit_order() {
    let mut register = register(3);
    commits(&mut register, 1, &[(1, 3)]);
    begins_and_reads(&mut register, 0, 1, Some(3));
    commits(&mut register, 2, &[(0, 4), (1, 8)]);
    assert_eq!(register.read(0, 0), Ok(Err(Abort::Torn { cell: 1 })));
}

/// The words of a fresh register but for cell 0's own number.
fn with_number(number: u32) -> Vec<u32> {
    let mut words = register(2).words().to_vec();
    words[3] = number;
    words
}

#[test]
fn k12_the_last_number() {
    let mut words = with_number(65_534);
    let mut register = Register::resume(&mut words);
    commits(&mut register, 0, &[(0, 5)]);
    assert_eq!(cell(&register, 0), (5, [65_535, 0]));
    assert_eq!(register.begin(0), Ok(()));
    assert_eq!(register.write(0, 0, 6), Ok(()));
    assert_eq!(register.try_commit(0), Ok(Err(Abort::Spent { cell: 0 })));
    assert_eq!(cell(&register, 0), (5, [65_535, 0]));
}

#[test]
fn k12_a_stale_read_goes_first() {
    let mut words = with_number(65_535);
    let mut register = Register::resume(&mut words);
    begins_and_reads(&mut register, 0, 1, None);
    assert_eq!(register.write(0, 0, 6), Ok(()));
    commits(&mut register, 1, &[(1, 3)]);
    assert_eq!(register.try_commit(0), Ok(Err(Abort::Overtaken { cell: 1 })));
}

/// A register of 32 cells in which handler 0 has a transaction open with these steps, and handler 1 has then committed a write of these cells.
fn overtaken_by(steps: impl Iterator<Item = Step>, cells: impl Iterator<Item = u32>) -> Register<'static> {
    let mut register = Register::new(32, 2).expect("in range");
    assert_eq!(register.begin(0), Ok(()));
    steps.for_each(|step| assert!(matches!(register.take(0, step), Reply::Done | Reply::Unset)));
    commits(&mut register, 1, &cells.map(|cell| (cell, 7)).collect::<Vec<_>>());
    register
}

#[test]
fn the_lowest_cell_is_named() {
    for cell in 0..32 {
        // The one that is read at last; all others are read before, from the highest down.
        let last = if cell == 31 { 0 } else { 31 };
        let reads = || (0..32).rev().filter(|&other| other != last).map(Step::Read);
        let mut register = overtaken_by(reads(), (cell..32).chain([last]));
        assert_eq!(register.read(0, last), Ok(Err(Abort::Torn { cell })));
        let mut register = overtaken_by(reads(), (cell..32).chain([last]));
        assert_eq!(register.try_commit(0), Ok(Err(Abort::Overtaken { cell })));
        // All are written, and from the cell on they are spent.
        let mut words = overtaken_by((0..32).rev().map(|other| Step::Write(other, 7)), 0..32).words().to_vec();
        (cell as usize..32).for_each(|other| words[2 + 33 * other + 1 + other] = 65_535);
        assert_eq!(Register::resume(&mut words).try_commit(0), Ok(Err(Abort::Spent { cell })));
    }
}

#[test]
fn k13_sizes() {
    assert_eq!(Register::new(33, 1).unwrap_err(), Refusal::OutOfRange);
    assert_eq!(needed(32, 16), Some(2_642));
    assert_eq!(Register::new(32, 16).expect("the largest").words().len(), 2_642);
}

#[test]
fn k14_give_up() {
    let mut register = register(2);
    commits(&mut register, 0, &[(1, 3)]);
    commits(&mut register, 1, &[(0, 5)]);
    let before = register.words().to_vec();
    begins_and_reads(&mut register, 0, 0, Some(5));
    assert_eq!(register.write(0, 1, 7), Ok(()));
    assert_eq!(register.take(0, Step::GiveUp), Reply::Aborted(Abort::GaveUp));
    assert_eq!(register.words(), before);
    assert_eq!(register.give_up(0), Err(Refusal::NotOpen));
    assert_eq!(register.begin(0), Ok(()));
    assert_eq!(register.give_up(0), Ok(()));
    assert_eq!(register.words(), before);
}

#[test]
fn a_cell_written_as_0_is_no_unset_one() {
    let mut register = register(2);
    begins_and_reads(&mut register, 0, 0, None);
    commits(&mut register, 1, &[(0, 0)]);
    assert_eq!(register.take(0, Step::Read(0)), Reply::Unset);
    assert_eq!(register.try_commit(0), Ok(Err(Abort::Overtaken { cell: 0 })));
    begins_and_reads(&mut register, 0, 0, Some(0));
    assert_eq!(register.read(0, 0), Ok(Ok(Some(0))));
    assert_eq!(register.read(0, 1), Ok(Ok(None)));
    assert_eq!(register.write(0, 1, 0), Ok(()));
    assert_eq!(register.read(0, 1), Ok(Ok(Some(0))));
    assert_eq!(register.give_up(0), Ok(()));
    begins_and_reads(&mut register, 0, 1, None);
}

#[test]
fn words_behind_a_register_stay() {
    let mut words = [7; 40];
    let mut register = Register::open(&mut words, 2, 2).expect("40 words are enough");
    begins_and_reads(&mut register, 0, 0, None);
    commits(&mut register, 1, &[(0, u32::MAX), (1, u32::MAX)]);
    assert_eq!(register.read(0, 1), Ok(Err(Abort::Torn { cell: 0 })));
    assert_eq!(words[needed(2, 2).expect("in range")..], [7; 14]);
}
