//! The register by cases of docs/RULES.md, the cell that an abort names, the order of the refusals of a give up, and the codes of
//! docs/CODES.md.
use super::*;

/// The replies to some steps on a fresh register, and the words then.
fn run(m: u32, n: u32, steps: &[(u32, u32, u32)]) -> (Vec<Reply>, Vec<u32>) {
    let mut words = vec![7; length(m, n).unwrap()];
    open(&mut words, m, n).unwrap();
    let replies = steps.iter().map(|&(handler, code, value)| step(&mut words, handler, code, value)).collect();
    (replies, words)
}

#[test]
fn lengths() {
    assert_eq!(length(1, 1), Some(10));
    assert_eq!(length(2, 1), Some(17));
    assert_eq!(length(32, 16), Some(2642));
    assert_eq!(length(33, 1), None);
}

#[test]
fn listing() {
    let steps = [(0, 0, 0), (0, 32, 0), (1, 0, 0), (1, 64, 5), (1, 65, 7), (1, 1, 0), (0, 33, 0)];
    let (replies, words) = run(2, 2, &steps);
    use Reply::*;
    assert_eq!(replies, [Ok, Unset, Ok, Ok, Ok, Commit, Reply::abort(1, 0)]);
    assert_eq!(words[2..8], [5, 1, 1, 7, 1, 1]);
}

#[test]
fn a_cell_written_as_0_is_no_unset_one() {
    use Reply::*;
    let steps =
        [(1, 0, 0), (1, 64, 0), (1, 32, 0), (1, 1, 0), (0, 0, 0), (0, 32, 0), (0, 33, 0), (0, 33, 0), (0, 65, 0), (0, 33, 0)];
    let (replies, words) = run(2, 2, &steps);
    assert_eq!(replies, [Ok, Ok, Value(0), Commit, Ok, Value(0), Unset, Unset, Ok, Value(0)]);
    assert_eq!(words[2..8], [0, 1, 0, 0, 0, 0]);
}

#[test]
fn unset_by_the_number_alone() {
    use Reply::*;
    // Two cells of value 9, the first with own number 0 and the second with 3; the handler has both in some set, with copies 8.
    let register = |read, written, numbers: [u32; 2]| {
        let mut words = vec![2, 1, 9, 0, 5, 9, 5, 3, 1, read, written, 6, 6];
        words.extend([&numbers[..], &[8, 8]].concat());
        words
    };
    let asked = |mut words: Vec<u32>, code| (step(&mut words, 0, code, 0), words);
    // A first read goes by the cell's own number, whatever its value is, which is copied all the same.
    let (reply, words) = asked(register(0, 0, [4, 0]), 32);
    assert_eq!((reply, &words[9..]), (Unset, &[1, 0, 6, 6, 0, 5, 9, 8][..]));
    assert_eq!(asked(register(0, 0, [4, 0]), 33).0, Value(9));
    // A later read goes by the transaction's number, whatever the cell's own number and the copy are, and changes no word.
    for (numbers, replies) in [([0, 0], [Unset, Unset]), ([1, 0], [Value(8), Unset]), ([0, 1], [Unset, Value(8)])] {
        assert_eq!(asked(register(3, 0, numbers), 32), (replies[0], register(3, 0, numbers)));
        assert_eq!(asked(register(3, 0, numbers), 33), (replies[1], register(3, 0, numbers)));
        // What the transaction has written is a value, whatever its number, and read or not.
        assert_eq!([0, 3].map(|read| asked(register(read, 3, numbers), 32).0), [Value(8); 2]);
    }
}

#[test]
fn given_up() {
    use Reply::*;
    let before = [(0, 0, 0), (0, 65, 3), (0, 1, 0), (1, 0, 0), (1, 64, 5), (1, 1, 0)];
    let steps = [&before[..], &[(0, 0, 0), (0, 32, 0), (0, 65, 7), (0, 2, 0), (0, 2, 0), (0, 1, 0)]].concat();
    let (replies, words) = run(2, 2, &steps);
    assert_eq!(replies[6..], [Ok, Value(5), Ok, Reply::GAVE_UP, Refused(14), Refused(14)]);
    // Every word is as it was before: the cells, and the handler's numbers, though the transaction has read a newer version.
    assert_eq!(words, run(2, 2, &before).1);
}

#[test]
fn given_up_whatever_became_of_the_reads() {
    use Reply::*;
    // The cell that was read is written by another handler, and a written cell's number is spent: no try could commit.
    let (replies, mut words) = run(2, 2, &[(0, 0, 0), (0, 32, 0), (0, 65, 7), (1, 0, 0), (1, 64, 5), (1, 1, 0)]);
    assert_eq!(replies[5], Commit);
    words[7] = 65_535;
    let cells = words[2..8].to_vec();
    assert_eq!(step(&mut words.clone(), 0, 1, 0), Reply::abort(2, 0));
    assert_eq!(step(&mut words, 0, 2, 9), Reply::GAVE_UP);
    assert_eq!((&words[2..8], &words[8..17]), (&cells[..], &[0; 9][..]));
}

/// The words of a register of four cells and one handler, which is open: the read and the written set, the own numbers of the cells, what
/// cell 3 depends on besides, and the transaction's numbers.
fn of_four(read: u32, written: u32, own: [u32; 4], third: [u32; 3], numbers: [u32; 4]) -> Vec<u32> {
    let mut words = vec![4, 1];
    for (cell, number) in own.into_iter().enumerate() {
        let mut dependencies = if cell == 3 { [third[0], third[1], third[2], 0] } else { [0; 4] };
        dependencies[cell] = number;
        words.extend([&[9], &dependencies[..]].concat());
    }
    words.extend([&[1, read, written, 0, 0, 0, 0][..], &numbers, &[8; 4]].concat());
    words
}

/// What a step comes to on these words. An abort leaves the cells and the handler's numbers, and clears the rest of the block.
fn aborted(mut words: Vec<u32>, code: u32) -> Reply {
    let mut expected = words.clone();
    expected[22..25].fill(0);
    expected[29..].fill(0);
    let reply = step(&mut words, 0, code, 0);
    assert!(!matches!(reply, Reply::Abort { .. }) || words == expected, "{words:?}");
    reply
}

#[test]
fn abort_1_names_the_lowest_cell_that_was_read_too_early() {
    // Cell 3 is read, which depends on versions 5 of cells 0 to 2.
    let read_3 = |read, numbers| aborted(of_four(read, 0, [5; 4], [5; 3], numbers), 35);
    assert_eq!(read_3(0b0111, [4, 4, 4, 0]), Reply::abort(1, 0));
    assert_eq!(read_3(0b0111, [5, 4, 4, 0]), Reply::abort(1, 1));
    assert_eq!(read_3(0b0111, [6, 9, 4, 0]), Reply::abort(1, 2));
    // A cell outside the read set is not asked, and neither is one that is only written.
    assert_eq!(read_3(0b0110, [4, 4, 4, 0]), Reply::abort(1, 1));
    assert_eq!(aborted(of_four(0b0100, 0b0011, [5; 4], [5; 3], [0; 4]), 35), Reply::abort(1, 2));
    assert_eq!(read_3(0b0111, [5; 4]), Reply::Value(9));
    // Nor the cell that is read, whatever number the transaction had for it.
    assert_eq!(read_3(0, [0; 4]), Reply::Value(9));
}

#[test]
fn abort_2_names_the_lowest_overtaken_cell() {
    let tried = |read, numbers| aborted(of_four(read, 0, [5; 4], [0; 3], numbers), 1);
    assert_eq!(tried(0b1111, [4, 6, 4, 4]), Reply::abort(2, 0));
    // Higher or lower, and not one that stands as it was read.
    assert_eq!(tried(0b1111, [5, 6, 4, 5]), Reply::abort(2, 1));
    assert_eq!(tried(0b1111, [5, 5, 5, 0]), Reply::abort(2, 3));
    assert_eq!(tried(0b1100, [4, 4, 4, 4]), Reply::abort(2, 2));
    assert_eq!(tried(0b1111, [5; 4]), Reply::Commit);
}

#[test]
fn abort_3_names_the_lowest_spent_cell() {
    let tried = |written, own| aborted(of_four(0, written, own, [0; 3], [0; 4]), 1);
    assert_eq!(tried(0b1111, [65_535; 4]), Reply::abort(3, 0));
    assert_eq!(tried(0b1111, [65_534, 65_535, 3, 65_535]), Reply::abort(3, 1));
    assert_eq!(tried(0b1010, [65_535, 65_534, 65_535, 65_535]), Reply::abort(3, 3));
    assert_eq!(tried(0b0101, [0, 65_535, 65_534, 65_535]), Reply::Commit);
    // An overtaken cell goes first, though it is a higher one.
    assert_eq!(aborted(of_four(0b1000, 0b0001, [65_535, 0, 0, 1], [0; 3], [0; 4]), 1), Reply::abort(2, 3));
}

#[test]
fn a_reply_in_numbers() {
    use Reply::*;
    let packed = |reply: Reply| (reply.numbers(), reply.packed());
    assert_eq!(packed(Value(u32::MAX)), ([1, u32::MAX, 0], (1 << 32) + 0xFFFF_FFFF));
    assert_eq!(packed(Reply::abort(1, 0)), ([3, 1, 0], (3 << 32) + 1));
    assert_eq!(packed(Reply::abort(2, 3)), ([3, 2, 3], (3 << 32) + 196_610));
    assert_eq!(packed(Reply::abort(3, 31)), ([3, 3, 31], (3 << 32) + 31 * 65_536 + 3));
    assert_eq!(packed(Reply::GAVE_UP), ([3, 5, 0], (3 << 32) + 5));
    assert_eq!([Ok, Commit, Unset, Refused(15)].map(Reply::packed), [0, 2 << 32, 5 << 32, (4 << 32) + 15]);
    let shown = [Reply::abort(1, 0), Reply::abort(3, 31), Reply::GAVE_UP].map(|reply| reply.to_string());
    assert_eq!(shown, ["abort 1 cell 0", "abort 3 cell 31", "abort 5"]);
}

#[test]
fn the_order_of_refusals_of_a_give_up() {
    let (_, mut words) = run(2, 1, &[]);
    let mut refused = |handler, code| step(&mut words, handler, code, 0);
    assert_eq!([refused(1, 2), refused(0, 2), refused(16, 3), refused(0, 3)], [11, 14, 15, 15].map(Reply::Refused));
    words[8] = 2;
    assert_eq!(step(&mut words, 1, 2, 0), Reply::Refused(10));
}

/// The row of a code on the page of codes.
fn row(code: u32) -> String {
    let (step, cell) = match decode(code) {
        Some(Step::Begin) => ("begin", 0),
        Some(Step::Try) => ("try", 0),
        Some(Step::GiveUp) => ("give up", 0),
        Some(Step::Read(cell)) => ("read", cell),
        Some(Step::Write(cell)) => ("write", cell),
        None => ("unknown", 0),
    };
    format!("| {code:4} | {step:7} | {cell:4} |")
}

#[test]
fn the_codes_are_those_of_the_page() {
    let page = std::fs::read_to_string(concat!(env!("CARGO_MANIFEST_DIR"), "/../../docs/CODES.md")).expect("docs/CODES.md");
    let heads = page.lines().position(|line| line.starts_with("|-")).expect("a table");
    let rows: Vec<&str> = page.lines().skip(heads + 1).collect();
    assert_eq!(rows, (0..256).map(row).collect::<Vec<_>>());
    assert!((256..1_000).chain([u32::MAX]).all(|code| decode(code).is_none()));
}
