//! Rows of steps through the library: they are their steps one by one, refused steps among them, and a row that is refused changes nothing.
use zidlemowo::{Abort, Refusal, Register, Reply, Report, Row, Shared, Step};

/// The published listing, K7.
const LISTING: [(u32, Step); 7] = [
    (0, Step::Begin),
    (0, Step::Read(0)),
    (1, Step::Begin),
    (1, Step::Write(0, 5)),
    (1, Step::Write(1, 7)),
    (1, Step::Try),
    (0, Step::Read(1)),
];

fn register() -> Register<'static> {
    Register::new(2, 2).expect("in range")
}

/// The replies of some reports.
fn replies(reports: &[Report]) -> Vec<Reply> {
    reports.iter().map(|report| report.reply).collect()
}

/// The row on a register as it is: the reports are those of its steps one by one on a copy, and so are the words.
fn is_its_steps(register: &mut Register<'_>, steps: &[(u32, u32, u32)]) {
    let mut words = register.words().to_vec();
    let mut copy = Register::resume(&mut words);
    let mut row = Row::new();
    let mut expected = Vec::new();
    for &(handler, code, value) in steps {
        row.push_code(handler, code, value);
        expected.push(Report { handler, code, reply: copy.step(handler, code, value) });
    }
    assert_eq!(row.len(), steps.len());
    assert_eq!(register.row(&row), Ok(expected));
    assert_eq!(register.words(), words);
}

#[test]
fn the_listing_in_one_call() {
    let mut register = register();
    let reports = register.row(&Row::from(LISTING)).expect("a register");
    let expected = [
        Reply::Done,
        Reply::Unset,
        Reply::Done,
        Reply::Done,
        Reply::Done,
        Reply::Committed,
        Reply::Aborted(Abort::Torn { cell: 0 }),
    ];
    assert_eq!(replies(&reports), expected);
    assert!(reports.iter().zip(LISTING).all(|(report, (handler, step))| (report.handler, report.code) == (handler, step.code())));
    assert_eq!(register.words()[2..8], [5, 1, 1, 7, 1, 1]);
}

#[test]
fn each_abort_is_reported_with_its_cell() {
    // K11, then a cell overtaken, one spent, and a give up. Cell 1's number is such that the row's three commits spend it.
    let mut words = Register::new(2, 3).expect("in range").words().to_vec();
    words[7] = 65_532;
    let commit =
        |handler, writes: &[Step]| [&[Step::Begin], writes, &[Step::Try]].concat().into_iter().map(move |step| (handler, step));
    let open = |steps: &[Step]| [&[Step::Begin], steps].concat().into_iter().map(|step| (0, step));
    let mut row = Row::new();
    row.extend(commit(1, &[Step::Write(1, 3)]).chain(open(&[Step::Read(1)])));
    row.extend(commit(2, &[Step::Write(0, 4), Step::Write(1, 8)]).chain([(0, Step::Read(0))]));
    row.extend(open(&[Step::Read(0), Step::Read(1)]).chain(commit(1, &[Step::Write(1, 9)])).chain([(0, Step::Try)]));
    row.extend(open(&[Step::Write(0, 6), Step::Write(1, 6), Step::Try]).chain(open(&[Step::GiveUp])));
    let reports = Register::resume(&mut words.clone()).row(&row).expect("a register");
    let aborts: Vec<Abort> = reports.iter().filter_map(|report| report.reply.outcome().ok()?.err()).collect();
    assert_eq!(aborts, [Abort::Torn { cell: 1 }, Abort::Overtaken { cell: 1 }, Abort::Spent { cell: 1 }, Abort::GaveUp]);
    // The same in words: the reason and the cell are the last two of five.
    let mut reported = vec![9; row.len() * Report::WORDS];
    assert_eq!(Register::resume(&mut words).row_into(row.words(), &mut reported, 0), Ok(()));
    let ends = reported.chunks_exact(5).filter(|report| report[2] == 3).map(|report| (report[1], report[3], report[4]));
    assert_eq!(ends.collect::<Vec<_>>(), [(32, 1, 1), (1, 2, 1), (1, 3, 1), (2, 5, 0)]);
}

#[test]
fn a_row_is_its_steps_one_by_one() {
    let codes = [0, 32, 0, 64, 65, 1, 1, 33, 3, 66, 34, 2, 0, 33, 64, 2, 255, 256, 1 << 31, u32::MAX];
    for handlers in 1..=3 {
        for spoilt in [0, 65_534, 65_535] {
            let mut words = register().words().to_vec();
            words[3] = spoilt;
            let mut register = Register::resume(&mut words);
            for round in 0..40 {
                let step =
                    |place: u32| (place * round / 7 % handlers, codes[(place * (round + 3)) as usize % codes.len()], place);
                is_its_steps(&mut register, &(0..round).map(step).collect::<Vec<_>>());
            }
        }
    }
}

#[test]
fn a_refused_step_is_reported_and_the_row_goes_on() {
    let mut row = Row::from([
        (0, Step::Try),
        (0, Step::Begin),
        (0, Step::Begin),
        (2, Step::Begin),
        (0, Step::Read(2)),
        (0, Step::Read(32)),
    ]);
    row.push_code(300, 1000, 7);
    row.extend([(0, Step::GiveUp), (0, Step::Begin)]);
    let reports = register().row(&row).expect("a register");
    let refused = [Refusal::AlreadyOpen, Refusal::NoHandler, Refusal::NoCell, Refusal::UnknownStep, Refusal::UnknownStep];
    let mut expected = vec![Reply::Refused(Refusal::NotOpen), Reply::Done];
    expected.extend(refused.map(Reply::Refused));
    expected.extend([Reply::Aborted(Abort::GaveUp), Reply::Done]);
    assert_eq!(replies(&reports), expected);
    assert_eq!((reports[6].handler, reports[6].code, reports[5].code), (300, 1000, Step::NO_CODE));
}

#[test]
fn no_register_no_row() {
    let row = Row::from(LISTING);
    assert_eq!(Register::resume(&mut []).row(&row), Err(Refusal::NotWellFormed));
    assert_eq!(Register::resume(&mut []).row(&Row::new()), Err(Refusal::NotWellFormed));
    let mut words = register().words().to_vec();
    words[8] = 2;
    let (before, mut reports) = (words.clone(), [9; 35]);
    // 10 goes before 42.
    for place in [0, 1, 36, usize::MAX] {
        assert_eq!(Register::resume(&mut words).row_into(row.words(), &mut reports, place), Err(Refusal::NotWellFormed));
    }
    assert_eq!((words, reports), (before, [9; 35]));
}

#[test]
fn no_room_no_row() {
    let row = Row::from(LISTING);
    let mut register = register();
    let before = register.words().to_vec();
    for long in 0..48 {
        for place in (0..50).chain([1 << 30, 1 << 32, 1 << 62, usize::MAX - 35, usize::MAX - 34, usize::MAX - 1, usize::MAX]) {
            let mut reports = vec![9; long];
            let fits = place <= long && long - place >= 35;
            let mut words = before.clone();
            let reply = Register::resume(&mut words).row_into(row.words(), &mut reports, place);
            assert_eq!(reply, if fits { Ok(()) } else { Err(Refusal::NoRoom) }, "{long} words from {place}");
            assert_eq!(words == before && reports.iter().all(|&word| word == 9), !fits);
            // With no step a place at the end is one, and a place beyond it is none.
            let nothing = Register::resume(&mut words).row_into(&[], &mut reports, place);
            assert_eq!(nothing, if place <= long { Ok(()) } else { Err(Refusal::NoRoom) });
        }
    }
    assert_eq!(register.row_into(&[], &mut [], 0), Ok(()));
    assert_eq!(register.words(), before);
}

#[test]
fn reports_from_a_place_and_a_step_cut_short() {
    let row = Row::from(LISTING);
    for cut in 1..Row::STEP_WORDS {
        let mut reports = [9; 41];
        assert_eq!(register().row_into(&row.words()[..row.words().len() - cut], &mut reports, 3), Ok(()));
        assert_eq!((&reports[..3], &reports[33..]), (&[9; 3][..], &[9; 8][..]));
        assert_eq!(reports[28..33], [1, 1, 2, 0, 0]);
        assert_eq!(Report::from_words([1, 1, 2, 0, 0]).map(|report| report.reply), Some(Reply::Committed));
    }
}

#[test]
fn rows_are_kept_and_filled_anew() {
    let mut row: Row = LISTING.into_iter().collect();
    assert_eq!((row.len(), row.is_empty(), row.clone()), (7, false, Row::from(LISTING)));
    row.clear();
    assert_eq!((row.len(), row.is_empty(), row.words()), (0, true, &[][..]));
    assert_eq!(register().row(&row), Ok(vec![]));
    row.push(1, Step::Write(31, 6));
    assert_eq!(row.words(), [1, 95, 6]);
}

#[test]
fn rows_of_two_threads_do_not_mix() {
    let shared = Shared::new(register());
    std::thread::scope(|scope| {
        for handler in 0..2 {
            let shared = &shared;
            scope.spawn(move || {
                let row = Row::from([Step::Begin, Step::Read(0), Step::Write(0, handler), Step::Try].map(|step| (handler, step)));
                for _ in 0..200 {
                    let reports = shared.row(&row).expect("a register");
                    assert_eq!(reports[3].reply, Reply::Committed);
                }
            });
        }
    });
    assert_eq!(shared.into_register().words()[3], 400);
}
