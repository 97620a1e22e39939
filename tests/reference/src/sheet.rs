//! The duty sheet over schedule files: how many transactions each of 16 handlers began, committed, and had aborted by each reason.
//! It was written from the rules alone, which are docs/RULES.md with the words of docs/LAYOUT.md and the printed lines of
//! docs/GATEWAY.md, by somebody who had not seen the proved sheet. It knows a run by its replies, and nothing of the register.
use crate::lines::Line;
use crate::register::Reply;
use crate::steps::BEGIN;
use crate::{runner, schedule};

/// The handlers that a sheet has a row for, however many a file has.
const HANDLERS: usize = 16;

/// The counts of a handler.
pub const COLUMNS: usize = 6;

/// The words of a sheet: a row of counts for each handler, one row after another.
pub const WORDS: usize = HANDLERS * COLUMNS;

/// The largest count with which a sheet takes another file.
pub const FULL_ABOVE: u32 = 4_294_000_000;

/// The names of the counts, in the order of their words.
const NAMES: [&str; COLUMNS] = ["begun", "committed", "abort1", "abort2", "abort3", "abort5"];

/// The place in its handler's row of the count that a line raises; none where it raises no count.
fn column(line: &Line) -> Option<usize> {
    match line.reply {
        Reply::Ok if line.code == Some(BEGIN.code) => Some(0),
        Reply::Commit => Some(1),
        Reply::Abort { reason: 1, .. } => Some(2),
        Reply::Abort { reason: 2, .. } => Some(3),
        Reply::Abort { reason: 3, .. } => Some(4),
        Reply::Abort { reason: 5, .. } => Some(5),
        _ => None,
    }
}

/// Adds a file's run to the sheet that stands in the first words; 21, 30, 15 or 41 where it is refused, with no word changed.
pub fn add(words: &mut [u32], file: &[u8]) -> Result<(), u32> {
    let sheet = words.get_mut(..WORDS).ok_or(21u32)?;
    schedule::judge(file)?;
    if sheet.iter().any(|&count| count > FULL_ABOVE) {
        return Err(41);
    }
    for line in runner::run(file)?.lines {
        if let Some(column) = column(&line) {
            sheet[usize::from(line.handler) * COLUMNS + column] += 1;
        }
    }
    Ok(())
}

/// What is printed behind the name of a file.
pub fn said(added: Result<(), u32>) -> String {
    match added {
        Ok(()) => "ok".into(),
        Err(number) => format!("refused {number}"),
    }
}

/// The lines of a sheet, one for each handler.
pub fn printed(words: &[u32; WORDS]) -> String {
    let mut text = String::new();
    for (handler, row) in words.chunks(COLUMNS).enumerate() {
        let counts: Vec<_> = NAMES.iter().zip(row).map(|(name, count)| format!("{name} {count}")).collect();
        text.push_str(&format!("handler {handler} {}\n", counts.join(" ")));
    }
    text
}

#[cfg(test)]
mod tests {
    use super::*;
    use crate::course::Course;
    use crate::generate::{self, Parts};
    use crate::hexadecimal::bytes;
    use crate::random::Random;

    /// A file that is refused with 30, since its last body doesn't end it.
    const BAD_TABLE: &str = "01 01 000A 0002 000C 0002 00 01 00 00 00";

    /// A file that is refused with 15, for a code behind a whole transaction.
    const BAD_CODE: &str = "01 01 000A 0003 000D 0002 00 01 03 00 00";

    /// The file of a text of steps, with two cells and so many handlers.
    fn file(handlers: usize, text: &str) -> Vec<u8> {
        let mut course = Course::new(2, handlers);
        course.follow(text);
        course.file()
    }

    /// The sheet of one file of two handlers, which has to be taken.
    fn sheet_of(text: &str) -> [u32; WORDS] {
        let mut words = [0; WORDS];
        assert_eq!(add(&mut words, &file(2, text)), Ok(()), "{text}");
        words
    }

    /// An otherwise empty sheet with these rows of the first two handlers.
    fn rows(first: [u32; COLUMNS], second: [u32; COLUMNS]) -> [u32; WORDS] {
        let mut words = [0; WORDS];
        words[..COLUMNS].copy_from_slice(&first);
        words[COLUMNS..2 * COLUMNS].copy_from_slice(&second);
        words
    }

    #[test]
    fn a_transaction_that_is_open_at_the_end_is_begun_alone() {
        assert_eq!(sheet_of("0:begin,read0,write1=7"), rows([1, 0, 0, 0, 0, 0], [0; COLUMNS]));
    }

    #[test]
    fn each_end_of_a_transaction_has_its_column() {
        assert_eq!(sheet_of("1:begin,write0=5,try"), rows([0; COLUMNS], [1, 1, 0, 0, 0, 0]));
        let torn = "0:begin,read0 1:begin,write0=5,write1=7,try 0:read1";
        assert_eq!(sheet_of(torn), rows([1, 0, 1, 0, 0, 0], [1, 1, 0, 0, 0, 0]));
        let overtaken = "0:begin,read0 1:begin,write0=5,try 0:try";
        assert_eq!(sheet_of(overtaken), rows([1, 0, 0, 1, 0, 0], [1, 1, 0, 0, 0, 0]));
        assert_eq!(sheet_of("0:begin,write0=5,give-up"), rows([1, 0, 0, 0, 0, 1], [0; COLUMNS]));
    }

    #[test]
    fn each_reply_has_its_column_or_none() {
        let of = |code, reply| column(&Line { handler: 0, code, reply });
        assert_eq!((of(Some(0), Reply::Ok), of(Some(64), Reply::Ok), of(Some(95), Reply::Ok)), (Some(0), None, None));
        assert_eq!((of(Some(1), Reply::Commit), of(Some(32), Reply::Value(0))), (Some(1), None));
        // No file reaches abort 3, so that it is asked for here alone; there is no abort 4.
        // Whichever cell is named, or none: the reason alone is counted.
        for cell in [None, Some(0), Some(1), Some(31)] {
            let aborted = |(code, reason)| of(Some(code), Reply::Abort { reason, cell });
            assert_eq!([(32, 1), (1, 2), (1, 3), (1, 4), (2, 5)].map(aborted), [Some(2), Some(3), Some(4), None, Some(5)]);
        }
        assert_eq!([Some(0), Some(1), Some(2), None].map(|code| of(code, Reply::Refused(1))), [None; 4]);
    }

    #[test]
    fn a_refused_begin_is_not_begun() {
        assert_eq!(sheet_of("0:begin,begin,begin,try"), rows([1, 1, 0, 0, 0, 0], [0; COLUMNS]));
    }

    #[test]
    fn a_refused_try_or_give_up_is_nothing() {
        assert_eq!(sheet_of("0:try,give-up 1:give-up,try"), [0; WORDS]);
        assert_eq!(sheet_of("0:begin,try,try,give-up"), rows([1, 1, 0, 0, 0, 0], [0; COLUMNS]));
        assert_eq!(sheet_of("0:begin,give-up,give-up,try"), rows([1, 0, 0, 0, 0, 1], [0; COLUMNS]));
    }

    #[test]
    fn places_without_a_step_and_cells_that_are_not_there_are_nothing() {
        assert_eq!(sheet_of("2:none 15:none 16:none 255:none 0:none"), [0; WORDS]);
        assert_eq!(sheet_of("0:read2,write31=0,begin,read31,write2=0,try 0:none"), rows([1, 1, 0, 0, 0, 0], [0; COLUMNS]));
    }

    #[test]
    fn fewer_than_96_words_are_21_before_all_else() {
        let good = file(2, "0:begin,try");
        for length in 0..WORDS {
            for (count, file) in [(3, good.clone()), (u32::MAX, good.clone()), (3, Vec::new()), (3, bytes(BAD_CODE).unwrap())] {
                let mut words = vec![count; length];
                assert_eq!(add(&mut words, &file), Err(21), "{length} words");
                assert_eq!(words, vec![count; length]);
            }
        }
    }

    #[test]
    fn a_refused_file_adds_nothing_and_those_before_it_stay() {
        let mut words = sheet_of("0:begin,try");
        let before = words;
        assert_eq!((add(&mut words, &bytes(BAD_TABLE).unwrap()), words), (Err(30), before));
        assert_eq!((add(&mut words, &[]), words), (Err(30), before));
        assert_eq!((add(&mut words, &bytes(BAD_CODE).unwrap()), words), (Err(15), before));
        assert_eq!(add(&mut words, &file(1, "0:begin,give-up")), Ok(()));
        assert_eq!(words, rows([2, 1, 0, 0, 0, 1], [0; COLUMNS]));
    }

    #[test]
    fn thirty_and_15_come_before_41() {
        let full = [FULL_ABOVE + 1; WORDS];
        let mut words = full;
        assert_eq!((add(&mut words, &bytes(BAD_TABLE).unwrap()), words), (Err(30), full));
        assert_eq!((add(&mut words, &bytes(BAD_CODE).unwrap()), words), (Err(15), full));
        assert_eq!((add(&mut words, &file(1, "")), words), (Err(41), full));
    }

    #[test]
    fn a_count_of_4_294_000_000_is_taken_and_one_more_is_41() {
        let good = file(1, "0:begin,try");
        for place in 0..WORDS {
            let mut words = [7; WORDS];
            words[place] = 4_294_000_000;
            let mut expected = words;
            expected[0] += 1;
            expected[1] += 1;
            assert_eq!((add(&mut words, &good), words), (Ok(()), expected), "word {place}");
            for count in [4_294_000_001, u32::MAX] {
                words[place] = count;
                let before = words;
                assert_eq!((add(&mut words, &good), words), (Err(41), before), "word {place}");
            }
        }
    }

    #[test]
    fn a_file_that_takes_a_count_above_the_border_is_the_last_one() {
        let mut words = [FULL_ABOVE; WORDS];
        assert_eq!(add(&mut words, &file(1, "0:read0")), Ok(()));
        assert_eq!(add(&mut words, &file(1, "0:begin")), Ok(()));
        assert_eq!(words[0], FULL_ABOVE + 1);
        assert_eq!(add(&mut words, &file(1, "0:read0")), Err(41));
    }

    #[test]
    fn the_longest_file_passes_no_word() {
        // Of 65,535 bytes ten are the table's; a transaction has two in the script and two in the order.
        let transactions = (schedule::LONGEST - 10) / 4;
        let script = [0, 1].repeat(transactions);
        let longest = Parts { cells: 1, order: vec![0; script.len() + 1], scripts: vec![script] }.file();
        assert_eq!(longest.len(), schedule::LONGEST);
        let mut words = [FULL_ABOVE; WORDS];
        assert_eq!(add(&mut words, &longest), Ok(()));
        assert_eq!(words[..3], [4_294_016_381, 4_294_016_381, FULL_ABOVE]);
    }

    #[test]
    fn words_beyond_the_sheet_are_neither_changed_nor_looked_at() {
        let mut words = [&[0; WORDS][..], &[u32::MAX, FULL_ABOVE + 1, 0, 9]].concat();
        let last = ["15:begin,try,begin,give-up"; 3].join(" ");
        assert_eq!(add(&mut words, &file(16, &last)), Ok(()));
        assert_eq!(words[WORDS - COLUMNS..], [6, 3, 0, 0, 0, 3, u32::MAX, FULL_ABOVE + 1, 0, 9]);
        assert!(words[..WORDS - COLUMNS].iter().all(|&count| count == 0));
    }

    #[test]
    fn handlers_that_the_file_has_not_stay() {
        let mut words = [0; WORDS];
        (1..).zip(&mut words).for_each(|(count, word)| *word = count);
        let before = words;
        assert_eq!(add(&mut words, &file(2, "0:begin,try 1:begin,give-up 2:none 15:none 16:none")), Ok(()));
        assert_eq!(words[..2 * COLUMNS], [2, 3, 3, 4, 5, 6, 8, 8, 9, 10, 11, 13]);
        assert_eq!(words[2 * COLUMNS..], before[2 * COLUMNS..]);
    }

    #[test]
    fn begun_is_ended_or_open_at_the_end() {
        let mut random = Random::new(96);
        let mut open = 0;
        for _ in 0..200 {
            let mut words = [0; WORDS];
            assert_eq!(add(&mut words, &generate::sound(&mut random)), Ok(()));
            for row in words.chunks(COLUMNS) {
                let left = row[0].checked_sub(row[1..].iter().sum()).expect("no more ended than begun");
                assert!(left <= 1, "a handler has one transaction at a time: {row:?}");
                open += left;
            }
        }
        assert!(open > 0);
    }

    #[test]
    fn two_files_are_counted_as_each_alone() {
        let (one, other) = ("0:begin,read0 1:begin,write0=5,try 0:try", "0:begin,give-up,begin 1:begin,try");
        let mut words = sheet_of(one);
        assert_eq!(add(&mut words, &file(2, other)), Ok(()));
        // A transaction that one run leaves open is not open in the next.
        let alone = [sheet_of(one), sheet_of(other)];
        assert!((0..WORDS).all(|place| words[place] == alone[0][place] + alone[1][place]));
        assert_eq!(words[..2 * COLUMNS], [3, 0, 0, 1, 0, 1, 2, 2, 0, 0, 0, 0]);
    }

    #[test]
    fn what_is_said_and_printed() {
        assert_eq!((said(Ok(())), said(Err(30))), ("ok".into(), "refused 30".into()));
        let text = printed(&rows([2, 0, 1, 1, 0, 0], [6, 5, 4, 3, 2, u32::MAX]));
        assert!(text.starts_with(
            "handler 0 begun 2 committed 0 abort1 1 abort2 1 abort3 0 abort5 0\n\
             handler 1 begun 6 committed 5 abort1 4 abort2 3 abort3 2 abort5 4294967295\n\
             handler 2 begun 0 committed 0 abort1 0 abort2 0 abort3 0 abort5 0\n"
        ));
        assert!(text.ends_with("\nhandler 15 begun 0 committed 0 abort1 0 abort2 0 abort3 0 abort5 0\n"));
        assert_eq!(text.lines().count(), 16);
    }
}
