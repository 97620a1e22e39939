//! The runner of docs/SCHEDULE.md: a schedule file, judged and then taken step by step on a fresh register.
//! What it prints is what the proved runner has to print.
use crate::lines::{self, Cell, Run};
use crate::register;
use crate::schedule::{judge, Place};

/// Runs a file from a fresh register, or gives the number of its refusal.
pub fn run(file: &[u8]) -> Result<Run, u32> {
    let schedule = judge(file)?;
    let (m, n) = (schedule.cells, schedule.handlers);
    let mut words = vec![0; register::length(m, n).ok_or(30u32)?];
    register::open(&mut words, m, n)?;
    let mut line =
        |place: Place| place.line(|step| register::step(&mut words, place.handler.into(), step.code.into(), step.value));
    let lines = schedule.places().into_iter().map(&mut line).collect();
    let long = m as usize + 1;
    let cells = words[2..2 + m as usize * long].chunks(long).enumerate();
    let cell = |value, number| Cell { value: (number > 0).then_some(value), number };
    let left = cells.map(|(place, words)| cell(words[0], words[1 + place])).collect();
    Ok(Run { handlers: n, cells: m, lines, left })
}

/// What a runner prints for a file, whatever it holds.
pub fn printed(file: &[u8]) -> String {
    lines::shown(run(file).as_ref())
}

#[cfg(test)]
mod tests {
    use super::*;
    use crate::hexadecimal::bytes;
    use crate::lines::Line;

    const LISTING: &str = "02 02 000E 0003 0011 000C 001D 0007 00 20 21 00 40 00000005 41 00000007 01 00 00 01 01 01 01 00";

    /// What is printed for the file of a text.
    fn of(text: &str) -> String {
        printed(&bytes(text).unwrap())
    }

    /// The lines of the order places alone.
    fn replies(text: &str) -> Vec<String> {
        run(&bytes(text).unwrap()).unwrap().lines.iter().map(Line::to_string).collect()
    }

    #[test]
    fn the_published_listing() {
        let expected = "handlers 2 cells 2\n0 0 0 ok\n1 0 32 unset\n2 1 0 ok\n3 1 64 ok\n4 1 65 ok\n5 1 1 commit\n\
                        6 0 33 abort 1 cell 0\ncell 0 value 5 number 1\ncell 1 value 7 number 1\n";
        assert_eq!(of(LISTING), expected);
    }

    #[test]
    fn a_schedule_with_nothing_to_do() {
        assert_eq!(of("01 01 000A 0000 000A 0000"), "handlers 1 cells 1\ncell 0 unset number 0\n");
    }

    #[test]
    fn a_handler_that_is_not_there_is_11_and_uses_nothing_up() {
        assert_eq!(replies("01 01 000A 0001 000B 0003 00 01 FF 00"), ["1 - refused 11", "255 - refused 11", "0 0 ok"]);
    }

    #[test]
    fn eleven_comes_before_32() {
        assert_eq!(replies("01 01 000A 0000 000A 0002 01 00"), ["1 - refused 11", "0 - refused 32"]);
    }

    #[test]
    fn a_cell_that_is_not_there_is_12_and_uses_the_step_up() {
        let expected = ["0 33 refused 12", "0 95 refused 12", "0 0 ok", "0 63 refused 12", "0 1 commit"];
        assert_eq!(replies("01 01 000A 0009 0013 0005 21 5F 01020304 00 3F 01 00 00 00 00 00"), expected);
    }

    #[test]
    fn a_second_begin_is_13_and_uses_the_step_up() {
        assert_eq!(replies("01 01 000A 0003 000D 0003 00 00 01 00 00 00"), ["0 0 ok", "0 0 refused 13", "0 1 commit"]);
    }

    #[test]
    fn every_step_but_a_begin_is_14_while_idle_and_is_used_up() {
        let expected = ["0 32 refused 14", "0 64 refused 14", "0 1 refused 14", "0 2 refused 14", "0 0 ok"];
        assert_eq!(replies("01 01 000A 0009 0013 0005 20 40 00000009 01 02 00 00 00 00 00 00"), expected);
    }

    #[test]
    fn a_give_up_is_abort_5_and_keeps_nothing() {
        let expected = ["0 0 ok", "0 64 ok", "0 2 abort 5", "0 2 refused 14", "0 0 ok", "0 32 unset"];
        assert_eq!(replies("01 01 000A 000A 0014 0006 00 40 00000009 02 02 00 20 00 00 00 00 00 00"), expected);
    }

    #[test]
    fn a_used_up_script_is_32() {
        let expected = ["0 0 ok", "0 - refused 32", "1 0 ok", "1 - refused 32", "0 - refused 32"];
        assert_eq!(replies("02 01 000E 0001 000F 0001 0010 0005 00 00 00 00 01 01 00"), expected);
    }

    #[test]
    fn a_stale_read_is_abort_2_and_values_go_up_to_the_largest() {
        let expected = ["0 0 ok", "0 32 unset", "1 0 ok", "1 64 ok", "1 32 value 4294967295", "1 1 commit", "0 1 abort 2 cell 0"];
        let text = "02 01 000E 0003 0011 0008 0019 0007 00 20 01 00 40 FFFFFFFF 20 01 00 00 01 01 01 01 00";
        assert_eq!(replies(text), expected);
    }

    #[test]
    fn a_cell_written_as_0_is_no_unset_one() {
        let text = "01 02 000A 000D 0017 000A 00 40 00000000 20 01 00 20 21 21 01 00 00 00 00 00 00 00 00 00 00";
        let expected =
            "handlers 1 cells 2\n0 0 0 ok\n1 0 64 ok\n2 0 32 value 0\n3 0 1 commit\n4 0 0 ok\n5 0 32 value 0\n6 0 33 unset\n\
                        7 0 33 unset\n8 0 1 commit\n9 0 - refused 32\ncell 0 value 0 number 1\ncell 1 unset number 0\n";
        assert_eq!(of(text), expected);
    }

    #[test]
    fn value_bytes_are_no_codes() {
        assert_eq!(replies("01 01 000A 0007 0011 0003 00 40 03 FF 60 1F 01 00 00 00"), ["0 0 ok", "0 64 ok", "0 1 commit"]);
    }

    #[test]
    fn order_bytes_are_no_codes() {
        let expected = ["3 - refused 11", "64 - refused 11", "96 - refused 11"];
        assert_eq!(replies("01 01 000A 0000 000A 0003 03 40 60"), expected);
    }

    #[test]
    fn a_refused_file_has_one_line() {
        assert_eq!(of("01 01 000A 0001 000B 0000 03 00"), "refused 30\n");
        assert_eq!(of("01 01 000A 0001 000B 0000 03"), "refused 15\n");
    }
}
