//! The schedule file of docs/SCHEDULE.md: its judgement, which comes before its first step, and what each order place asks for.
//! What a step comes to is not known here: the runner asks the register, and the judge its history.
use crate::lines::Line;
use crate::register::Reply;
use crate::steps::Step;

/// The longest file there may be, in bytes.
pub const LONGEST: usize = 65_535;

/// A file found sound: the scripts of handlers 0 to n - 1 as steps, and the order.
#[derive(Clone, Debug, PartialEq, Eq)]
pub struct Schedule<'a> {
    pub handlers: u32,
    pub cells: u32,
    pub scripts: Vec<Vec<Step>>,
    pub order: &'a [u8],
}

/// What an order place asks for: the handler's next step, or the refusal 11 or 32 where there is none.
#[derive(Clone, Copy, Debug, PartialEq, Eq)]
pub struct Place {
    pub handler: u8,
    pub step: Result<Step, u32>,
}

/// A 16-bit number, big-endian, where the file has both its bytes.
fn number(file: &[u8], at: usize) -> Option<usize> {
    let bytes = file.get(at..at + 2)?;
    Some(usize::from(bytes[0]) << 8 | usize::from(bytes[1]))
}

/// The bodies in table order, where nothing in the file is 30.
fn bodies(file: &[u8]) -> Option<Vec<&[u8]>> {
    if file.len() > LONGEST {
        return None;
    }
    let (handlers, cells) = (*file.first()?, *file.get(1)?);
    if !(1..=16).contains(&handlers) || !(1..=32).contains(&cells) {
        return None;
    }
    let entries = usize::from(handlers) + 1;
    let mut position = 2 + 4 * entries;
    let mut bodies = Vec::with_capacity(entries);
    for entry in 0..entries {
        let offset = number(file, 2 + 4 * entry)?;
        let length = number(file, 4 + 4 * entry)?;
        if offset != position {
            return None;
        }
        position = offset + length;
        bodies.push(file.get(offset..position)?);
    }
    (position == file.len()).then_some(bodies)
}

/// The steps of a script, where no code is unknown and no write is cut short.
fn steps(script: &[u8]) -> Option<Vec<Step>> {
    let mut steps = Vec::new();
    let mut rest = script;
    while let Some((&code, behind)) = rest.split_first() {
        rest = behind;
        let value = match code {
            0..=2 | 32..=63 => 0,
            64..=95 => {
                let bytes = rest.get(..4)?;
                rest = &rest[4..];
                bytes.iter().fold(0, |value, &byte| value << 8 | u32::from(byte))
            }
            _ => return None,
        };
        steps.push(Step { code, value });
    }
    Some(steps)
}

/// Judges a whole file: sound, or refused with 30 or 15.
pub fn judge(file: &[u8]) -> Result<Schedule<'_>, u32> {
    let bodies = bodies(file).ok_or(30u32)?;
    let (order, scripts) = bodies.split_last().ok_or(30u32)?;
    let scripts = scripts.iter().map(|script| steps(script)).collect::<Option<Vec<_>>>().ok_or(15u32)?;
    Ok(Schedule { handlers: file[0].into(), cells: file[1].into(), scripts, order })
}

impl Schedule<'_> {
    /// The order places one after another. A refused step is used up too, so what a step comes to doesn't matter here.
    pub fn places(&self) -> Vec<Place> {
        let mut left: Vec<_> = self.scripts.iter().map(|script| script.iter()).collect();
        let mut next = |handler: u8| match left.get_mut(usize::from(handler)).map(Iterator::next) {
            None => Err(11),
            Some(None) => Err(32),
            Some(Some(&step)) => Ok(step),
        };
        self.order.iter().map(|&handler| Place { handler, step: next(handler) }).collect()
    }
}

impl Place {
    /// The line of this place, where a step comes to what is said.
    pub fn line(self, mut comes_to: impl FnMut(Step) -> Reply) -> Line {
        let Place { handler, step } = self;
        match step {
            Ok(step) => Line { handler, code: Some(step.code), reply: comes_to(step) },
            Err(number) => Line { handler, code: None, reply: Reply::Refused(number) },
        }
    }
}

#[cfg(test)]
mod tests {
    use super::*;
    use crate::hexadecimal::bytes;

    /// The number that the file of a text is refused with.
    fn refused(text: &str) -> Option<u32> {
        judge(&bytes(text).unwrap()).err()
    }

    #[test]
    fn files_too_short_for_their_table() {
        for text in ["", "01", "01 01", "01 01 000A", "01 01 000A 0000 000A 00", "10 20 0046 0000 0046 0000"] {
            assert_eq!(refused(text), Some(30), "{text}");
        }
    }

    #[test]
    fn sizes_out_of_range() {
        for text in ["00 01 0006 0000", "11 01 000A 0000 000A 0000", "01 00 000A 0000 000A 0000", "01 21 000A 0000 000A 0000"] {
            assert_eq!(refused(text), Some(30), "{text}");
        }
        assert_eq!(refused(&format!("11 01 {}", "004A 0000".repeat(18))), Some(30));
    }

    #[test]
    fn tables_that_are_not_right() {
        let texts = [
            "01 01 000B 0001 000C 0001 00 00 00", // a gap after the table
            "01 01 000A 0001 000C 0001 00 00 00", // a gap between bodies
            "01 01 000A 0002 000B 0001 00 00",    // an overlap
            "01 01 000B 0001 000A 0001 00 00",    // bodies not in table order
            "01 01 000A 0001 000B 0001 00 00 00", // the last body does not end the file
            "01 01 000A 0001 000B 0002 00 00",    // the last body ends behind the file
            "01 01 0A00 0100 0B00 0100 00 00",    // little-endian
            "01 01 000A FFFF 0009 0003 00 00",    // right but for 65,536
            "01 01 0000 0000 000A 0001 00",       // an empty body that stands elsewhere
            "01 01 000B 0000 000A 0001 00",       // an empty body that stands at its end
            "01 01 000A 0001 0000 0000 00",       // an empty order that stands elsewhere
        ];
        for text in texts {
            assert_eq!(refused(text), Some(30), "{text}");
        }
    }

    /// A file of one handler without steps, whose order fills it up to the length.
    fn of_length(length: usize) -> Vec<u8> {
        let mut file = bytes("01 01 000A 0000 000A").unwrap();
        file.extend(((length - 10) as u16).to_be_bytes());
        file.resize(length, 0);
        file
    }

    #[test]
    fn the_longest_file_and_one_byte_more() {
        assert_eq!(judge(&of_length(65_535)).unwrap().order.len(), 65_525);
        assert_eq!(judge(&of_length(65_536)).err(), Some(30));
        let mut one_more = of_length(65_535);
        one_more.push(0);
        assert_eq!(judge(&one_more).err(), Some(30));
    }

    #[test]
    fn every_code_is_known_or_15() {
        for code in 0..=255u8 {
            let mut file = bytes("01 01 000A 0005 000F 0000").unwrap();
            file.extend([code, 0, 0, 0, 0]);
            let known = matches!(code, 0..=2 | 32..=95);
            assert_eq!(judge(&file).err(), (!known).then_some(15), "{code}");
        }
    }

    #[test]
    fn a_give_up_is_one_byte() {
        let file = bytes("01 01 000A 0003 000D 0000 00 02 01").unwrap();
        let codes: Vec<_> = judge(&file).unwrap().scripts[0].iter().map(|step| step.code).collect();
        assert_eq!(codes, [0, 2, 1]);
    }

    #[test]
    fn unknown_codes_are_15_in_scripts_never_ordered_too() {
        assert_eq!(refused("02 01 000E 0001 000F 0001 0010 0001 00 03 00"), Some(15));
        assert_eq!(refused("02 01 000E 0000 000E 0001 000F 0000 FF"), Some(15));
    }

    #[test]
    fn writes_cut_short_are_15() {
        assert_eq!(refused("01 01 000A 0001 000B 0004 40 00 00 00 00"), Some(15));
        assert_eq!(refused("01 01 000A 0004 000E 0001 40 00 00 00 00"), Some(15));
        assert_eq!(refused("01 01 000A 0004 000E 0001 5F 00 00 00 00"), Some(15), "a cell that is not there");
        assert_eq!(refused("02 01 000E 0003 0011 0002 0013 0000 40 00 00 00 00"), Some(15), "another script behind");
    }

    #[test]
    fn thirty_anywhere_beats_15_anywhere() {
        assert_eq!(refused("01 01 000A 0001 000B 0000 03 00"), Some(30));
        assert_eq!(refused("01 21 000A 0001 000B 0000 03"), Some(30));
        let mut file = bytes("01 01 000A 0001 000B FFF5 03").unwrap();
        file.resize(65_536, 0);
        assert_eq!(judge(&file).err(), Some(30));
        file.pop();
        file[9] = 0xF4;
        assert_eq!(judge(&file).err(), Some(15));
    }
}
