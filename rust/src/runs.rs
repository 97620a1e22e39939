//! A whole schedule file at once: everything that the runner, or the judge, prints of it.
use crate::raw;

/// No text of a whole run has more bytes, whatever the file.
pub const MOST_PRINTED: usize = 2_230_434;

/// Runs a schedule file from a fresh register and gives everything that the runner prints of it: a header, a line for each order
/// place and one for each cell, or the one line of a refused file. Any bytes are a file; more than 65,535 are refused with 30.
///
/// The file is run twice, the first time for the length of the text. [`run_into`] runs it once.
///
/// ```
/// // One handler and one cell; the handler begins, writes 5 into the cell and commits.
/// let file = [1, 1, 0, 10, 0, 7, 0, 17, 0, 3, 0, 64, 0, 0, 0, 5, 1, 0, 0, 0];
/// let text = "handlers 1 cells 1\n0 0 0 ok\n1 0 64 ok\n2 0 1 commit\ncell 0 value 5 number 1\n";
/// assert_eq!(zidlemowo::run(&file), text.as_bytes());
/// assert_eq!(zidlemowo::run(&file[1..]), b"refused 30\n");
/// ```
pub fn run(file: &[u8]) -> Vec<u8> {
    whole(file, run_into)
}

/// Judges a schedule file, from the history alone, and gives everything that the judge prints of it: what [`run`] gives, up to a
/// 65th commit, where the text ends with a line `refused 33`.
///
/// ```
/// // 65 transactions that do nothing: a begin and a try each. The last line is the order place of the 65th try.
/// let mut file = vec![1, 1, 0, 10, 0, 130, 0, 140, 0, 130];
/// file.extend([0, 1].repeat(65));
/// file.extend([0; 130]);
/// let judged = zidlemowo::judge(&file);
/// assert!(judged.ends_with(b"\n128 0 0 ok\n129 0 1 refused 33\n"));
/// assert!(zidlemowo::run(&file).ends_with(b"\n129 0 1 commit\ncell 0 unset number 0\n"));
/// ```
pub fn judge(file: &[u8]) -> Vec<u8> {
    whole(file, judge_into)
}

/// Runs a schedule file, with its text into an output that is lent. Gives the length of the whole text, whether it fits or not;
/// the output begins with as much of it as fits, and its bytes behind stay as they are.
///
/// ```
/// let mut output = [b'-'; 16];
/// assert_eq!(zidlemowo::run_into(&[], &mut output), 11);
/// assert_eq!(&output, b"refused 30\n-----");
/// assert_eq!(zidlemowo::run_into(&[], &mut output[14..]), 11);
/// assert_eq!(&output, b"refused 30\n---re");
/// ```
pub fn run_into(file: &[u8], output: &mut [u8]) -> usize {
    raw::run(file, output)
}

/// Judges a schedule file, with its text into an output that is lent, in the way of [`run_into`].
///
/// ```
/// let file = [1, 1, 0, 10, 0, 0, 0, 10, 0, 0];
/// let mut output = [b'-'; 46];
/// let length = zidlemowo::judge_into(&file, &mut output);
/// assert_eq!(&output[..length], b"handlers 1 cells 1\ncell 0 unset number 0\n");
/// assert_eq!(&output[length..], b"-----");
/// ```
pub fn judge_into(file: &[u8], output: &mut [u8]) -> usize {
    raw::judge(file, output)
}

/// The whole text: once for its length, once for its bytes.
fn whole(file: &[u8], into: fn(&[u8], &mut [u8]) -> usize) -> Vec<u8> {
    let mut text = vec![0; into(file, &mut [])];
    into(file, &mut text);
    text
}
