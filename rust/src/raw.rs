//! The proved functions of `libgateway.a` as functions on slices that give plain numbers: the only unsafe code of the crate.
//! Their promises are in `crates/gateway`; none of them asks anything of its arguments. `tests/reference` takes this file too, and
//! compares what they give with a second register.

// A slice passes as a pointer and then a length in words or bytes.
extern "C" {
    fn zidlemowo_length(m: u32, n: u32) -> u32;
    fn zidlemowo_open(words: *mut u32, long: usize, m: u32, n: u32) -> u32;
    fn zidlemowo_step(words: *mut u32, long: usize, handler: u32, code: u32, value: u32) -> u64;
    fn zidlemowo_row(
        words: *mut u32,
        long: usize,
        steps: *const u32,
        steps_long: usize,
        reports: *mut u32,
        reports_long: usize,
        place: usize,
    ) -> u32;
    fn zidlemowo_run(file: *const u8, file_long: usize, output: *mut u8, output_long: usize) -> usize;
    fn zidlemowo_judge(file: *const u8, file_long: usize, output: *mut u8, output_long: usize) -> usize;
    fn zidlemowo_sheet(counts: *mut u32, long: usize, file: *const u8, file_long: usize) -> u32;
}

/// The words that a register needs; 0 where m or n is out of range.
pub fn length(m: u32, n: u32) -> u32 {
    // SAFETY: it takes and gives numbers only.
    unsafe { zidlemowo_length(m, n) }
}

/// Opens a register: 0, or the refusal's number.
pub fn open(words: &mut [u32], m: u32, n: u32) -> u32 {
    // SAFETY: pointer and length are those of one slice that is lent for the call alone.
    unsafe { zidlemowo_open(words.as_mut_ptr(), words.len(), m, n) }
}

/// Takes a step: the reply's kind in the upper half, its detail in the lower, where an abort's is cell · 65,536 + reason.
pub fn step(words: &mut [u32], handler: u32, code: u32, value: u32) -> u64 {
    // SAFETY: pointer and length are those of one slice that is lent for the call alone.
    unsafe { zidlemowo_step(words.as_mut_ptr(), words.len(), handler, code, value) }
}

/// Takes a row of steps, three words each, and reports them from the place on, five words each: 0, or the refusal's number.
pub fn row(words: &mut [u32], steps: &[u32], reports: &mut [u32], place: usize) -> u32 {
    let (long, steps_long, reports_long) = (words.len(), steps.len(), reports.len());
    // SAFETY: each pointer and length are those of one slice that is lent for the call alone.
    unsafe { zidlemowo_row(words.as_mut_ptr(), long, steps.as_ptr(), steps_long, reports.as_mut_ptr(), reports_long, place) }
}

/// Runs a file: the length of what the runner prints of it, which is put into the output as far as it fits.
pub fn run(file: &[u8], output: &mut [u8]) -> usize {
    // SAFETY: each pointer and length are those of one slice that is lent for the call alone.
    unsafe { zidlemowo_run(file.as_ptr(), file.len(), output.as_mut_ptr(), output.len()) }
}

/// Judges a file: the length of what the judge prints of it, which is put into the output as far as it fits.
pub fn judge(file: &[u8], output: &mut [u8]) -> usize {
    // SAFETY: each pointer and length are those of one slice that is lent for the call alone.
    unsafe { zidlemowo_judge(file.as_ptr(), file.len(), output.as_mut_ptr(), output.len()) }
}

/// Adds a file to a duty sheet: 0, or the refusal's number.
pub fn sheet(counts: &mut [u32], file: &[u8]) -> u32 {
    // SAFETY: each pointer and length are those of one slice that is lent for the call alone.
    unsafe { zidlemowo_sheet(counts.as_mut_ptr(), counts.len(), file.as_ptr(), file.len()) }
}
