//! A row of steps in one call, written from the requests for it (document 02, Q-3 and Q-6): the steps' words are taken one step after another on a
//! register that is tested once, and each is reported into the caller's words from a named place.
use crate::register;

/// The words of a step: handler, code and value.
pub const STEP_WORDS: usize = 3;

/// The words of a report: handler and code as they were given, the kind of the reply, its value or number, and the cell that it names.
pub const REPORT_WORDS: usize = 5;

/// How many steps these words are. Words of a last step that is cut short are none.
pub fn count(steps: &[u32]) -> usize {
    steps.len() / STEP_WORDS
}

/// Whether the reports of so many steps lie within so many words from the place on.
pub fn fits(long: usize, place: usize, count: usize) -> bool {
    match long.checked_sub(place) {
        Some(room) => room / REPORT_WORDS >= count,
        None => false,
    }
}

/// Takes the steps and reports them; 10 or 42 where the row is refused, with no word changed. A step that is refused is reported as
/// any other, and the row goes on. It is inlined so that it is measured with no call in between, as the proved one is.
#[inline(always)]
pub fn row(words: &mut [u32], steps: &[u32], reports: &mut [u32], place: usize) -> Result<(), u32> {
    if !register::well_formed(words) {
        return Err(10);
    }
    if !fits(reports.len(), place, count(steps)) {
        return Err(42);
    }
    for (step, report) in steps.chunks_exact(STEP_WORDS).zip(reports[place..].chunks_exact_mut(REPORT_WORDS)) {
        let [kind, number, cell] = register::formed_step(words, step[0], step[1], step[2]).numbers();
        report.copy_from_slice(&[step[0], step[1], kind, number, cell]);
    }
    Ok(())
}

#[cfg(test)]
mod tests {
    use super::*;

    /// A fresh register of two cells and two handlers.
    fn fresh() -> Vec<u32> {
        let mut words = vec![7; register::length(2, 2).unwrap()];
        register::open(&mut words, 2, 2).unwrap();
        words
    }

    /// The published listing, K7, as a row.
    const LISTING: [u32; 21] = [0, 0, 0, 0, 32, 0, 1, 0, 0, 1, 64, 5, 1, 65, 7, 1, 1, 0, 0, 33, 0];

    #[test]
    fn the_listing_in_one_call() {
        let (mut words, mut reports) = (fresh(), [9; 38]);
        assert_eq!(row(&mut words, &LISTING, &mut reports, 2), Ok(()));
        let begun = [0, 0, 0, 0, 0, 0, 32, 5, 0, 0, 1, 0, 0, 0, 0];
        let expected = [&begun[..], &[1, 64, 0, 0, 0, 1, 65, 0, 0, 0, 1, 1, 2, 0, 0, 0, 33, 3, 1, 0]].concat();
        assert_eq!((&reports[..2], &reports[2..37], reports[37]), (&[9, 9][..], &expected[..], 9));
        assert_eq!(words[2..8], [5, 1, 1, 7, 1, 1]);
    }

    #[test]
    fn a_refused_step_is_reported_and_the_row_goes_on() {
        let (mut words, mut reports) = (fresh(), [9; 30]);
        let steps = [0, 1, 0, 2, 0, 0, 0, 34, 0, 300, 1000, 5, 0, 0, 8, 0, 0, 0];
        assert_eq!(row(&mut words, &steps, &mut reports, 0), Ok(()));
        let refused = [0, 1, 4, 14, 0, 2, 0, 4, 11, 0, 0, 34, 4, 12, 0, 300, 1000, 4, 15, 0];
        assert_eq!((&reports[..20], &reports[20..]), (&refused[..], &[0, 0, 0, 0, 0, 0, 0, 4, 13, 0][..]));
    }

    #[test]
    fn an_abort_is_reported_with_its_reason_and_its_cell() {
        // K11, then a try of a cell that was read and written since, then a give up: cells 1, 1 and none.
        let steps = [
            [0, 0, 0, 0, 33, 0, 1, 0, 0, 1, 64, 4, 1, 65, 8, 1, 1, 0, 0, 32, 0],
            [0, 0, 0, 0, 33, 0, 1, 0, 0, 1, 65, 9, 1, 1, 0, 0, 1, 0, 0, 0, 0],
        ];
        let (mut words, mut reports) = (fresh(), [9; 75]);
        assert_eq!(row(&mut words, &[&steps.concat()[..], &[0, 2, 7]].concat(), &mut reports, 0), Ok(()));
        assert_eq!((&reports[30..35], &reports[60..65]), (&[0, 32, 3, 1, 1][..], &[0, 1, 3, 2, 1][..]));
        assert_eq!(reports[70..], [0, 2, 3, 5, 0]);
    }

    #[test]
    fn a_step_cut_short_is_ignored() {
        for cut in 1..STEP_WORDS {
            let (mut words, mut reports) = (fresh(), [9; 10]);
            assert_eq!(row(&mut words, &LISTING[..6 - cut], &mut reports, 0), Ok(()));
            assert_eq!(reports, [0, 0, 0, 0, 0, 9, 9, 9, 9, 9]);
            assert_eq!(row(&mut words, &LISTING[..cut], &mut reports[..0], 0), Ok(()));
        }
    }

    #[test]
    fn reports_that_would_pass_the_end() {
        let before = fresh();
        for (steps, long, place, refused) in [
            (7, 35, 0, false),
            (7, 34, 0, true),
            (7, 28, 0, true),
            (7, 35, 1, true),
            (7, 45, 10, false),
            (7, 44, 10, true),
            (0, 0, 0, false),
            (0, 5, 5, false),
            (0, 5, 6, true),
            (0, 5, usize::MAX, true),
            (1, 5, usize::MAX - 4, true),
            (4, 5, usize::MAX - 19, true),
        ] {
            let (mut words, mut reports) = (before.clone(), vec![9; long]);
            let reply = row(&mut words, &LISTING[..steps * STEP_WORDS], &mut reports, place);
            assert_eq!(reply, if refused { Err(42) } else { Ok(()) }, "{steps} steps, {long} words from {place}");
            assert!(!refused || words == before && reports.iter().all(|&word| word == 9));
        }
    }

    #[test]
    fn ten_goes_before_42() {
        let (mut words, mut reports) = (fresh(), [9; 5]);
        words[8] = 2;
        assert_eq!(row(&mut words, &LISTING, &mut reports, 6), Err(10));
        assert_eq!(row(&mut [], &[], &mut [], 0), Err(10));
        assert_eq!(reports, [9; 5]);
    }
}
