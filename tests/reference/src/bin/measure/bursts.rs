//! The bursts that are measured: forty steps, taken by one call and by forty. None of them is refused or aborts.
use crate::rows::{read, write, State, BEGIN, SIZES, TRY};

/// The steps of a burst.
pub const STEPS: u32 = 40;

/// A burst: the words before it, and its steps as a row of words.
pub struct Burst {
    pub m: u32,
    pub n: u32,
    pub name: String,
    pub words: Vec<u32>,
    pub steps: Vec<u32>,
}

impl Burst {
    /// The steps of handlers, by their codes, on a register.
    fn of(state: State, name: String, steps: impl Iterator<Item = (u32, u32)>) -> Self {
        let steps: Vec<u32> = steps.flat_map(|(handler, code)| [handler, code, 7]).collect();
        Burst { m: state.m, n: state.n, name, words: state.words, steps }
    }
}

/// The register when every handler has begun.
fn all_open(lived: &State) -> State {
    (0..lived.n).fold(lived.clone(), |state, handler| state.after(handler, &[BEGIN]))
}

/// Ten transactions one after another, the handlers in turn, each of another cell while there is one: begin, first read, write, try.
fn transactions(lived: &State) -> Burst {
    let (m, n) = (lived.m, lived.n);
    let steps = (0..STEPS / 4).flat_map(|place| {
        let cell = place % m;
        [BEGIN, read(cell), write(cell), TRY].map(|code| (place % n, code))
    });
    Burst::of(lived.clone(), "10 × begin, first read, write, try".into(), steps)
}

/// Forty steps of open transactions, the handlers in turn: each its first cell, then each its second, and so on round.
fn in_turn(lived: &State, name: String, code: fn(u32) -> u32) -> Burst {
    let (m, n) = (lived.m, lived.n);
    Burst::of(all_open(lived), name, (0..STEPS).map(|place| (place % n, code(place / n % m))))
}

/// Forty reads. A handler's first read of a cell can be had once, so there are m · n of them at most; the others are repeated.
fn reads(lived: &State) -> Burst {
    let first = STEPS.min(lived.m * lived.n);
    let name = if first == STEPS { "40 × first read".into() } else { format!("40 × read, {first} of them first") };
    in_turn(lived, name, read)
}

/// All bursts, size by size.
pub fn all() -> Vec<Burst> {
    let sizes = SIZES.map(|(m, n)| State::lived(m, n));
    let of_size = |lived: &State| [transactions(lived), in_turn(lived, "40 × write".into(), write), reads(lived)];
    sizes.iter().flat_map(of_size).collect()
}
