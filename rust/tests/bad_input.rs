//! Bad input: words that are no register, and handlers, cells and codes that there are not. Each is answered with the number that
//! docs/REPLIES.md has for it, and no word is changed.
use zidlemowo::{needed, NotCommitted, Refusal, Register, Reply, Step, Stopped};

const SIZES: [(u32, u32); 6] = [(1, 1), (2, 1), (2, 3), (31, 2), (32, 1), (32, 16)];

/// Steps that a register might be asked for, with every wrong thing among them.
const STEPS: [Step; 9] = [
    Step::Begin,
    Step::Try,
    Step::GiveUp,
    Step::Read(0),
    Step::Read(31),
    Step::Read(32),
    Step::Write(0, 7),
    Step::Write(32, 7),
    Step::Write(u32::MAX, 7),
];

fn fresh(cells: u32, handlers: u32) -> Vec<u32> {
    Register::new(cells, handlers).expect("in range").words().to_vec()
}

/// Every step of every handler and unknown codes are refused with 10, and the words stay.
fn is_no_register(words: &mut [u32], what: &str) {
    let before = words.to_vec();
    for handler in [0, 16, u32::MAX] {
        let mut register = Register::resume(words);
        for step in STEPS {
            assert_eq!(register.take(handler, step), Reply::Refused(Refusal::NotWellFormed), "{what}: {handler} {step:?}");
        }
        for code in [3, 255, u32::MAX] {
            assert_eq!(register.step(handler, code, 7), Reply::Refused(Refusal::NotWellFormed), "{what}: {handler} code {code}");
        }
    }
    assert!(words == before, "{what}: changed");
}

/// The words are a register: a begin or a read is answered with something other than 10.
fn is_register(words: &[u32], what: &str) {
    let mut copy = words.to_vec();
    assert_ne!(Register::resume(&mut copy).read(0, 0), Err(Refusal::NotWellFormed), "{what}");
}

#[test]
fn no_words_at_all() {
    is_no_register(&mut [], "no words");
    assert_eq!(Register::open(&mut [], 1, 1).unwrap_err(), Refusal::TooShort);
    assert_eq!(Register::open(&mut [], 0, 1).unwrap_err(), Refusal::OutOfRange);
    let mut register = Register::resume(&mut []);
    let refused = Refusal::NotWellFormed;
    assert_eq!((register.begin(0), register.write(0, 0, 7)), (Err(refused), Err(refused)));
    assert_eq!((register.read(0, 0), register.try_commit(0), register.give_up(0)), (Err(refused), Err(refused), Err(refused)));
    let transact = register.transact(0, 3, |_| -> Result<(), Stopped> { panic!("the begin is refused") });
    assert_eq!(transact, Err(NotCommitted::Refused(refused)));
}

#[test]
fn too_short_for_an_opening() {
    for (cells, handlers) in SIZES {
        let long = needed(cells, handlers).expect("in range");
        let mut words = vec![0xdead_beef; long + 3];
        for short in 0..long {
            assert_eq!(Register::open(&mut words[..short], cells, handlers).unwrap_err(), Refusal::TooShort, "{short} of {long}");
        }
        assert!(words.iter().all(|&word| word == 0xdead_beef));
        assert!(Register::open(&mut words, cells, handlers).is_ok());
        assert_eq!(words[long..], [0xdead_beef; 3]);
        assert_eq!(words[..long], fresh(cells, handlers));
    }
}

#[test]
fn too_short_for_a_step() {
    for (cells, handlers) in SIZES {
        let mut words = fresh(cells, handlers);
        for short in 0..words.len() {
            is_no_register(&mut words[..short], &format!("{short} words of {cells} cells and {handlers} handlers"));
        }
        is_register(&words, "the whole of it");
    }
}

#[test]
fn opening_out_of_range() {
    let mut words = vec![7; 3_000];
    for wrong in [0, 33, 34, 255, 65_536, 1 << 31, u32::MAX] {
        for right in [1, 2, 16] {
            assert_eq!(needed(wrong, right), None);
            assert_eq!(Register::new(wrong, right).unwrap_err(), Refusal::OutOfRange);
            assert_eq!(Register::open(&mut words, wrong, right).unwrap_err(), Refusal::OutOfRange);
            assert_eq!(Register::open(&mut words[..1], wrong, right).unwrap_err(), Refusal::OutOfRange);
            assert_eq!(Register::open(&mut words, right, wrong).unwrap_err(), Refusal::OutOfRange);
        }
    }
    assert_eq!(Register::new(32, 17).unwrap_err(), Refusal::OutOfRange);
    assert!(words.iter().all(|&word| word == 7));
}

/// One word of a register spoilt, in turn with each of the values; put back afterwards.
fn spoilt(words: &mut [u32], place: usize, values: &[u32], what: &str) {
    let before = words[place];
    for &value in values {
        words[place] = value;
        is_no_register(words, &format!("{what}: word {place} is {value}"));
    }
    words[place] = before;
}

#[test]
fn every_malformed_head() {
    for (cells, handlers) in SIZES {
        let mut words = fresh(cells, handlers);
        // More cells or handlers than there are words for are too many, too.
        spoilt(&mut words, 0, &[0, cells + 1, 33, 1 << 16, 1 << 31, u32::MAX], "cells");
        spoilt(&mut words, 1, &[0, handlers + 1, 17, 1 << 16, 1 << 31, u32::MAX], "handlers");
        is_register(&words, "put back");
    }
}

#[test]
fn every_malformed_number() {
    for (cells, handlers) in SIZES {
        let mut words = fresh(cells, handlers);
        let m = cells as usize;
        let of_cells = (0..m).flat_map(|c| (0..m).map(move |number| 2 + c * (m + 1) + 1 + number));
        let block = move |handler: usize| 2 + m * (m + 1) + handler * (3 + 3 * m);
        let of_handlers = (0..handlers as usize).flat_map(|handler| (0..2 * m).map(move |number| block(handler) + 3 + number));
        for place in of_cells.chain(of_handlers) {
            spoilt(&mut words, place, &[65_536, u32::MAX], "number");
            words[place] = 65_535;
        }
        is_register(&words, "every number at 65,535");
    }
}

#[test]
fn every_malformed_phase_and_set() {
    for (cells, handlers) in SIZES {
        let mut words = fresh(cells, handlers);
        let m = cells as usize;
        for handler in 0..handlers as usize {
            let block = 2 + m * (m + 1) + handler * (3 + 3 * m);
            spoilt(&mut words, block, &[2, 3, 1 << 31, u32::MAX], "phase");
            words[block] = 1;
            let beyond: Vec<u32> = (cells..32).map(|bit| 1 << bit).collect();
            for set in [block + 1, block + 2] {
                spoilt(&mut words, set, &beyond, "set");
                words[set] = u32::MAX >> (32 - cells);
            }
        }
        is_register(&words, "every handler open, every set full");
    }
}

#[test]
fn values_and_copies_are_free() {
    for (cells, handlers) in SIZES {
        let mut words = fresh(cells, handlers);
        let m = cells as usize;
        (0..m).for_each(|c| words[2 + c * (m + 1)] = u32::MAX);
        for handler in 0..handlers as usize {
            let copies = 2 + m * (m + 1) + handler * (3 + 3 * m) + 3 + 2 * m;
            words[copies..copies + m].fill(u32::MAX);
        }
        is_register(&words, "values and copies");
    }
}

#[test]
fn handlers_cells_and_codes_that_there_are_not() {
    for (cells, handlers) in SIZES {
        let mut register = Register::new(cells, handlers).expect("in range");
        for open in [false, true] {
            if open {
                assert_eq!(register.begin(0), Ok(()));
            }
            let before = register.words().to_vec();
            for handler in [handlers, 16, 17, 1 << 31, u32::MAX] {
                for step in STEPS {
                    let refused = if step.code() == Step::NO_CODE { Refusal::UnknownStep } else { Refusal::NoHandler };
                    assert_eq!(register.take(handler, step), Reply::Refused(refused), "{handler} {step:?}");
                }
            }
            for cell in (cells..100).chain([255, 1 << 31, u32::MAX - 63, u32::MAX - 31, u32::MAX]) {
                let refused = if cell < 32 { Refusal::NoCell } else { Refusal::UnknownStep };
                assert_eq!(register.read(0, cell), Err(refused), "cell {cell} of {cells}");
                assert_eq!(register.write(0, cell, 7), Err(refused), "cell {cell} of {cells}");
            }
            for code in (3..32).chain(96..300).chain([1 << 31, u32::MAX]) {
                for handler in [0, handlers, u32::MAX] {
                    assert_eq!(register.step(handler, code, 7), Reply::Refused(Refusal::UnknownStep), "code {code}");
                }
            }
            assert_eq!(register.words(), before);
        }
    }
}
