//! Closures as transactions: how often they are started over, what they leave, and that they see no mixture.
use std::panic::{catch_unwind, AssertUnwindSafe};
use zidlemowo::{Abort, NotCommitted, Refusal, Register, Reply, Shared, Step, Stopped, Transaction};

fn shared(handlers: u32) -> Shared<'static> {
    Shared::new(Register::new(2, handlers).expect("in range"))
}

/// A transaction of handler 1 that writes both cells and commits.
fn other_commits(shared: &Shared<'_>, value: u32) {
    for step in [Step::Begin, Step::Write(0, value), Step::Write(1, value)] {
        assert_eq!(shared.take(1, step), Reply::Done);
    }
    assert_eq!(shared.take(1, Step::Try), Reply::Committed);
}

/// The values of the cells, from the words.
fn values(shared: &Shared<'_>) -> [u32; 2] {
    let register = shared.lock();
    [register.words()[2], register.words()[5]]
}

#[test]
fn the_last_abort_is_given_when_the_attempts_are_used_up() {
    for (attempts, runs) in [(0, 1), (1, 1), (2, 2), (7, 7)] {
        let (shared, mut count) = (shared(2), 0);
        let result = shared.transact(0, attempts, |transaction| -> Result<(), Stopped> {
            count += 1;
            transaction.read(0)?;
            transaction.write(1, 100)?;
            other_commits(&shared, count);
            Ok(())
        });
        assert_eq!((result, count), (Err(NotCommitted::Aborted(Abort::Overtaken { cell: 0 })), runs));
        assert_eq!(values(&shared), [runs, runs]);
        assert_eq!(shared.take(0, Step::Begin), Reply::Done);
    }
}

#[test]
fn a_torn_read_starts_over() {
    let (shared, mut count) = (shared(2), 0);
    let result = shared.transact(0, 2, |transaction| -> Result<(Option<u32>, Option<u32>), Stopped> {
        count += 1;
        let first = transaction.read(0)?;
        if count == 1 {
            other_commits(&shared, 9);
        }
        Ok((first, transaction.read(1)?))
    });
    assert_eq!((result, count), (Ok((Some(9), Some(9))), 2));
}

#[test]
fn an_abort_counts_whatever_the_closure_makes_of_it() {
    let shared = shared(2);
    let mut seen = Vec::new();
    let result = shared.transact(0, 1, |transaction| -> Result<(), Stopped> {
        transaction.read(0)?;
        other_commits(&shared, 9);
        seen.push(transaction.read(1));
        // No step is taken any more: the register would refuse these with 14.
        seen.push(transaction.read(0));
        seen.push(transaction.write(0, 7).map(|()| None));
        Ok(())
    });
    assert_eq!(result, Err(NotCommitted::Aborted(Abort::Torn { cell: 0 })));
    assert_eq!(seen, [Err(Stopped::Aborted(Abort::Torn { cell: 0 })); 3]);
    assert_eq!(values(&shared), [9, 9]);
}

#[test]
fn a_spent_cell_is_given_at_once() {
    let mut words = Register::new(2, 1).expect("in range").words().to_vec();
    words[3] = 65_535;
    let (mut register, mut count) = (Register::resume(&mut words), 0);
    let result = register.transact(0, 1_000, |transaction| {
        count += 1;
        transaction.write(0, 5)
    });
    assert_eq!((result, count), (Err(NotCommitted::Aborted(Abort::Spent { cell: 0 })), 1));
}

/// Handler 0 is idle, and nothing of its transaction is kept: every word is as it was.
fn is_as_before(shared: &Shared<'_>, before: &[u32]) {
    assert_eq!(shared.lock().words(), before);
    assert_eq!(shared.take(0, Step::Try), Reply::Refused(Refusal::NotOpen));
    assert_eq!(shared.take(0, Step::GiveUp), Reply::Refused(Refusal::NotOpen));
}

#[test]
fn given_up_after_a_write_nothing_is_kept() {
    let shared = shared(2);
    assert_eq!(shared.transact(0, 1, |transaction| transaction.write(1, 8)), Ok(()));
    let before = shared.lock().words().to_vec();
    let mut count = 0;
    let given_up = shared.transact(0, 3, |transaction| -> Result<(), &str> {
        count += 1;
        transaction.write(0, 5).map_err(|_| "refused")?;
        Err("the mast is off the air")
    });
    assert_eq!((given_up, count), (Err(NotCommitted::GaveUp("the mast is off the air")), 1));
    is_as_before(&shared, &before);

    // A later transaction of the handler commits, and not what was given up.
    assert_eq!(shared.transact(0, 1, |transaction| transaction.write(1, 6)), Ok(()));
    assert_eq!(values(&shared), [0, 6]);
}

#[test]
fn given_up_after_a_read_that_is_overtaken_it_is_not_started_over() {
    let (shared, mut count) = (shared(2), 0);
    let result = shared.transact(0, 3, |transaction| {
        count += 1;
        let found = transaction.read(0);
        other_commits(&shared, 9);
        found.map_or(Ok(()), Err)
    });
    assert_eq!((result, count), (Err(NotCommitted::GaveUp(None)), 1));
    assert_eq!((values(&shared), shared.take(0, Step::Begin)), ([9, 9], Reply::Done));
}

#[test]
fn given_up_without_sharing() {
    let mut register = Register::new(2, 1).expect("in range");
    let before = register.words().to_vec();
    let result = register.transact(0, 3, |transaction| transaction.write(0, 5).map_or(Ok(()), Err));
    assert_eq!(result, Err(NotCommitted::GaveUp(())));
    assert_eq!(register.words(), before);
    assert_eq!(register.try_commit(0), Err(Refusal::NotOpen));
}

#[test]
fn a_closure_on_a_handler_that_is_open_leaves_it_open() {
    let shared = shared(1);
    assert_eq!((shared.take(0, Step::Begin), shared.take(0, Step::Write(0, 5))), (Reply::Done, Reply::Done));
    let second = shared.transact(0, 3, |_| -> Result<(), Stopped> { panic!("the begin is refused") });
    assert_eq!(second, Err(NotCommitted::Refused(Refusal::AlreadyOpen)));
    assert_eq!((shared.take(0, Step::Try), values(&shared)), (Reply::Committed, [5, 0]));
}

#[test]
fn a_transaction_that_was_ended_behind_the_closure_is_not_given_up_again() {
    let shared = shared(1);
    let result = shared.transact(0, 3, |transaction| -> Result<(), ()> {
        transaction.write(0, 5).map_err(|_| ())?;
        assert_eq!(shared.take(0, Step::Try), Reply::Committed);
        Err(())
    });
    assert_eq!((result, values(&shared)), (Err(NotCommitted::GaveUp(())), [5, 0]));
}

#[test]
fn a_refused_step_changes_nothing_and_the_closure_may_go_on() {
    let shared = shared(1);
    let result = shared.transact(0, 1, |transaction| -> Result<(), Stopped> {
        assert_eq!(transaction.read(2), Err(Stopped::Refused(Refusal::NoCell)));
        transaction.write(0, 5)
    });
    assert_eq!((result, values(&shared)), (Ok(()), [5, 0]));
    let nobody = shared.transact(1, 1, |_| -> Result<(), Stopped> { panic!("the begin is refused") });
    assert_eq!(nobody, Err(NotCommitted::Refused(Refusal::NoHandler)));
}

#[test]
fn a_panic_gives_up_and_leaves_the_register_usable() {
    let shared = shared(2);
    let before = shared.lock().words().to_vec();
    let panicked = catch_unwind(AssertUnwindSafe(|| {
        shared.transact(0, 1, |transaction| -> Result<(), Stopped> {
            transaction.write(0, 5)?;
            panic!("in the closure, as the test wants it")
        })
    }));
    assert!(panicked.is_err());
    is_as_before(&shared, &before);
    other_commits(&shared, 9);
    assert_eq!(shared.transact(0, 1, |transaction| transaction.read(0)), Ok(Some(9)));
}

#[test]
fn a_panic_with_the_lock_held_gives_up_too() {
    let shared = shared(1);
    let before = shared.lock().words().to_vec();
    let panicked = catch_unwind(AssertUnwindSafe(|| {
        shared.transact(0, 1, |transaction| -> Result<(), Stopped> {
            transaction.write(0, 5)?;
            let _held = shared.lock();
            panic!("in the closure, as the test wants it")
        })
    }));
    assert!(panicked.is_err());
    is_as_before(&shared, &before);
}

#[test]
fn a_panic_without_sharing_gives_up_too() {
    let mut register = Register::new(2, 1).expect("in range");
    let before = register.words().to_vec();
    let panicked = catch_unwind(AssertUnwindSafe(|| {
        register.transact(0, 1, |transaction| -> Result<(), Stopped> {
            transaction.write(0, 5)?;
            panic!("in the closure, as the test wants it")
        })
    }));
    assert!(panicked.is_err());
    assert_eq!(register.words(), before);
}

/// Moves one from the first cell to the second. Whatever is read, also in attempts that come to nothing, adds up.
fn moves(transaction: &mut Transaction<'_>) -> Result<(), Stopped> {
    let (first, second) = (transaction.read(0)?.unwrap_or(0), transaction.read(1)?.unwrap_or(0));
    assert_eq!(first + second, 4_000);
    std::thread::yield_now();
    transaction.write(0, first - 1)?;
    transaction.write(1, second + 1)
}

#[test]
fn threads_lose_nothing_and_see_no_mixture() {
    let shared = shared(5);
    assert_eq!(shared.transact(0, 1, |transaction| transaction.write(0, 4_000)), Ok(()));
    std::thread::scope(|scope| {
        for handler in 1..5 {
            let shared = &shared;
            scope.spawn(move || (0..500).for_each(|_| assert_eq!(shared.transact(handler, u32::MAX, moves), Ok(()))));
        }
    });
    assert_eq!(values(&shared), [2_000, 2_000]);
}
