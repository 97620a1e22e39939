//! A desk that moves a mast to an empty slot of the depot, while a feed books another mast into that very slot.
//! The desk's first attempt is aborted and started over, so that no mast is lost and none stands in two slots.
use std::error::Error;
use std::fmt;
use zidlemowo::{NotCommitted, Register, Shared, Stopped, Transaction};

const DESK: u32 = 0;
const FEED: u32 = 1;
const SLOTS: u32 = 4;

/// Why the desk moves nothing.
#[derive(Debug)]
enum NotMoved {
    NoMast(u32),
    NoRoom,
    Stopped(Stopped),
}

impl From<Stopped> for NotMoved {
    fn from(stopped: Stopped) -> NotMoved {
        NotMoved::Stopped(stopped)
    }
}

impl fmt::Display for NotMoved {
    fn fmt(&self, to: &mut fmt::Formatter<'_>) -> fmt::Result {
        match self {
            NotMoved::NoMast(slot) => write!(to, "no mast stands in slot {slot}"),
            NotMoved::NoRoom => write!(to, "no slot is empty"),
            NotMoved::Stopped(stopped) => stopped.fmt(to),
        }
    }
}

/// The mast of a slot, if one stands there. The desk writes 0, which is no mast's number, where it has taken one away; a slot that was never
/// used has no value at all.
fn mast_in(transaction: &mut Transaction<'_>, slot: u32) -> Result<Option<u32>, Stopped> {
    Ok(transaction.read(slot)?.filter(|&mast| mast != 0))
}

/// The first slot with no mast.
fn empty_slot(transaction: &mut Transaction<'_>) -> Result<u32, NotMoved> {
    for slot in 0..SLOTS {
        if mast_in(transaction, slot)?.is_none() {
            return Ok(slot);
        }
    }
    Err(NotMoved::NoRoom)
}

/// The desk moves the mast of a slot to the first empty one; `meanwhile` is what happens elsewhere before it writes.
fn move_mast(shared: &Shared<'_>, from: u32, mut meanwhile: impl FnMut()) -> Result<(), NotCommitted<NotMoved>> {
    shared.transact(DESK, 5, |transaction| {
        let mast = mast_in(transaction, from)?.ok_or(NotMoved::NoMast(from))?;
        let to = empty_slot(transaction)?;
        println!("desk: mast {mast} from slot {from} to slot {to}");
        meanwhile();
        transaction.write(from, 0)?;
        transaction.write(to, mast)?;
        Ok(())
    })
}

fn book(shared: &Shared<'_>, slot: u32, mast: u32) {
    let booked = shared.transact(FEED, 5, |transaction| transaction.write(slot, mast));
    println!("feed: mast {mast} into slot {slot}: {}", if booked.is_ok() { "commit" } else { "not booked" });
}

fn main() -> Result<(), Box<dyn Error>> {
    let shared = Shared::new(Register::new(SLOTS, 2)?);
    book(&shared, 0, 17);

    let mut news = Some(42);
    move_mast(&shared, 0, || {
        if let Some(mast) = news.take() {
            book(&shared, 1, mast);
        }
    })?;
    println!("desk: commit");

    // The desk asks for a mast that has gone, and gives up: nothing of its transaction is kept.
    if let Err(not_committed) = move_mast(&shared, 0, || ()) {
        println!("desk: {not_committed}");
    }

    for slot in 0..SLOTS {
        match shared.transact(DESK, 1, |transaction| transaction.read(slot))? {
            None => println!("slot {slot}: never used"),
            Some(0) => println!("slot {slot}: empty"),
            Some(mast) => println!("slot {slot}: mast {mast}"),
        }
    }
    Ok(())
}
