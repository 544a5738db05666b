//! A keeper and a caller are sent to a thread, by value.

use crate::tests::kit::Fail;
use super::same;
use crate::core::{CallError, Steps};
use crate::ticks::{EntryId, Key};
use crate::words::{Caller, Keeper};
use std::thread;

// Extends the entry of that key, and is given back.
fn extend_once(mut caller: Caller, key: Key) -> (Result<u64, CallError>, u64) {
    (caller.extend(&key, 50), caller.give_back())
}

// How many callers are out, and what is returned.
fn audit(mut keeper: Keeper) -> (u64, Result<u64, u64>) {
    (keeper.out(), keeper.returned())
}

// promise: words.caller-takes
#[test]
fn a_keeper_and_a_caller_are_sent() -> Result<(), Fail> {
    let mut keeper = Keeper::new(1)?;
    let caller = keeper.issue()?;
    keeper.begin(0, 1, 10);
    let key = Key::new(EntryId::new(0, 0, 1), 1);
    let extending = thread::spawn(move || extend_once(caller, key));
    same("extend", extending.join().expect("a thread"), (Ok(50), 0));
    let auditing = thread::spawn(move || audit(keeper));
    same("audit", auditing.join().expect("a thread"), (0, Ok(0)));
    Ok(())
}
