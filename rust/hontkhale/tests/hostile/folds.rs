//! Callers beside an owner that folds and unfolds its queue: a key from before a fold serves nobody after it.

use super::draw::{calls, Draw};
use hontkhale::parts::owner::{shared_queue, Caller, DelayCore, Keeper, Key, Turn};
use std::sync::atomic::{AtomicBool, Ordering::SeqCst};
use std::sync::Mutex;
use std::thread;

const SLOTS: u64 = 8;

type Owned = DelayCore<Box<u64>, Keeper>;

// The keys that were given out, with the deadlines of their inserts.
type Given = Mutex<Vec<(Key, u64)>>;

// Extends and cancels by the last keys until the owner is done. How many cancels were accepted.
fn calls_by_keys(mut caller: Caller, given: &Given, is_done: &AtomicBool) -> u64 {
    let mut draw = Draw::new(7);
    while !is_done.load(SeqCst) {
        let last: Vec<_> = given
            .lock()
            .unwrap()
            .iter()
            .rev()
            .take(5 * SLOTS as usize)
            .copied()
            .collect();
        for (key, deadline) in last {
            if draw.one_in(9) {
                let _ = caller.cancel(&key);
            } else if let Ok(told) = caller.extend(&key, deadline + draw.below(7)) {
                assert!(told >= deadline);
            }
        }
    }
    caller.give_back()
}

// Fills some of the slots, each under its next stamp.
fn fill(queue: &mut Owned, stamps: &mut [u32], now: u64, given: &Given) {
    for value in 0..now % (SLOTS + 1) {
        let Ok(key) = queue.insert_or_drop(Box::new(value), now + value % 3) else {
            continue;
        };
        let stamp = &mut stamps[key.entry().index() as usize];
        *stamp += 1;
        assert_eq!(key.stamp(), *stamp, "a slot goes on with its next stamp");
        given.lock().unwrap().push((key, now + value % 3));
    }
}

// Folds the queue and unfolds it, once nothing is in it.
fn fold(queue: Owned) -> Owned {
    let tally = queue.tally();
    match queue.fold() {
        Err(queue) => queue,
        Ok(folded) => {
            let queue = folded.unfold().expect("memory");
            assert_eq!(queue.tally(), tally, "a fold counts something");
            queue
        }
    }
}

// promise: core.fold
#[test]
fn callers_with_old_keys_beside_folds() {
    let mut queue = shared_queue(SLOTS as usize).unwrap();
    let caller = queue.issue().unwrap();
    let (given, is_done) = (Given::default(), AtomicBool::new(false));
    let mut stamps = [0; SLOTS as usize];
    thread::scope(|scope| {
        let thread = scope.spawn(|| calls_by_keys(caller, &given, &is_done));
        for now in (1..).step_by(12).take(calls() as usize / 10) {
            fill(&mut queue, &mut stamps, now, &given);
            while let Turn::Out(out) = queue.poll(now + 11).unwrap() {
                assert!(out.deadline <= now + 11, "an entry comes out early");
            }
            queue = fold(queue);
        }
        is_done.store(true, SeqCst);
        let cancels = thread.join().unwrap();
        queue.clear();
        assert_eq!(
            queue.tally().cancelled,
            cancels,
            "a cancel is lost, or was accepted of an old key"
        );
        assert_eq!(queue.returned(), Ok(cancels));
    });
}
