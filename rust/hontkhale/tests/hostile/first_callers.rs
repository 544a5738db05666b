//! Callers that come and go while their queue's owner works.

use hontkhale::parts::owner::{shared_queue, Caller, CoreError, DelayCore, Keeper, Key};
use std::sync::atomic::{AtomicBool, Ordering::SeqCst};
use std::sync::Mutex;
use std::thread;

const ROUNDS: u64 = 40;
const CALLS: u64 = 10_000;
const FAR: u64 = 1_000;

// One entry, which its owner moves, takes out and puts in anew while a caller cancels it.
struct Fought {
    queue: DelayCore<u64, Keeper>,
    key: Key,
    cancelled: u64,
}

impl Fought {
    fn new() -> Fought {
        let mut queue = shared_queue(1).expect("a queue");
        let key = queue.insert_or_drop(0, FAR).expect("room");
        Fought {
            queue,
            key,
            cancelled: 0,
        }
    }

    fn call(&mut self, number: u64) {
        let answer = match number % 4 {
            0 => self.queue.remove(&self.key.entry()).map(|_| None),
            _ => self.queue.reset(&self.key.entry(), FAR + number).map(Some),
        };
        let kept = match answer {
            Ok(kept) => kept,
            Err(CoreError::WasCancelled) => {
                self.cancelled += 1;
                assert_eq!(self.queue.sweep(), 1);
                None
            }
            Err(refused) => panic!("{refused}"),
        };
        self.key = kept.unwrap_or_else(|| self.queue.insert_or_drop(number, FAR).expect("room"));
    }
}

// Cancels what is there, until it is told to end.
fn cancel(mut caller: Caller, key: &Mutex<Key>, is_over: &AtomicBool) -> u64 {
    while !is_over.load(SeqCst) {
        let key = *key.lock().expect("nobody panics under it");
        let _ = caller.cancel(&key);
    }
    caller.give_back()
}

// promise: words.extends-cancels
#[test]
fn no_cancel_is_lost_from_the_first_caller_on() {
    for _ in 0..ROUNDS {
        let mut fought = Fought::new();
        (1..50).for_each(|number| fought.call(number));
        assert_eq!(fought.queue.returned(), Ok(0));
        let mut accepted = 0;
        // The first caller, and one that comes once it has gone.
        for _ in 0..2 {
            let caller = fought.queue.issue().expect("a caller");
            let (key, is_over) = (&Mutex::new(fought.key), &AtomicBool::new(false));
            accepted += thread::scope(|scope| {
                let cancels = scope.spawn(move || cancel(caller, key, is_over));
                for number in 0..CALLS {
                    fought.call(number);
                    *key.lock().expect("nobody panics under it") = fought.key;
                }
                is_over.store(true, SeqCst);
                cancels.join().expect("told")
            });
            // It has gone, and the owner sees its last cancel.
            fought.call(1);
            assert_eq!((fought.queue.out(), fought.cancelled), (0, accepted));
        }
        assert_eq!(fought.queue.returned(), Ok(accepted));
    }
}
