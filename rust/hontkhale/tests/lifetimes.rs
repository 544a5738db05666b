//! Lifetimes that a server reaches in days, in seconds.

// The tests ask for a newer Rust than the crate, and an error is shown without the value that came back.
#![allow(clippy::incompatible_msrv, clippy::ok_expect)]

use hontkhale::parts::owner::{
    numbered_queue, shared_queue, CallError, Caller, CoreConfig, CoreError, DelayCore, Keeper, Key, Look, RenewError,
    Turn, WordsError, HANDLE_LIMIT, LAST_STAMP,
};
use hontkhale::DelayQueue;
use std::sync::{Arc, Barrier};
use std::thread;
use std::time::Duration;

#[test]
fn three_million_inserts_into_64_slots() {
    let mut queue = DelayCore::with_capacity(64).unwrap();
    for now in 0..3_000_000u64 {
        queue.insert_or_drop(now, now).unwrap();
        match queue.poll(now) {
            Ok(Turn::Out(expired)) => assert_eq!((expired.value, expired.deadline), (now, now)),
            turn => panic!("{turn:?}"),
        }
    }
    assert!(queue.is_empty());
}

/// A worn slot refuses a reset, and then its entry goes on at another one.
#[test]
fn three_million_resets_of_one_entry() {
    let mut queue = DelayCore::with_capacity(64).unwrap();
    let mut key = queue.insert_or_drop(Box::new(7), 0).unwrap();
    let mut moves = 0;
    for when in 1..=3_000_000u64 {
        key = queue.reset(&key.entry(), when).unwrap_or_else(|refused| {
            assert_eq!((refused, queue.deadline(&key.entry())), (CoreError::Worn, Ok(when - 1)));
            let taken = queue.remove(&key.entry()).unwrap();
            moves += 1;
            queue.insert_or_drop(taken.value, when).unwrap()
        });
    }
    assert_eq!(
        (queue.deadline(&key.entry()), queue.len(), queue.worn()),
        (Ok(3_000_000), 1, 2)
    );
    assert_eq!(moves, 3_000_000 / u64::from(LAST_STAMP));
    assert_eq!(*queue.remove(&key.entry()).unwrap().value, 7);
}

#[test]
fn a_worn_slot_alone_refuses_a_reset() {
    let mut queue = DelayCore::with_capacity(1).unwrap();
    let mut key = queue.insert_or_drop((), 0).unwrap();
    for when in 1..LAST_STAMP {
        key = queue.reset(&key.entry(), u64::from(when)).unwrap();
    }
    assert_eq!(queue.reset(&key.entry(), 5), Err(CoreError::Worn));
    assert_eq!(queue.deadline(&key.entry()), Ok(u64::from(LAST_STAMP) - 1));
    queue.remove(&key.entry()).unwrap();
    assert_eq!(queue.insert_or_drop((), 5), Err(CoreError::Full { linked: 0, worn: 1 }));
}

/// A shard issues 1,024 callers in a generation, and each thread gives those that it took back as it ends.
#[test]
fn five_thousand_connections_each_by_a_thread_of_its_own() {
    let queue = DelayQueue::new();
    let key = queue.insert((), Duration::from_secs(1)).unwrap();
    for connection in 2..=5_000 {
        let queue = queue.clone();
        let worker = thread::spawn(move || queue.extend(&key, Duration::from_secs(connection)));
        worker.join().unwrap().unwrap();
    }
    assert_eq!(queue.stats().waiting, 1);
}

#[test]
fn as_many_callers_as_may_be_are_issued() {
    let mut queue = shared_queue(1).unwrap();
    let key = queue.insert_or_drop((), 0).unwrap();
    let mut callers: Vec<Caller> = (0..HANDLE_LIMIT).map(|_| queue.issue().unwrap()).collect();
    assert!(callers
        .iter_mut()
        .zip(1..)
        .all(|(caller, when)| caller.extend(&key, when) == Ok(when)));
    let refused = WordsError::TooManyHandles { limit: HANDLE_LIMIT };
    assert_eq!(
        (queue.issue().err(), queue.returned()),
        (Some(refused), Err(HANDLE_LIMIT))
    );
    callers.into_iter().for_each(|caller| assert_eq!(caller.give_back(), 0));
    assert_eq!((queue.issue().err(), queue.returned()), (Some(refused), Ok(0)));
}

/// A queue that is renewed over fresh words, and a caller of it, which is issued anew each time.
struct Renewed<T> {
    queue: DelayCore<T, Keeper>,
    caller: Caller,
    renewals: u32,
}

impl<T> Renewed<T> {
    fn new(capacity: usize, last_stamp: u32) -> Renewed<T> {
        let mut queue = numbered_queue(CoreConfig {
            shard: 0,
            capacity,
            last_stamp,
        })
        .unwrap();
        let caller = queue.issue().unwrap();
        Renewed {
            queue,
            caller,
            renewals: 0,
        }
    }

    /// The last key is refused by what comes after, and the last caller reaches nothing of it.
    fn renew(&mut self, last: &Key) {
        self.renewals += 1;
        let fresh = Keeper::new(self.queue.capacity()).unwrap();
        assert!(self.queue.renew(self.renewals, fresh).is_ok());
        assert_eq!(self.queue.deadline(&last.entry()), Err(CoreError::Missing));
        assert!(matches!(self.caller.extend(last, 5), Err(CallError::Ended { .. })));
        self.caller = self.queue.issue().unwrap();
        assert_eq!(self.caller.extend(last, 5), Err(CallError::Unknown));
    }
}

#[test]
fn three_million_inserts_into_64_slots_that_wear() {
    let mut own = Renewed::new(64, 1_000);
    let mut last = None;
    for now in 0..3_000_000u64 {
        let key = own.queue.insert(now, now).unwrap_or_else(|(refused, value)| {
            assert_eq!(refused, CoreError::Full { linked: 0, worn: 64 });
            own.renew(&last.unwrap());
            own.queue.insert_or_drop(value, now).unwrap()
        });
        assert_eq!(own.caller.extend(&key, now), Ok(now));
        match own.queue.poll(now) {
            Ok(Turn::Out(expired)) => assert_eq!(expired.value, now),
            turn => panic!("{turn:?}"),
        }
        last = Some(key);
    }
    assert_eq!(own.renewals, 3_000_000 / 64_000);
}

#[test]
fn three_million_resets_of_one_entry_of_one_slot() {
    let mut own = Renewed::new(1, LAST_STAMP);
    let mut key = own.queue.insert_or_drop(Box::new(7), 0).unwrap();
    for when in 1..=3_000_000u64 {
        key = own.queue.reset(&key.entry(), when).unwrap_or_else(|refused| {
            assert_eq!(refused, CoreError::Worn);
            let taken = own.queue.remove(&key.entry()).unwrap();
            own.renew(&key);
            own.queue.insert_or_drop(taken.value, when).unwrap()
        });
    }
    assert_eq!(
        (own.queue.deadline(&key.entry()), own.queue.len(), own.renewals),
        (Ok(3_000_000), 1, 2)
    );
    assert_eq!(*own.queue.remove(&key.entry()).unwrap().value, 7);
}

/// How a renewal over that many fresh words goes.
fn renew(queue: &mut DelayCore<char, Keeper>, number: u32, rows: usize) -> Result<(), RenewError> {
    let answer = queue.renew(number, Keeper::new(rows).unwrap());
    answer.map(drop).map_err(|(refused, _)| refused)
}

#[test]
fn a_renewal_is_refused_by_name_and_changes_nothing() {
    let shard = u32::MAX - 1;
    let mut queue = numbered_queue(CoreConfig {
        shard,
        capacity: 2,
        last_stamp: 3,
    })
    .unwrap();
    let mut caller = queue.issue().unwrap();
    let key = queue.insert_or_drop('a', 10).unwrap();
    assert_eq!(
        renew(&mut queue, u32::MAX, 2),
        Err(RenewError::StillLinked { linked: 1 })
    );
    assert_eq!(caller.cancel(&key), Ok(10));
    assert_eq!(renew(&mut queue, 0, 2), Err(RenewError::StillLinked { linked: 1 }));
    assert_eq!(queue.sweep(), 1);
    for number in [0, shard] {
        assert_eq!(
            renew(&mut queue, number, 2),
            Err(RenewError::UsedNumber { number: shard })
        );
    }
    assert_eq!(renew(&mut queue, u32::MAX, 3), Err(RenewError::WrongRows));
    assert_eq!((queue.tally().inserted, queue.tally().cancelled), (1, 1));
    assert_eq!(renew(&mut queue, u32::MAX, 2), Ok(()));
    assert_eq!(
        (queue.tally().inserted, queue.tally().cancelled, queue.returned()),
        (0, 0, Ok(0))
    );
    assert_eq!(queue.insert_or_drop('b', 20).unwrap().entry().shard(), u32::MAX);
    queue.clear();
    assert_eq!(
        renew(&mut queue, u32::MAX, 2),
        Err(RenewError::UsedNumber { number: u32::MAX })
    );
}

fn calls_on(mut caller: Caller, keys: &[Key]) -> Caller {
    for when in 0..2_000u64 {
        let answer = caller.extend(&keys[when as usize % keys.len()], when);
        assert!(
            matches!(
                answer,
                Ok(_)
                    | Err(CallError::Ended {
                        how: Look::LookRemoved(_)
                    })
            ),
            "{answer:?}"
        );
    }
    caller
}

/// What they do reaches the words from before alone, of which each entry has ended.
#[test]
fn callers_call_on_while_their_queue_is_renewed() {
    let mut queue = shared_queue(16).unwrap();
    for number in 1..=50 {
        let keys: Vec<Key> = (0..16).map(|entry| queue.insert_or_drop(entry, 100).unwrap()).collect();
        let start = Arc::new(Barrier::new(5));
        let threads: Vec<_> = (0..4)
            .map(|_| {
                let (caller, keys, start) = (queue.issue().unwrap(), keys.clone(), start.clone());
                thread::spawn(move || {
                    start.wait();
                    calls_on(caller, &keys)
                })
            })
            .collect();
        start.wait();
        queue.clear();
        assert!(queue.renew(number, Keeper::new(16).unwrap()).is_ok());
        let new: Vec<Key> = (0..16).map(|entry| queue.insert_or_drop(entry, 7).unwrap()).collect();
        for thread in threads {
            let mut caller = thread.join().unwrap();
            assert!(new.iter().all(|key| caller.extend(key, 50).is_err()));
        }
        assert!(new.iter().all(|key| queue.deadline(&key.entry()) == Ok(7)));
        assert_eq!((queue.out(), queue.clear()), (0, 16));
    }
}
