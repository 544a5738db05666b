//! Callers in threads of their own beside an owner that polls, owners that share a queue, and readers of one.

// The tests ask for a newer Rust than the crate, and an error is shown without the value that came back.
#![allow(clippy::incompatible_msrv, clippy::ok_expect)]

use hontkhale::parts::owner::{shared_queue, CallError, Caller, DelayCore, Key, Look, Turn, LAST_TICK};
use hontkhale::parts::shards::{Handle, QueueConfig, SharedDelayQueue};
use std::hint;
use std::sync::atomic::{AtomicBool, AtomicU64, Ordering::SeqCst};
use std::sync::{mpsc, Arc, Barrier, Mutex};
use std::thread;

const ENTRIES: u64 = 1_000;
const CALLERS: u64 = 4;
const ROUNDS: u64 = 50;

/// The latest deadline that an extend of this entry was told is in force, by the entry's number.
type Promised = Vec<u64>;

fn extends(mut caller: Caller, keys: &[Key], seed: u64) -> Promised {
    let mut promised = vec![0; keys.len()];
    for round in 1..=ROUNDS {
        for (entry, key) in keys.iter().enumerate() {
            let when = round * 100 + (entry as u64 * 7 + seed * 13) % 100;
            match caller.extend(key, when) {
                Ok(deadline) => {
                    assert!(when <= deadline && promised[entry] <= deadline);
                    promised[entry] = deadline;
                }
                Err(CallError::Ended { .. }) => {}
                Err(refused) => panic!("{refused}"),
            }
        }
    }
    caller.give_back();
    promised
}

/// What is due, one entry after the other.
macro_rules! due {
    ($queue:expr, $now:expr) => {
        std::iter::from_fn(|| match $queue.poll($now) {
            Ok(Turn::Out(expired)) => Some(expired),
            _ => None,
        })
    };
}

#[test]
fn four_threads_extend_while_one_polls() {
    let mut queue = shared_queue(ENTRIES as usize).unwrap();
    let keys: Vec<Key> = (0..ENTRIES)
        .map(|entry| queue.insert_or_drop(entry, 50).unwrap())
        .collect();
    let (keys, start) = (Arc::new(keys), Arc::new(Barrier::new(CALLERS as usize + 1)));
    let callers: Vec<_> = (0..CALLERS)
        .map(|seed| {
            let (caller, keys, start) = (queue.issue().unwrap(), keys.clone(), start.clone());
            thread::spawn(move || {
                start.wait();
                extends(caller, &keys, seed)
            })
        })
        .collect();

    start.wait();
    let mut ended = vec![None; ENTRIES as usize];
    for now in 0..=(ROUNDS + 1) * 100 {
        for expired in due!(queue, now) {
            assert!(expired.deadline <= now);
            let entry = expired.value as usize;
            assert_eq!(ended[entry].replace(expired.deadline), None, "an entry came out twice");
        }
        thread::yield_now();
    }
    let promised: Vec<Promised> = callers.into_iter().map(|caller| caller.join().unwrap()).collect();

    // What was extended after its last poll comes out now. No extend that was accepted is lost.
    for expired in due!(queue, ROUNDS * 1_000) {
        assert_eq!(ended[expired.value as usize].replace(expired.deadline), None);
    }
    for entry in 0..ENTRIES as usize {
        let latest = promised.iter().map(|by| by[entry]).max().unwrap().max(50);
        assert_eq!(ended[entry], Some(latest));
    }
    assert_eq!(queue.returned(), Ok(0));
}

/// Until the owner issues a first caller some of its steps on the words are plain ones, and from then on each is atomic. The
/// caller finds what was done before, and extends each entry at about the moment at which the owner ends it.
fn race_the_first_caller() {
    const MANY: u64 = 20_000;
    const LATE: u64 = 2 * MANY;
    let mut queue = shared_queue(MANY as usize).unwrap();
    let old: Vec<Key> = (0..MANY).map(|entry| queue.insert_or_drop(entry, 0).unwrap()).collect();
    assert_eq!(due!(queue, 0).count() as u64, MANY);
    let keys: Vec<Key> = (0..MANY)
        .map(|entry| queue.insert_or_drop(entry, entry).unwrap())
        .collect();
    let (begun, at) = (AtomicBool::new(false), AtomicU64::new(u64::MAX));
    let mut ended = vec![None; keys.len()];
    let promised = thread::scope(|scope| {
        let mut caller = queue.issue().unwrap();
        let (keys, old, begun, at) = (&keys, &old, &begun, &at);
        let extends = scope.spawn(move || {
            assert!(old
                .iter()
                .all(|key| caller.look(key) == Err(CallError::Stale { seen: 2 })));
            assert!(keys
                .iter()
                .all(|key| matches!(caller.look(key), Ok(Look::StillLive(_)))));
            begun.store(true, SeqCst);
            let (mut promised, mut last) = (vec![None; keys.len()], u64::MAX);
            loop {
                let entry = at.load(SeqCst);
                if entry == MANY {
                    return promised;
                }
                if entry == last {
                    hint::spin_loop();
                    continue;
                }
                (0..entry / 16 % 32).for_each(|_| hint::spin_loop());
                match caller.extend(&keys[entry as usize], LATE) {
                    Ok(deadline) => promised[entry as usize] = Some(deadline),
                    Err(refused) => assert!(matches!(refused, CallError::Ended { .. })),
                }
                last = entry;
            }
        });
        while !begun.load(SeqCst) {
            thread::yield_now();
        }
        for entry in 0..MANY {
            at.store(entry, SeqCst);
            (0..entry % 16).for_each(|_| hint::spin_loop());
            for expired in due!(queue, entry) {
                ended[expired.value as usize] = Some(expired.deadline);
            }
        }
        at.store(MANY, SeqCst);
        extends.join().unwrap()
    });
    for expired in due!(queue, LATE) {
        assert_eq!(ended[expired.value as usize].replace(expired.deadline), None);
    }
    for (entry, (ended, promised)) in ended.into_iter().zip(promised).enumerate() {
        assert_eq!(
            ended,
            promised.or(Some(entry as u64)),
            "an extend that was accepted is lost"
        );
    }
}

#[test]
fn the_first_caller_finds_all_that_was_done_and_loses_no_extend() {
    // an owner whose steps stay plain is seen in two of three races, on a machine with other work
    (0..5).for_each(|_| race_the_first_caller());
}

#[test]
fn cancels_and_outs_add_up() {
    let mut queue = shared_queue(ENTRIES as usize).unwrap();
    let keys: Vec<Key> = (0..ENTRIES)
        .map(|entry| queue.insert_or_drop(entry, 10 + entry).unwrap())
        .collect();
    let callers: Vec<_> = (0..CALLERS)
        .map(|seed| {
            let (mut caller, keys) = (queue.issue().unwrap(), keys.clone());
            thread::spawn(move || {
                for key in keys.iter().skip(seed as usize).step_by(3) {
                    let _ = caller.cancel(key);
                }
                caller.give_back()
            })
        })
        .collect();
    let outs: usize = (0..ENTRIES + 10).map(|now| due!(queue, now).count()).sum();
    let cancels: u64 = callers.into_iter().map(|caller| caller.join().unwrap()).sum();
    assert!(matches!(queue.poll(ENTRIES + 10), Ok(Turn::Idle)));
    assert_eq!(queue.returned(), Ok(cancels));
    let tally = queue.tally();
    assert_eq!(
        (tally.expired, tally.cancelled, outs as u64 + cancels),
        (outs as u64, cancels, ENTRIES)
    );
}

/// One pass of calls in which every fifth cancels.
fn calls(caller: &mut Caller, keys: &[Key], thread: u64) {
    for pass in 0..20 {
        for key in keys {
            let cancels = pass % 5 == thread % 5;
            let answer = if cancels {
                caller.cancel(key)
            } else {
                caller.extend(key, 200 + pass)
            };
            assert!(
                matches!(
                    answer,
                    Ok(_)
                        | Err(CallError::Ended {
                            how: Look::LookCancelled | Look::LookRemoved(_)
                        })
                ),
                "{answer:?}"
            );
        }
    }
}

/// The words live as long as somebody has them.
#[test]
fn eight_threads_call_on_while_and_after_the_queue_ends() {
    for round in 0..20 {
        let mut queue = shared_queue(256).unwrap();
        let keys: Vec<Key> = (0..256u64)
            .map(|entry| queue.insert_or_drop(Box::new(entry), 100).unwrap())
            .collect();
        let (keys, start) = (Arc::new(keys), Arc::new(Barrier::new(9)));
        let threads: Vec<_> = (0..8u64)
            .map(|thread| {
                let (mut caller, keys, start) = (queue.issue().unwrap(), keys.clone(), start.clone());
                thread::spawn(move || {
                    start.wait();
                    calls(&mut caller, &keys, thread);
                    caller
                })
            })
            .collect();
        start.wait();
        (0..round).for_each(|_| thread::yield_now());
        drop(queue);
        let mut callers: Vec<Caller> = threads.into_iter().map(|thread| thread.join().unwrap()).collect();
        let cancelled = keys
            .iter()
            .filter(|key| callers[0].look(key) == Ok(Look::LookCancelled))
            .count();
        assert!(callers.iter_mut().all(|caller| keys.iter().all(|key| matches!(
            caller.extend(key, LAST_TICK),
            Err(CallError::Ended {
                how: Look::LookCancelled | Look::LookRemoved(_)
            })
        ))));
        assert_eq!(callers.iter().map(Caller::cancels).sum::<u64>(), cancelled as u64);
    }
}

type ExtendBy<H> = fn(&mut H, &Key, u64) -> Result<u64, CallError>;

/// Extends each entry by a tick, again and again until the queue has ended, and tells the latest deadlines that it was
/// told.
fn extends_to_the_end<H>(handle: &mut H, keys: &[Key], extend: ExtendBy<H>, ended: &AtomicBool) -> Promised {
    let mut promised = vec![0; keys.len()];
    for when in 101.. {
        let ended = ended.load(SeqCst);
        for (key, promised) in keys.iter().zip(&mut promised) {
            match extend(handle, key, when) {
                Ok(deadline) => {
                    assert!(!ended, "an extend was accepted of what never comes out");
                    *promised = deadline;
                }
                Err(CallError::Ended {
                    how: Look::LookRemoved(deadline),
                }) => assert!(*promised <= deadline, "an extend that was accepted is lost"),
                Err(refused) => panic!("{refused}"),
            }
        }
        if ended {
            break;
        }
    }
    promised
}

/// The queue is dropped beside those who extend its entries: each entry ends at the latest deadline that one of them was
/// told, and they are refused from then on.
fn ends_beside_extends<Q, H: Send>(queue: Q, keys: &[Key], handles: Vec<H>, extend: ExtendBy<H>) {
    let (start, ended) = (Barrier::new(handles.len() + 1), AtomicBool::new(false));
    let told: Vec<(H, Promised)> = thread::scope(|scope| {
        let threads: Vec<_> = handles
            .into_iter()
            .map(|mut handle| {
                let (start, ended) = (&start, &ended);
                scope.spawn(move || {
                    start.wait();
                    let promised = extends_to_the_end(&mut handle, keys, extend, ended);
                    (handle, promised)
                })
            })
            .collect();
        start.wait();
        thread::yield_now();
        drop(queue);
        ended.store(true, SeqCst);
        threads.into_iter().map(|thread| thread.join().unwrap()).collect()
    });
    let latest: Promised = (0..keys.len())
        .map(|entry| told.iter().map(|(_, promised)| promised[entry].max(100)).max().unwrap())
        .collect();
    for (mut handle, _) in told {
        for (key, deadline) in keys.iter().zip(&latest) {
            let how = Look::LookRemoved(*deadline);
            assert_eq!(extend(&mut handle, key, LAST_TICK), Err(CallError::Ended { how }));
        }
    }
}

// promise: rust.queue-dropped
#[test]
fn a_queue_of_one_owner_ends_beside_extends() {
    for _round in 0..50 {
        let mut queue = shared_queue(64).unwrap();
        let keys: Vec<Key> = (0..64).map(|entry| queue.insert_or_drop(entry, 100).unwrap()).collect();
        let callers = (0..CALLERS).map(|_| queue.issue().unwrap()).collect();
        ends_beside_extends(queue, &keys, callers, Caller::extend);
    }
}

// promise: rust.queue-dropped
#[test]
fn a_queue_of_shards_ends_beside_extends() {
    for _round in 0..50 {
        let queue = SharedDelayQueue::new(QueueConfig::of(4, 16)).unwrap();
        let keys: Vec<Key> = (0..64)
            .map(|entry| queue.insert_or_drop(entry % 4, entry, 100).unwrap())
            .collect();
        let handles = (0..CALLERS).map(|_| queue.handle().unwrap()).collect();
        ends_beside_extends(queue, &keys, handles, Handle::extend);
    }
}

#[test]
fn a_cleared_queue_is_closed_for_its_callers() {
    let mut queue = shared_queue(2).unwrap();
    let key = queue.insert_or_drop("v", 10).unwrap();
    let mut caller = queue.issue().unwrap();
    queue.clear();
    let how = Look::LookRemoved(10);
    let ended = CallError::Ended { how };
    assert_eq!(
        (caller.look(&key), caller.extend(&key, 20), caller.cancel(&key)),
        (Ok(how), Err(ended), Err(ended))
    );
    assert_eq!(caller.give_back(), 0);
}

#[test]
fn owners_share_a_queue_behind_a_mutex() {
    let queue = Arc::new(Mutex::new(DelayCore::with_capacity(400).unwrap()));
    let (told, heard) = mpsc::channel();
    let owners: Vec<_> = (0..4u64)
        .map(|owner| {
            let (queue, told) = (queue.clone(), told.clone());
            thread::spawn(move || {
                for entry in 0..100 {
                    let key = queue.lock().unwrap().insert_or_drop((owner, entry), entry).unwrap();
                    told.send(key).unwrap();
                }
            })
        })
        .collect();
    owners.into_iter().for_each(|owner| owner.join().unwrap());
    drop(told);
    assert_eq!(heard.iter().count(), 400);
    let mut queue = queue.lock().unwrap();
    let deadlines: Vec<u64> = due!(queue, 100).map(|expired| expired.deadline).collect();
    assert!(deadlines.len() == 400 && deadlines.windows(2).all(|it| it[0] <= it[1]));
    assert!(queue.is_empty());
}

#[test]
fn readers_ask_at_once() {
    let mut queue = DelayCore::with_capacity(64).unwrap();
    let keys: Vec<Key> = (0..64)
        .map(|when| queue.insert_or_drop(when, 100 + when).unwrap())
        .collect();
    let (queue, keys) = (&queue, &keys);
    thread::scope(|scope| {
        for _ in 0..4 {
            scope.spawn(move || {
                for _ in 0..200 {
                    assert_eq!(
                        (queue.len(), queue.next_wake().is_some(), queue.tally().linked),
                        (64, true, 64)
                    );
                    assert_eq!((queue.peek(), queue.entries().count()), (Some(keys[0]), 64));
                    assert!(keys.iter().all(|key| {
                        let until = queue.get(&key.entry()).map(|it| it + 100).unwrap();
                        queue.look(key) == Ok(Look::StillLive(until))
                    }));
                }
            });
        }
    });
}
