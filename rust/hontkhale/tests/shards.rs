//! A queue of shards from many threads: its handles beside held locks, its refusals, and what a panic leaves.

// The tests ask for a newer Rust than the crate, and an error is shown without the value that came back.
#![allow(clippy::incompatible_msrv, clippy::ok_expect)]

use hontkhale::parts::owner::{CallError, CoreError, Key, Look, Piece, ReapError, Turn, HANDLE_LIMIT, LAST_TICK};
use hontkhale::parts::shards::{Handle, HandlesOut, QueueConfig, QueueError, ShardState, SharedDelayQueue};
use hontkhale::parts::streams::{ExpiredStream, MillisecondTicks};
use std::panic::{catch_unwind, AssertUnwindSafe};
use std::sync::atomic::{AtomicUsize, Ordering::SeqCst};
use std::sync::{mpsc, Arc};
use std::task::{Context, Wake, Waker};
use std::thread;
use std::time::Duration;

/// Far longer than a call takes on a machine under load.
const LIMIT: Duration = Duration::from_secs(20);

fn queue(shards: usize, capacity: usize) -> SharedDelayQueue<String> {
    SharedDelayQueue::new(QueueConfig::of(shards, capacity)).unwrap()
}

/// Calls `f` while this thread holds the lock of every shard from this one on.
fn with_all_held(queue: &SharedDelayQueue<String>, shard: usize, f: &mut dyn FnMut()) {
    if shard == queue.shards() {
        f();
    } else {
        queue.lend(shard, |_held| with_all_held(queue, shard + 1, f)).unwrap();
    }
}

/// Each call that a handle has, once for each key, told when it is done.
fn calls_at_each(handle: &mut Handle, keys: &[Key], told: &mpsc::Sender<()>) {
    for key in keys {
        assert_eq!(handle.extend(key, 500), Ok(500));
        assert_eq!(handle.look(key), Ok(Look::StillLive(500)));
    }
    assert_eq!(handle.cancel(&keys[0]), Ok(500));
    told.send(()).unwrap();
}

#[test]
fn a_handle_works_in_every_shard_while_another_thread_holds_all_locks() {
    for shards in [1, 4, 64] {
        let queue = queue(shards, 10);
        let insert = |at: u64| queue.insert_or_drop(at, at.to_string(), 100).unwrap();
        let keys: Vec<Key> = (0..shards as u64).map(insert).collect();
        let mut handle = queue.handle().unwrap();
        thread::scope(|scope| {
            let ((held, is_held), (let_go, may_go)) = (mpsc::channel(), mpsc::channel::<()>());
            let queue = &queue;
            scope.spawn(move || {
                with_all_held(queue, 0, &mut || {
                    held.send(()).unwrap();
                    let _ = may_go.recv();
                })
            });
            is_held.recv().unwrap();
            let (told, heard) = mpsc::channel();
            let (keys, handle) = (&keys, &mut handle);
            scope.spawn(move || calls_at_each(handle, keys, &told));
            // A handle that took a lock would wait for the other thread, which waits for this one.
            let ended = heard.recv_timeout(LIMIT);
            drop(let_go);
            assert!(ended.is_ok(), "a handle's call waits while the shards are held");
        });
        assert_eq!(
            queue.deadline(&keys[0].entry()),
            Err(QueueError::Core(CoreError::WasCancelled))
        );
        assert!(keys.iter().skip(1).all(|key| queue.deadline(&key.entry()) == Ok(500)));
    }
}

#[test]
fn shards_out_of_range_are_unknown() {
    let queue = queue(4, 10);
    let key = queue.insert_or_drop(3, "a".into(), 10).unwrap();
    assert_eq!(key.entry().shard(), 3);
    let unknown = QueueError::Unknown;
    for shard in [4, 5, 64, usize::MAX] {
        assert_eq!(queue.poll(shard, LAST_TICK + 1).unwrap_err(), unknown);
        assert_eq!(queue.poll_some(shard, LAST_TICK + 1, 0).unwrap_err(), unknown);
        assert_eq!(queue.next_wake(shard), Err(unknown));
        assert_eq!((queue.sweep(shard), queue.clear(shard)), (Err(unknown), Err(unknown)));
        assert_eq!(
            (queue.sweep_some(shard, 0, 1), queue.tally(shard)),
            (Err(unknown), Err(unknown))
        );
        assert_eq!(
            (queue.ring(shard, 5), queue.parked(shard)),
            (Err(unknown), Err(unknown))
        );
        assert_eq!(queue.lend(shard, |_| panic!("it isn't called")), Err(unknown));
        assert!(queue.enter(shard).is_err());
    }
    assert_eq!(unknown.to_string(), "there is no such shard");
}

#[test]
fn a_full_shard_gives_the_value_back() {
    let queue = queue(2, 1);
    queue.insert_or_drop(0, "first".into(), 10).unwrap();
    let (full, value) = queue.insert(2, "second".into(), 10).unwrap_err();
    assert_eq!(
        (full, &value[..]),
        (QueueError::Core(CoreError::Full { linked: 1, worn: 0 }), "second")
    );
    let (far, value) = queue.insert(1, "third".into(), LAST_TICK + 1).unwrap_err();
    assert_eq!(
        (far, &value[..]),
        (QueueError::Core(CoreError::TooFar { limit: LAST_TICK }), "third")
    );
    queue.insert_or_drop(1, "fourth".into(), LAST_TICK).unwrap();
    let too_large = QueueError::Core(CoreError::TickTooLarge { limit: LAST_TICK });
    assert_eq!(queue.poll(0, LAST_TICK + 1).unwrap_err(), too_large);
    assert!(matches!(queue.poll(0, 10), Ok(Turn::Out(_))));
}

#[test]
fn worn_slots_are_refused_by_name() {
    let config = QueueConfig {
        last_stamp: 2,
        ..QueueConfig::of(2, 1)
    };
    let queue = SharedDelayQueue::new(config).unwrap();
    let key = queue.insert_or_drop(0, "a", 10).unwrap();
    let key = queue.reset(&key.entry(), 20).unwrap();
    assert_eq!(queue.reset(&key.entry(), 30), Err(QueueError::Core(CoreError::Worn)));
    assert_eq!(queue.deadline(&key.entry()), Ok(20));
    queue.remove(&key.entry()).unwrap();
    let full = QueueError::Core(CoreError::Full { linked: 0, worn: 1 });
    assert_eq!(queue.insert_or_drop(0, "b", 10), Err(full));
    queue.insert_or_drop(1, "c", 10).unwrap();
}

#[test]
fn a_stale_key_is_refused_by_a_handle_and_taken_by_name() {
    let queue = queue(4, 10);
    let mut handle = queue.handle().unwrap();
    let old = queue.insert_or_drop(2, "a".into(), 10).unwrap();
    let new = queue.reset(&old.entry(), 20).unwrap();
    assert_eq!(handle.extend(&old, 30), Err(CallError::Stale { seen: new.stamp() }));
    assert_eq!(
        (handle.extend(&new, 30), queue.deadline(&old.entry())),
        (Ok(30), Ok(30))
    );
    assert_eq!(queue.remove(&old.entry()).unwrap().value, "a");
    assert_eq!(
        queue.remove(&new.entry()).unwrap_err(),
        QueueError::Core(CoreError::Missing)
    );
    assert_eq!(
        handle.extend(&new, 50),
        Err(CallError::Ended {
            how: Look::LookRemoved(30)
        })
    );
}

/// Handles are issued so many times for good, given back or not.
#[test]
fn as_many_handles_as_may_be_are_made() {
    let queue = queue(2, 4);
    let mut handles: Vec<Handle> = (0..HANDLE_LIMIT).map(|_| queue.handle().unwrap()).collect();
    let refused = QueueError::TooManyHandles { limit: HANDLE_LIMIT };
    assert_eq!(queue.handle().unwrap_err(), refused);
    handles.pop().unwrap().give_back();
    assert_eq!(
        (queue.handle().unwrap_err(), queue.audit().unwrap_err().out),
        (refused, HANDLE_LIMIT - 1)
    );
    handles.into_iter().for_each(|handle| assert_eq!(handle.give_back(), 0));
    assert_eq!(queue.audit().unwrap().inserted, 0);
}

#[test]
fn a_handle_outlives_its_queue() {
    let queue = queue(2, 4);
    let keys = [0, 1].map(|shard| queue.insert_or_drop(shard, "a".into(), 10).unwrap());
    let mut handle = queue.handle().unwrap();
    assert_eq!(handle.extend(&keys[0], 20), Ok(20));
    drop(queue);
    for (key, deadline) in keys.iter().zip([20, 10]) {
        let how = Look::LookRemoved(deadline);
        assert_eq!(handle.look(key), Ok(how));
        assert_eq!(handle.extend(key, 30), Err(CallError::Ended { how }));
        assert_eq!(handle.cancel(key), Err(CallError::Ended { how }));
    }
    assert_eq!(handle.give_back(), 0);
}

#[test]
fn a_panic_under_a_lock_leaves_the_shard_good() {
    let queue = queue(1, 4);
    let key = queue.insert_or_drop(0, "a".into(), 10).unwrap();
    let panicked = catch_unwind(AssertUnwindSafe(|| {
        queue.lend(0, |shard| {
            shard.insert("b".into(), 20).unwrap();
            panic!("under the lock");
        })
    }));
    assert!(panicked.is_err());
    assert_eq!(
        (queue.deadline(&key.entry()), queue.tally(0).unwrap().linked),
        (Ok(10), 2)
    );
    assert_eq!(queue.clear(0), Ok(2));
}

#[derive(Default)]
struct Wakes(AtomicUsize);

impl Wake for Wakes {
    fn wake(self: Arc<Self>) {
        self.0.fetch_add(1, SeqCst);
    }
}

/// What was put in before the panic wakes the poller that it comes before.
#[test]
fn a_panic_under_a_lock_keeps_the_wake() {
    let (queue, wakes) = (queue(1, 4), Arc::new(Wakes::default()));
    queue.insert_or_drop(0, "late".into(), 40).unwrap();
    queue.enter(0).unwrap().park(40, Waker::from(wakes.clone()));
    let panicked = catch_unwind(AssertUnwindSafe(|| {
        queue.lend(0, |shard| {
            shard.insert("soon".into(), 20).unwrap();
            panic!("under the lock");
        })
    }));
    assert_eq!(
        (panicked.is_err(), wakes.0.load(SeqCst), queue.parked(0)),
        (true, 1, Ok(None))
    );
}

/// A call on a shard in hand by which nobody may wait on for its one entry, which may be cancelled.
type InHand = (&'static str, bool, fn(&mut ShardState<String>, &Key));

const IN_HAND: &[InHand] = &[
    ("insert", false, |shard, _| {
        assert!(shard.insert(String::new(), 20).is_ok())
    }),
    ("reset", false, |shard, key| {
        assert!(shard.reset(&key.entry(), 20).is_ok())
    }),
    ("remove", false, |shard, key| {
        assert!(shard.remove(&key.entry()).is_ok())
    }),
    ("poll", false, |shard, _| assert!(shard.poll(40).is_ok())),
    ("poll_some", false, |shard, _| assert!(shard.poll_some(40, 99).is_ok())),
    ("poll_many", false, |shard, _| {
        assert!(shard.poll_many(40, &mut Vec::with_capacity(1)).is_ok())
    }),
    ("clear", false, |shard, _| assert_eq!(shard.clear(), 1)),
    ("ring", false, |shard, _| assert!(shard.ring(40))),
    ("sweep", true, |shard, _| assert_eq!(shard.sweep(), 1)),
    ("sweep_some", true, |shard, _| {
        assert_eq!(shard.sweep_some(0, 1).reaped, 1)
    }),
    ("reap", true, |shard, key| assert!(shard.reap(&key.entry()).is_ok())),
];

#[test]
fn a_call_on_a_shard_in_hand_wakes_who_leaves() {
    for (name, is_cancelled, call) in IN_HAND {
        let (queue, wakes) = (queue(1, 4), Arc::new(Wakes::default()));
        let key = queue.insert_or_drop(0, String::new(), 40).unwrap();
        if *is_cancelled {
            assert_eq!(queue.handle().unwrap().cancel(&key), Ok(40));
        }
        let mut shard = queue.enter(0).unwrap();
        shard.park(40, Waker::from(wakes.clone()));
        call(&mut shard, &key);
        assert_eq!((shard.parked(), wakes.0.load(SeqCst)), (None, 1), "{name}");
    }
}

#[test]
fn a_waker_is_dropped_where_another_is_parked() {
    let (queue, wakes) = (queue(1, 4), Arc::new(Wakes::default()));
    queue.insert_or_drop(0, String::new(), 40).unwrap();
    for _ in 0..3 {
        queue.enter(0).unwrap().park(40, Waker::from(wakes.clone()));
    }
    assert_eq!((Arc::strong_count(&wakes), wakes.0.load(SeqCst)), (2, 0));
}

#[test]
fn a_stream_that_gives_an_entry_keeps_no_waker() {
    let (queue, wakes) = (queue(1, 4), Arc::new(Wakes::default()));
    queue.insert_or_drop(0, String::new(), 0).unwrap();
    let mut stream = ExpiredStream::new(&queue, 0, MillisecondTicks::new()).ok().unwrap();
    let waker = Waker::from(wakes.clone());
    assert!(stream.poll_next(&mut Context::from_waker(&waker)).is_ready());
    drop(waker);
    assert_eq!(Arc::strong_count(&wakes), 1);
}

#[test]
fn an_audit_is_refused_for_each_shard_with_a_caller_out() {
    for shard in 0..3 {
        let queue = queue(3, 1);
        let caller = queue.enter(shard).unwrap().issue().unwrap();
        assert_eq!(queue.audit(), Err(HandlesOut { out: 1 }));
        caller.give_back();
        assert!(queue.audit().is_ok());
    }
}

#[test]
fn an_audit_counts_what_was_cancelled_and_cleared() {
    let queue = queue(2, 10);
    let insert = |at: u64| queue.insert_or_drop(at, at.to_string(), 10 + at).unwrap();
    let keys: Vec<Key> = (0..10).map(insert).collect();
    let mut handle = queue.handle().unwrap();
    for at in [0, 1, 9] {
        handle.cancel(&keys[at]).unwrap();
    }
    assert_eq!(queue.audit().unwrap_err().to_string(), "1 handles are out");
    assert_eq!(handle.give_back(), 3);
    // The cancelled ones aren't reaped yet.
    let totals = queue.audit().unwrap();
    assert_eq!((totals.inserted, totals.cancelled, totals.live), (10, 3, 7));
    assert_eq!((queue.clear(0), queue.sweep(1)), (Ok(4), Ok(2)));
    queue.poll(1, 13).unwrap();
    let totals = queue.audit().unwrap();
    assert_eq!((totals.inserted, totals.expired, totals.removed), (10, 1, 4));
    assert_eq!((totals.cancelled, totals.live), (3, 2));
}

#[test]
fn a_shards_lock_is_let_go_between_the_pieces() {
    let queue = SharedDelayQueue::new(QueueConfig::of(2, 3_000)).unwrap();
    for value in 0..1_000 {
        queue.insert_or_drop(1, value, 5_000).unwrap();
    }
    thread::scope(|scope| {
        let ((ask, asked), (done, is_done)) = (mpsc::channel(), mpsc::channel());
        let queue = &queue;
        scope.spawn(move || {
            for value in asked {
                done.send(queue.insert_or_drop(1, value, 6_000).is_ok()).unwrap();
            }
        });
        for value in 1_000..1_015 {
            assert!(matches!(queue.poll_some(1, 5_000, 64), Ok(Piece::Working)));
            ask.send(value).unwrap();
            // A piece that kept the lock would have the other thread wait for this one.
            assert_eq!(is_done.recv_timeout(LIMIT), Ok(true));
        }
    });
    let mut outs = Vec::new();
    while outs.len() < 1_000 {
        if let Piece::Answer(Turn::Out(out)) = queue.poll_some(1, 5_000, 64).unwrap() {
            outs.push(out.value);
        }
    }
    outs.sort_unstable();
    assert!(outs.into_iter().eq(0..1_000));
    assert_eq!(queue.tally(1).unwrap().linked, 15);
}

#[test]
fn shards_sweep_and_reap_in_pieces() {
    let queue = queue(2, 100);
    let keys: Vec<Key> = (0..100)
        .map(|at| queue.insert_or_drop(1, at.to_string(), 50).unwrap())
        .collect();
    let mut handle = queue.handle().unwrap();
    assert_eq!(queue.reap(&keys[3].entry()), Ok(Err(ReapError::Live)));
    assert!(keys.iter().all(|key| handle.cancel(key).is_ok()));
    assert_eq!(
        (queue.reap(&keys[3].entry()), queue.tally(1).unwrap().cancelled),
        (Ok(Ok(())), 1)
    );
    assert_eq!(queue.reap(&keys[3].entry()), Ok(Err(ReapError::Missing)));
    let swept = queue.sweep_some(1, 0, 64).unwrap();
    assert_eq!(
        (swept.reaped, swept.next, queue.tally(1).unwrap().linked),
        (63, Some(64), 36)
    );
    let last = keys[99].entry();
    let lent = queue.lend(1, |shard| {
        (shard.sweep_some(64, 30).reaped, shard.reap(&last), shard.len())
    });
    assert_eq!(lent, Ok((30, Ok(()), 5)));
    assert_eq!(queue.sweep_some(0, 0, 64).unwrap().reaped, 0);
    let too_large = QueueError::Core(CoreError::TickTooLarge { limit: LAST_TICK });
    assert_eq!(queue.poll_some(1, LAST_TICK + 1, 0).unwrap_err(), too_large);
}

/// All that a shard shows of itself.
fn shown(queue: &SharedDelayQueue<String>, shard: usize) -> String {
    format!("{:?}", queue.enter(shard).unwrap())
}

// promise: shards.deadline-next-wake
#[test]
fn what_only_tells_changes_nothing() {
    let queue = queue(2, 10);
    let keys = [(7, "one"), (7, "two"), (90, "three")]
        .map(|(when, name)| queue.insert_or_drop(0, name.to_owned(), when).unwrap());
    let mut handle = queue.handle().unwrap();
    assert_eq!(handle.cancel(&keys[0]), Ok(7));
    handle.give_back();
    assert!(matches!(queue.poll(0, 5), Ok(Turn::Waiting { next: 7 })));
    queue.lend(0, |shard| shard.park(7, Waker::noop().clone())).unwrap();
    let before = shown(&queue, 0);
    assert!(
        before.contains("len: 3") && before.contains("parked: Some(7)"),
        "{before}"
    );
    assert_eq!(queue.deadline(&keys[1].entry()), Ok(7));
    assert_eq!(
        queue.deadline(&keys[0].entry()),
        Err(QueueError::Core(CoreError::WasCancelled))
    );
    assert_eq!(queue.next_wake(0), Ok(Some(7)));
    assert_eq!(queue.tally(0).map(|tally| (tally.linked, tally.cancelled)), Ok((3, 0)));
    assert_eq!(queue.parked(0), Ok(Some(7)));
    assert_eq!(queue.audit().map(|totals| (totals.live, totals.cancelled)), Ok((2, 1)));
    assert_eq!(shown(&queue, 0), before);
}
