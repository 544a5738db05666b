//! A queue grows as entries come, up to its bound, and uses again what has ended.

use crate::kit::{ms, within_the_limit, Drops, Value, FAR};
use hontkhale::{DelayQueue, InsertErrorKind, Key, ManualClock, Metrics};
use std::cell::Cell;
use std::sync::{Arc, Barrier, OnceLock};
use std::task::{Context, Poll, Wake, Waker};
use std::thread;
use std::time::{Duration, Instant};

#[test]
fn an_empty_queue_takes_little_and_grows_as_entries_come() {
    let queue = DelayQueue::builder().shards(4).build();
    let empty = queue.stats().memory;
    assert!(empty < 10_000, "{empty}");
    for number in 0..100_000_u64 {
        queue.insert(number, FAR).expect("room");
    }
    let memory = queue.stats().memory;
    assert!(memory < 3 * 64 * 100_000, "{memory}");
    assert_eq!((queue.len(), queue.clear(), queue.len()), (100_000, 100_000, 0));
    for number in 0..100_000_u64 {
        queue.insert(number, FAR).expect("room");
    }
    let memory = queue.stats().memory;
    assert!(memory < 3 * 64 * 100_000, "{memory}");
}

/// No core is made where another thread has just made one that has room.
#[test]
fn eight_threads_take_little_more_memory_than_one() {
    let memory_of = |threads: u64| {
        let queue = DelayQueue::builder().shards(1).build();
        let begins = Barrier::new(threads as usize);
        let inserts = || {
            begins.wait();
            (0..16_000 / threads).for_each(|number| assert!(queue.insert(number, FAR).is_ok()));
        };
        thread::scope(|scope| (0..threads).for_each(|_| drop(scope.spawn(inserts))));
        queue.stats().memory
    };
    let memory = memory_of(1);
    for _ in 0..100 {
        // The next core may be made ahead a little later, and twice as large then.
        assert!(memory_of(8) <= 2 * memory);
    }
}

/// Each reset moves the entry here, as no slot has a second stamp, and what it leaves is worn.
#[test]
fn resets_of_one_entry_take_no_more_memory() {
    let queue = DelayQueue::builder().shards(2).last_stamp(1).build();
    let key = queue.insert("kept", FAR).expect("room");
    let memory = queue.stats().memory;
    for _ in 0..2_000 {
        queue.reset(&key, FAR).expect("it waits");
    }
    assert_eq!(queue.stats().memory, memory);
    assert_eq!(queue.remove(&key), Ok("kept"));
}

#[test]
fn no_more_wait_than_may_and_what_has_ended_makes_room() {
    for most in [0, 1, 5, 1_000] {
        let queue = DelayQueue::builder().max_entries(most).build();
        let keys: Vec<_> = (0..most)
            .map(|number| queue.insert(number, FAR).expect("room"))
            .collect();
        for _ in 0..3 {
            let refused = queue.insert(most, FAR).unwrap_err();
            assert_eq!((refused.kind(), refused.into_inner()), (InsertErrorKind::Full, most));
        }
        for key in &keys {
            queue.cancel(key).expect("it waits");
            queue.insert(7, FAR).expect("room");
        }
        assert_eq!(queue.len(), most);
    }
}

#[test]
fn what_is_due_counts_against_the_bound_until_it_comes_out() {
    let queue = DelayQueue::builder().max_entries(2).build();
    for number in [1, 2] {
        queue.insert(number, Duration::ZERO).expect("room");
    }
    assert_eq!(queue.insert(3, FAR).unwrap_err().kind(), InsertErrorKind::Full);
    queue.recv().expect("it is due");
    queue.insert(3, FAR).expect("room");
}

#[test]
fn what_one_call_takes_out_of_several_shards_makes_room_once() {
    const THREADS: usize = 8;
    let queue = DelayQueue::builder().max_entries(3 * THREADS).shards(4).build();
    let inserts = || (0..3).for_each(|_| assert!(queue.insert("due".to_string(), Duration::ZERO).is_ok()));
    thread::scope(|scope| (0..THREADS).for_each(|_| drop(scope.spawn(inserts))));
    assert_eq!(queue.try_recv_many(&mut Vec::new(), 100), Ok(3 * THREADS));
    assert_eq!(queue.len(), 0);
}

/// Cancelled entries give their slots back without a receiver, so a queue doesn't grow by them without end.
#[test]
fn an_insert_frees_what_was_cancelled() {
    let drops = Drops::default();
    let queue = DelayQueue::new();
    for number in 0..50_000 {
        let key = queue.insert(drops.value(number), FAR).expect("room");
        queue.cancel(&key).expect("it waits");
    }
    let stats = queue.stats();
    assert!(stats.cancelled < 5_000 && stats.memory < 1_000_000, "{stats}");
    drop(queue);
    assert!(drops.are_once(50_000));
}

/// What is there lives for a moment, so that the first few slots serve all of them.
#[test]
fn a_queue_grows_for_no_entry_that_was_cancelled() {
    let queue = DelayQueue::builder().shards(1).build();
    let inserts_and_cancels = |number: u64| {
        let key = queue.insert(number, FAR).expect("room");
        assert!(queue.cancel(&key).is_ok());
        queue.stats().memory
    };
    let memory = inserts_and_cancels(0);
    let most = (1..20_000).map(inserts_and_cancels).max();
    assert!(most <= Some(2 * memory), "{most:?} of {memory}");
}

/// The slots serve one insert each, and what stays in each core is due, and isn't moved.
#[test]
fn a_shard_that_may_have_no_core_more_leaves_inserts_to_another_one() {
    let queue = DelayQueue::builder().shards(2).last_stamp(1).build();
    let shard_of = |key: Key| format!("{key:?}").contains("shard: 0");
    let first = queue.insert(0, Duration::ZERO).expect("room");
    let other = (1..100_000).find(|number| {
        let key = queue.insert(*number, Duration::ZERO).expect("room in the other shard");
        assert!(number % 64 == 0 || queue.remove(&key).is_ok());
        shard_of(key) != shard_of(first)
    });
    assert!(other > Some(64 * 64), "{other:?}");
}

#[test]
fn a_receiver_in_a_quiet_moment_frees_what_was_cancelled() {
    let drops = Drops::default();
    let queue = DelayQueue::new();
    let key = queue.insert(drops.value(0), FAR).expect("room");
    queue.cancel(&key).expect("it waits");
    assert!(queue.recv_timeout(ms(1)).is_err());
    for _ in 0..8 {
        assert!(queue.recv_timeout(ms(1)).is_err());
    }
    assert_eq!((drops.count(0), queue.stats().cancelled), (1, 0));
}

/// Of receivers that rest at once each frees a part of its own, so that nothing is left out.
#[test]
fn receivers_that_rest_at_once_free_all_that_was_cancelled() {
    for _ in 0..60 {
        let queue = queue_of_cancelled(4_000);
        let begins = Barrier::new(4);
        let rests = || {
            begins.wait();
            (0..40).for_each(|_| assert!(queue.try_recv().is_err()));
        };
        thread::scope(|scope| (0..4).for_each(|_| drop(scope.spawn(rests))));
        assert_eq!(queue.stats().cancelled, 0);
    }
}

/// Wherever the way through the slots is as the last are cancelled.
#[test]
fn a_queue_that_grows_meanwhile_frees_all_that_was_cancelled() {
    for turns in 0..40 {
        let queue = queue_of_cancelled(2_000);
        (0..turns).for_each(|_| assert!(queue.try_recv().is_err()));
        let more: Vec<_> = (0..2_000)
            .map(|number| queue.insert(number, FAR).expect("room"))
            .collect();
        more.iter().for_each(|key| assert!(queue.cancel(key).is_ok()));
        assert!(queue.try_recv().is_err());
        queue.reserve(30_000).expect("memory");
        (0..400).for_each(|_| assert!(queue.try_recv().is_err()));
        assert_eq!(queue.stats().cancelled, 0, "{turns} turns");
    }
}

fn queue_of_cancelled(entries: u64) -> DelayQueue<u64> {
    let queue = DelayQueue::builder().shards(2).build();
    let keys: Vec<_> = (0..entries)
        .map(|number| queue.insert(number, FAR).expect("room"))
        .collect();
    keys.iter().for_each(|key| assert!(queue.cancel(key).is_ok()));
    queue
}

/// Also one that waits for nothing, and one that finds the queue closed. The values count as cancelled until they are dropped.
#[test]
fn a_receiver_drops_what_it_freed_before_it_returns_none() {
    let (clock, drops) = (ManualClock::new(), Drops::default());
    let queue = DelayQueue::builder().clock(&clock).build();
    let cancels = |numbers: std::ops::Range<u64>| {
        for number in numbers {
            let key = queue.insert(drops.value(number), ms(1)).expect("room");
            queue.cancel(&key).expect("it waits");
        }
        clock.advance(ms(1));
    };
    cancels(0..10);
    assert!(queue.recv_timeout(ms(0)).is_err());
    assert_eq!(queue.stats().cancelled, 0);
    assert!(drops.are_once(10));
    queue.insert(drops.value(10), ms(2)).expect("room");
    cancels(11..20);
    clock.advance(ms(1));
    // The values that were freed on the way to it are dropped with the next call.
    assert_eq!(queue.try_recv().map(|expired| expired.value.number), Ok(10));
    assert_eq!(queue.stats().cancelled, 9);
    queue.close();
    assert!(queue.recv().is_none());
    assert_eq!(queue.stats().cancelled, 0);
    assert!(drops.are_once(20));
}

/// It may have something to give each time, and never rest.
#[test]
fn each_receive_drops_what_the_one_before_it_freed() {
    type Receives = fn(&DelayQueue<Value>) -> bool;
    let receives: [Receives; 6] = [
        |queue| queue.recv().is_some(),
        |queue| queue.recv_timeout(FAR).is_ok(),
        |queue| queue.recv_many(&mut Vec::new(), 1) == 1,
        |queue| queue.try_recv().is_ok(),
        |queue| queue.try_recv_many(&mut Vec::new(), 1) == Ok(1),
        |queue| queue.drain().next().is_some(),
    ];
    for receives in receives {
        let (clock, drops) = (ManualClock::new(), Drops::default());
        let queue = DelayQueue::builder().clock(&clock).build();
        let insert = |number| queue.insert(drops.value(number), ms(number)).expect("room");
        let key = insert(1);
        let _live = [2, 3].map(insert);
        queue.cancel(&key).expect("it waits");
        clock.advance(ms(3));
        assert_eq!((receives(&queue), drops.count(1)), (true, 0));
        assert_eq!((receives(&queue), drops.count(1)), (true, 1));
    }
}

/// A task does as a thread does, in a quiet moment and as it finds the queue closed.
#[test]
fn a_task_drops_what_was_cancelled_before_it_rests() {
    struct Idle;
    impl Wake for Idle {
        fn wake(self: Arc<Self>) {}
    }
    let (clock, drops) = (ManualClock::new(), Drops::default());
    let queue = DelayQueue::builder().clock(&clock).build();
    let (mut task, waker) = (queue.receiver(), Waker::from(Arc::new(Idle)));
    let mut poll = || task.poll_recv(&mut Context::from_waker(&waker));
    for (number, after) in [(0, FAR), (1, ms(1))] {
        let key = queue.insert(drops.value(number), after).expect("room");
        queue.cancel(&key).expect("it waits");
        if number == 0 {
            (0..8).for_each(|_| assert!(poll().is_pending()));
        } else {
            clock.advance(ms(1));
            queue.close();
            assert!(matches!(poll(), Poll::Ready(None)));
        }
        assert_eq!((drops.count(number), queue.stats().cancelled), (1, 0));
    }
}

#[test]
fn a_queue_that_is_cleared_gives_its_memory_back() {
    let queue = DelayQueue::builder().shards(1).build();
    (0..10_000).for_each(|number| assert!(queue.insert(number.to_string(), FAR).is_ok()));
    let full = queue.stats().memory;
    assert_eq!(queue.clear(), 10_000);
    let memory = queue.stats().memory;
    assert!(memory < full / 4, "{memory} of {full}");
}

#[test]
fn a_deadline_a_century_away_comes_out_then() {
    let clock = ManualClock::new();
    let queue = DelayQueue::builder().clock(&clock).build();
    let century = Duration::from_secs(100 * 365 * 24 * 3_600);
    queue.insert("far", century).expect("room");
    clock.advance(century - ms(1));
    assert!(queue.try_recv().is_err());
    clock.advance(ms(1));
    assert_eq!(queue.try_recv().map(|expired| expired.value), Ok("far"));
}

/// While the queue grows, moves entries, renews shards and gives memory back.
#[test]
fn each_entry_is_counted_by_its_end() {
    let clock = ManualClock::new();
    let queue = DelayQueue::builder().clock(&clock).last_stamp(3).shards(3).build();
    let (mut inserted, mut expired, mut removed, mut cancels) = (0, 0, 0, 0);
    for turn in 0..2_000_u64 {
        let insert = |after| queue.insert(turn.to_string(), ms(after)).expect("room");
        let keys: Vec<_> = (0..turn % 50).map(insert).collect();
        inserted += turn % 50;
        for key in keys.iter().step_by(5) {
            (0..3).for_each(|after| assert_eq!(queue.reset(key, ms(40 + after)), Ok(*key)));
        }
        for key in keys.iter().skip(1).step_by(3) {
            match turn % 4 {
                0 => removed += u64::from(queue.remove(key).is_ok()),
                1 => cancels += u64::from(queue.cancel(key).is_ok()),
                2 => removed += u64::from(queue.remove_if_due(key).is_ok_and(|value| value.is_some())),
                _ => {}
            }
        }
        clock.advance(ms(turn % 7));
        expired += queue.try_iter().count() as u64;
        if turn % 300 == 299 {
            removed += queue.clear() as u64;
        }
        let stats = queue.stats();
        assert_eq!(
            (stats.inserted, stats.expired, stats.removed, stats.cancels),
            (inserted, expired, removed, cancels)
        );
        assert_eq!(inserted, expired + removed + cancels + stats.waiting as u64);
        assert_eq!(stats.lateness.iter().sum::<u64>(), expired);
    }
    assert!(expired > 0 && removed > 0 && cancels > 0);
}

#[derive(Default)]
struct Buckets(Vec<(Duration, u64)>);

impl Metrics for Buckets {
    fn counter(&mut self, _: &str, _: u64) {}
    fn gauge(&mut self, _: &str, _: f64) {}
    fn bucket(&mut self, _: &str, below: Duration, count: u64) {
        self.0.push((below, count));
    }
}

/// A bucket that is reported counts what those before it do.
#[test]
fn the_lateness_is_told_by_powers_of_two_until_it_is_reset() {
    let clock = ManualClock::new();
    let queue = DelayQueue::builder().clock(&clock).build();
    for late in [0, 1, 2, 3, 4, 7, 8, 1_000, 1_024, 2_047, 2_048, 1 << 40] {
        queue.insert((), ms(10)).expect("room");
        clock.advance(ms(10 + late));
        assert!(queue.try_recv().is_ok());
    }
    let stats = queue.stats();
    assert_eq!(stats.lateness, [2, 2, 2, 1, 0, 0, 0, 0, 0, 1, 2, 2]);
    assert_eq!(stats.latest, ms(1 << 40));
    let mut buckets = Buckets::default();
    stats.report(&mut buckets);
    let lengths = (1..12).map(|power| ms(1 << power)).chain([Duration::MAX]);
    let counts = [2, 4, 6, 7, 7, 7, 7, 7, 7, 8, 10, 12];
    assert_eq!(buckets.0, lengths.zip(counts).collect::<Vec<_>>());
    queue.reset_lateness();
    let stats = queue.stats();
    assert_eq!(
        (stats.latest, stats.lateness.iter().sum::<u64>(), stats.expired),
        (ms(0), 0, 12)
    );
}

/// Each thread's entries are in the shard of that thread.
#[test]
fn the_lateness_is_reset_in_all_shards() {
    let clock = ManualClock::new();
    let queue = DelayQueue::builder().clock(&clock).shards(2).build();
    let inserts = || assert!(queue.insert("late".to_string(), Duration::ZERO).is_ok());
    thread::scope(|scope| (0..16).for_each(|_| drop(scope.spawn(inserts))));
    clock.advance(ms(5));
    assert_eq!(queue.try_iter().count(), 16);
    let told = || (queue.stats().latest, queue.stats().lateness.iter().sum::<u64>());
    assert_eq!(told(), (ms(5), 16));
    queue.reset_lateness();
    assert_eq!(told(), (ms(0), 0));
}

static ASKED: OnceLock<DelayQueue<u64>> = OnceLock::new();

thread_local! {
    static ASKS: Cell<bool> = const { Cell::new(false) };
}

/// A clock that asks for the queue's first deadline, which takes locks, and makes room there.
fn asks_and_tells() -> Instant {
    if let Some(queue) = ASKED.get().filter(|_| !ASKS.with(|asks| asks.replace(true))) {
        let _ = (queue.next_deadline(), queue.reserve(queue.len()));
        ASKS.with(|asks| asks.set(false));
    }
    Instant::now()
}

/// No lock is held while a program's clock is read.
#[test]
fn a_clock_that_calls_its_queue_never_hangs() {
    within_the_limit(|| {
        let queue = DelayQueue::builder().shards(2).read_clock(asks_and_tells).build();
        assert!(ASKED.set(queue.clone()).is_ok());
        let keys: Vec<_> = (0..5_000)
            .map(|number| queue.insert(number, FAR).expect("room"))
            .collect();
        assert!(queue.try_recv().is_err() && queue.reserve(20_000).is_ok());
        for key in &keys {
            assert!(queue.reset(key, FAR / 2).is_ok() && queue.remove(key).is_ok());
        }
        assert!(queue.try_recv().is_err() && queue.wait_empty(Duration::ZERO));
    });
}
