//! Polls in pieces that give way between them.

// The tests ask for a newer Rust than the crate.
#![allow(clippy::incompatible_msrv)]

#[allow(dead_code)]
#[path = "models/draw.rs"]
mod draw;

use draw::{calls, Draw};
use hontkhale::parts::owner::CoreError;
use hontkhale::parts::owner::{EntryId, Turn, LAST_TICK};
use hontkhale::parts::shards::{QueueConfig, QueueError, SharedDelayQueue};
use std::num::NonZeroU32;
use std::sync::atomic::{AtomicBool, Ordering::SeqCst};
use std::thread;
use std::time::{Duration, Instant};

/// The tick at whose poll a slot opens, and a deadline in it: the slots there have 4,096 ticks.
const OPENS: u64 = 4_096 * 16;
const DEADLINE: u64 = OPENS + 2_048;

/// The shards of a queue.
const SHARDS: usize = 2;

type Queue = SharedDelayQueue<u64>;

fn queue_of(capacity: usize) -> Queue {
    Queue::new(QueueConfig::of(SHARDS, capacity)).expect("a queue")
}

/// By the route of the first shard.
fn insert(queue: &Queue, value: u64, when: u64) -> Option<EntryId> {
    queue.insert_or_drop(0, value, when).ok().map(|key| key.entry())
}

fn steps(steps: u32) -> NonZeroU32 {
    NonZeroU32::new(steps).expect("some steps")
}

/// What comes out up to a tick, in order, and whether something is left.
fn outs(mut poll: impl FnMut() -> Turn<u64>) -> (Vec<(u64, u64)>, bool) {
    let mut outs = Vec::new();
    loop {
        match poll() {
            Turn::Out(expired) => outs.push((expired.deadline, expired.value)),
            Turn::Waiting { .. } => return (outs, true),
            Turn::Idle => return (outs, false),
        }
    }
}

#[test]
fn polls_through_give_what_whole_polls_give() {
    let (through, whole) = (queue_of(200), queue_of(200));
    let (mut draw, mut tick) = (Draw::new(11), 0);
    for value in 0..calls() / 10 {
        let when = tick + draw.of_bits(20);
        let answers = [&through, &whole].map(|queue| insert(queue, value, when));
        assert_eq!(answers[0].is_some(), answers[1].is_some());
        if draw.one_in(20) {
            tick += draw.of_bits(18);
            let most = steps(1 + draw.below(17) as u32);
            let given = outs(|| through.poll_through(0, tick, most).expect("a shard"));
            assert_eq!(given, outs(|| whole.poll(0, tick).expect("a shard")), "at {tick}");
        }
    }
}

#[test]
fn polls_through_are_refused_as_polls() {
    let queue = queue_of(4);
    for shard in [SHARDS, usize::MAX] {
        assert_eq!(
            queue.poll_through(shard, LAST_TICK + 1, steps(1)).unwrap_err(),
            QueueError::Unknown
        );
        queue.give_way(shard);
    }
    let too_large = QueueError::Core(CoreError::TickTooLarge { limit: LAST_TICK });
    assert_eq!(queue.poll_through(1, LAST_TICK + 1, steps(1)).unwrap_err(), too_large);
    queue.give_way(1);
    assert!(matches!(queue.poll_through(1, LAST_TICK, steps(1)), Ok(Turn::Idle)));
}

/// Looks at the shard until another thread has polled it through: whether the lock was once free amid that poll, whose tick
/// was noted then while there was still something to do at it.
fn is_seen_on_its_way(queue: &Queue, polled: &AtomicBool) -> bool {
    let mut seen = false;
    while !polled.load(SeqCst) {
        let shard = queue.enter(0).expect("a shard");
        let (noted, wake) = (shard.noted(), shard.next_wake());
        drop(shard);
        seen |= noted == OPENS && wake.is_some_and(|wake| wake <= OPENS);
    }
    seen
}

/// Fails where the poll keeps the lock over its pieces, in each of many rounds.
#[test]
fn another_thread_gets_in_between_the_pieces() {
    let gets_in = |_| {
        let (queue, polled) = (queue_of(4_000), AtomicBool::new(false));
        (0..4_000).for_each(|value| assert!(insert(&queue, value, DEADLINE).is_some()));
        thread::scope(|scope| {
            let looks = scope.spawn(|| is_seen_on_its_way(&queue, &polled));
            let turn = queue.poll_through(0, OPENS, steps(1));
            assert!(matches!(turn, Ok(Turn::Waiting { .. })));
            polled.store(true, SeqCst);
            looks.join().expect("the other thread ends")
        })
    };
    assert!((0..3_000).any(gets_in), "no other thread ever gets in");
}

/// Threads that wait for a lock are let in, and none of their calls is lost.
#[test]
fn many_threads_call_beside_polls_through() {
    const CALLS: u64 = 2_000;
    let queue = queue_of(64);
    thread::scope(|scope| {
        for _ in 0..3 {
            scope.spawn(|| {
                for value in 0..CALLS {
                    let entry = insert(&queue, value, OPENS + value).expect("room");
                    assert_eq!(queue.remove(&entry).map(|removed| removed.value), Ok(value));
                }
            });
        }
        for tick in 0..CALLS {
            assert!(queue.poll_through(0, tick, steps(2)).is_ok());
        }
    });
    let tally = queue.tally(0).expect("a shard");
    assert_eq!((tally.inserted, tally.removed, tally.linked), (3 * CALLS, 3 * CALLS, 0));
    queue.give_way(0);
}

/// The least time of 50 calls of `give_way`: far less than a microsecond where nobody waits for the shard's lock, and a
/// thousand looks where someone does.
fn gives_way(queue: &Queue, shard: usize) -> bool {
    let least = (0..50).map(|_| {
        let start = Instant::now();
        queue.give_way(shard);
        start.elapsed()
    });
    least.min().is_some_and(|least| least > Duration::from_nanos(1_500))
}

// promise: shards.poll-through-makes
#[test]
fn polls_through_give_way_to_who_waits_for_their_shard() {
    let queue = queue_of(8);
    assert!(!gives_way(&queue, 0) && !gives_way(&queue, 1), "nobody waits yet");
    thread::scope(|scope| {
        let held = queue.enter(1).expect("a shard");
        scope.spawn(|| queue.poll_through(1, 0, steps(1)).is_ok());
        let start = Instant::now();
        while !gives_way(&queue, 1) {
            assert!(start.elapsed() < Duration::from_secs(20), "it gives way to nobody");
        }
        assert!(!gives_way(&queue, 0), "nobody waits for the other shard");
        drop(held);
    });
    assert!(!gives_way(&queue, 0) && !gives_way(&queue, 1), "nobody waits any more");
}
