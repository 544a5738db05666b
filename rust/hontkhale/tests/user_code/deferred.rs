//! Values that were freed under a lock and wait to be dropped: each is dropped once, behind the lock, and shows nowhere.

use super::kit::{adds_up, insert, insert_cancelled, is_whole, panics, queue, within_the_limit, Drops, Queue, Value};
use hontkhale::parts::owner::{CoreConfig, CoreError, DelayCore, Piece, Turn, VecWords, CAPACITY_LIMIT};
use hontkhale::parts::shards::{QueueConfig, SharedDelayQueue};
use hontkhale::parts::streams::ExpiredStream;
use std::num::NonZeroU32;
use std::sync::atomic::{AtomicUsize, Ordering};
use std::sync::Arc;
use std::task::{Context, Poll};
use std::thread;

// Three values of shard 0 are deferred: a poll reaped them, and dropped none, since it gave an entry.
fn three_deferred(queue: &Queue, drops: &Drops) {
    for _ in 0..3 {
        insert_cancelled(queue, drops.value(), 5);
    }
    insert(queue, drops.value(), 10);
    assert!(matches!(queue.poll(0, 10), Ok(Turn::Out(_))));
    assert_eq!((drops.count(), deferred(queue)), (1, 3));
}

fn deferred(queue: &Queue) -> usize {
    queue.enter(0).expect("a shard").deferred()
}

#[test]
fn inserts_take_the_slots_of_values_that_are_deferred() {
    within_the_limit(|| {
        let (queue, drops) = (queue(), Drops::default());
        three_deferred(&queue, &drops);
        let live = Drops::default();
        let keys: Vec<_> = (0..8).map(|when| insert(&queue, live.value(), 100 + when)).collect();
        for (key, when) in keys.iter().zip(100..) {
            assert_eq!(queue.remove(&key.entry()).expect("an entry").deadline, when);
        }
        assert_eq!(live.count(), 8, "what is removed is what was put in");
        assert_eq!(queue.sweep(0), Ok(0));
        assert_eq!((drops.count(), deferred(&queue)), (4, 0), "each is dropped once");
        is_whole(&queue, &drops);
    });
}

#[test]
fn what_is_deferred_shows_nowhere() {
    within_the_limit(|| {
        let (queue, drops) = (queue(), Drops::default());
        three_deferred(&queue, &drops);
        let tally = queue.tally(0).expect("a shard");
        assert_eq!((tally.linked, tally.cancelled, tally.expired), (0, 3, 1));
        adds_up(&tally);
        assert_eq!(queue.next_wake(0), Ok(None));
        queue
            .lend(0, |shard| {
                assert_eq!((shard.len(), shard.peek()), (0, None));
                (0..8).for_each(|index| {
                    let entry = hontkhale::parts::owner::EntryId::new(0, index, 1);
                    assert!(shard.place(&entry).is_none() && shard.remove(&entry).is_err());
                });
            })
            .expect("a shard");
        assert!(matches!(queue.poll(0, 1_000), Ok(Turn::Idle)));
        assert_eq!(drops.count(), 4, "a poll that rests drops them");
    });
}

#[test]
fn what_is_deferred_is_dropped_with_the_queue() {
    within_the_limit(|| {
        let (queue, drops) = (queue(), Drops::default());
        three_deferred(&queue, &drops);
        drop(queue);
        assert_eq!(drops.count(), 4);
    });
}

// How deep the drops of values stand in one another.
#[derive(Default)]
struct Depth {
    now: AtomicUsize,
    deepest: AtomicUsize,
}

impl Depth {
    fn inside(&self, call: impl FnOnce()) {
        let now = self.now.fetch_add(1, Ordering::SeqCst) + 1;
        self.deepest.fetch_max(now, Ordering::SeqCst);
        call();
        self.now.fetch_sub(1, Ordering::SeqCst);
    }
}

// As many values are cleared as a shard has at most, each of which puts another one in where it is dropped. That insert
// takes the slot that is free, and drops no value that waits: no drop runs inside another.
fn clears_values_that_insert() {
    let queue: Arc<Queue> = Arc::new(SharedDelayQueue::new(QueueConfig::of(1, CAPACITY_LIMIT)).expect("a queue"));
    let (drops, late, depth) = (Drops::default(), Drops::default(), Arc::new(Depth::default()));
    for when in 0..CAPACITY_LIMIT as u64 {
        let (by_drop, late, nested) = (queue.clone(), late.clone(), depth.clone());
        let value = drops.value_that(move || {
            nested.inside(|| {
                let refused = by_drop.insert_or_drop(0, late.value(), 1_000 + when);
                assert!(refused.is_ok(), "there is room");
            });
        });
        insert(&queue, value, when);
    }
    assert_eq!(queue.clear(0), Ok(CAPACITY_LIMIT));
    assert_eq!(depth.deepest.load(Ordering::SeqCst), 1);
    assert_eq!(
        (drops.count(), late.count(), deferred(&queue)),
        (CAPACITY_LIMIT as u64, 0, 0)
    );
    assert_eq!(queue.clear(0), Ok(CAPACITY_LIMIT));
    assert_eq!(late.count(), CAPACITY_LIMIT as u64);
    is_whole(&queue, &drops);
}

// promise: shards.name-drops
#[test]
fn a_clear_of_values_that_insert() {
    within_the_limit(|| {
        let small = thread::Builder::new().stack_size(256 * 1024);
        let clears = small.spawn(clears_values_that_insert).expect("a thread");
        assert!(clears.join().is_ok(), "it panicked");
    });
}

// Calls on a shard in hand, and a drop that calls the queue by name.
fn lets_go_in_hand(call: impl FnOnce(&Queue, &Drops) + Send + 'static) {
    within_the_limit(|| {
        let (queue, drops) = (queue(), Drops::default());
        for when in 0..3 {
            let by_drop = queue.clone();
            insert_cancelled(
                &queue,
                drops.value_that(move || assert!(by_drop.tally(0).is_ok())),
                when,
            );
        }
        call(&queue, &drops);
        assert_eq!((drops.count(), deferred(&queue)), (3, 0));
        is_whole(&queue, &drops);
    });
}

// promise: shards.name-drops
#[test]
fn lend_drops_behind_its_lock() {
    lets_go_in_hand(|queue, drops| {
        let reaped = queue.lend(0, |shard| (shard.sweep(), drops.count()));
        assert_eq!(reaped, Ok((3, 0)), "nothing is dropped under the lock");
    });
}

#[test]
fn who_holds_a_shard_drops_behind_its_lock() {
    lets_go_in_hand(|queue, drops| {
        let mut shard = queue.enter(0).expect("a shard");
        assert!(matches!(shard.poll_some(10, 100), Ok(Piece::Answer(Turn::Idle))));
        let deferred = shard.deferred();
        assert_eq!((deferred, drops.count()), (3, 0));
        drop(shard);
        queue.drop_deferred(0, deferred);
    });
}

#[test]
fn a_stream_drops_behind_its_lock() {
    lets_go_in_hand(|queue, _| {
        let Ok(mut stream) = ExpiredStream::new(queue, 0, Late) else {
            panic!("a stream")
        };
        let mut cx = Context::from_waker(std::task::Waker::noop());
        assert!(matches!(stream.poll_next(&mut cx), Poll::Ready(None)));
    });
}

// promise: shards.name-drops
#[test]
fn each_call_by_name_drops_what_it_reaps() {
    let steps = NonZeroU32::new(100).expect("some");
    lets_go_in_hand(|queue, _| assert!(matches!(queue.poll(0, 10), Ok(Turn::Idle))));
    lets_go_in_hand(|queue, _| assert!(matches!(queue.poll_some(0, 10, 100), Ok(Piece::Answer(Turn::Idle)))));
    lets_go_in_hand(move |queue, _| assert!(matches!(queue.poll_through(0, 10, steps), Ok(Turn::Idle))));
    lets_go_in_hand(|queue, _| assert!(queue.poll_many(0, 10, &mut Vec::with_capacity(4)).is_ok()));
    lets_go_in_hand(|queue, _| assert_eq!(queue.sweep(0), Ok(3)));
    lets_go_in_hand(|queue, _| assert_eq!(queue.sweep_some(0, 0, 8).map(|swept| swept.reaped), Ok(3)));
    lets_go_in_hand(|queue, _| assert_eq!(queue.clear(0), Ok(0)));
}

// Seven values are deferred behind one whose drop panicked. An insert that finds no other slot drops one, and its drop
// may call the queue: the lock is free.
// promise: shards.name-drops
#[test]
fn an_insert_drops_behind_its_lock() {
    within_the_limit(|| {
        let (queue, drops) = (queue(), Drops::default());
        insert_cancelled(&queue, drops.value_that_panics(), 10);
        for _ in 0..7 {
            let by_drop = queue.clone();
            insert_cancelled(&queue, drops.value_that(move || assert!(by_drop.tally(0).is_ok())), 10);
        }
        assert_eq!(panics(|| queue.sweep(0)), "a value's drop");
        let live = Drops::default();
        for when in 0..8 {
            insert(&queue, live.value(), 100 + when);
        }
        assert_eq!((drops.count(), live.count(), deferred(&queue)), (8, 0, 0));
        is_whole(&queue, &drops);
    });
}

// Always tells tick 10.
struct Late;

impl hontkhale::parts::streams::TickSource for Late {
    fn now(&mut self) -> u64 {
        10
    }
}

// In hand, more inserts than have a place for what was there before: no value is lost, and none is dropped twice.
#[test]
fn inserts_in_hand_over_what_is_deferred() {
    within_the_limit(|| {
        let (queue, drops) = (queue(), Drops::default());
        for when in 0..8 {
            insert_cancelled(&queue, drops.value(), when);
        }
        let linked = queue.lend(0, |shard| {
            assert_eq!(shard.sweep(), 8);
            (0..8).for_each(|when| assert!(shard.insert(drops.value(), when).is_ok()));
            shard.len()
        });
        assert_eq!((linked, drops.count(), deferred(&queue)), (Ok(8), 8, 0));
        assert_eq!(queue.clear(0), Ok(8));
        assert_eq!(drops.count(), 16);
    });
}

// A poll that gives an entry leaves what it reaped to a later call: a drop that panics would lose the entry.
#[test]
fn a_drop_that_panics_loses_no_entry_that_came_out() {
    within_the_limit(|| {
        let (queue, drops) = (queue(), Drops::default());
        insert_cancelled(&queue, drops.value_that_panics(), 5);
        let key = insert(&queue, drops.value(), 10);
        let Ok(Turn::Out(out)) = queue.poll(0, 10) else {
            panic!("an entry is due")
        };
        assert_eq!(out.key, key);
        assert_eq!(panics(|| queue.poll(0, 10)), "a value's drop");
        drop(out);
        is_whole(&queue, &drops);
        assert_eq!(drops.count(), 3);
    });
}

// One owner's queue drops what it frees before the call returns.
#[test]
fn one_owner_defers_nothing() {
    let drops = Drops::default();
    let mut queue: DelayCore<Value, VecWords> = DelayCore::with_capacity(8).expect("a queue");
    for when in 0..4 {
        let Ok(key) = queue.insert(drops.value(), when) else {
            panic!("room")
        };
        assert_eq!(queue.cancel(&key), Ok(when));
    }
    assert_eq!((queue.sweep_some(0, 1).reaped, drops.count()), (1, 1));
    assert!(matches!(queue.poll(1), Ok(Turn::Waiting { next: 2 })));
    assert_eq!((queue.sweep(), drops.count()), (2, 4));
}

// What a call frees that drops nothing shows nowhere, and each value is dropped once: taken out, or with the queue.
#[test]
fn one_owner_may_defer() {
    let drops = Drops::default();
    let mut queue: DelayCore<Value, VecWords> = DelayCore::with_capacity(8).expect("a queue");
    for when in 0..8 {
        assert!(queue.insert(drops.value(), when).is_ok());
    }
    assert_eq!((queue.clear_deferring(), queue.deferred(), drops.count()), (8, 8, 0));
    assert_eq!((queue.len(), queue.entries().count()), (0, 0));
    drop(queue.take_displaced());
    let key = queue.insert(drops.value(), 9).map_err(|refused| refused.0);
    assert_eq!(queue.entries().map(|entry| entry.deadline).collect::<Vec<_>>(), [9]);
    assert!(key.is_ok_and(|key| queue.get(&key.entry()).is_some()));
    for taken in 2..5 {
        drop(queue.take_deferred());
        assert_eq!((drops.count(), queue.deferred()), (taken, 8 - taken as usize));
    }
    drop(queue);
    assert_eq!(drops.count(), 9);
}

// Eight slots, in five of which a value waits: an insert hands one over only where no slot is free.
// promise: slots.value-deferred
#[test]
fn an_insert_takes_a_free_slot_before_one_whose_value_waits() {
    let drops = Drops::default();
    let mut queue: DelayCore<Value, VecWords> = DelayCore::with_capacity(8).expect("a queue");
    for when in 0..5 {
        assert!(queue.insert(drops.value(), when).is_ok());
    }
    assert_eq!((queue.clear_deferring(), queue.deferred()), (5, 5));
    for when in 0..3 {
        assert!(queue.take_displaced().is_none());
        assert!(matches!(queue.insert_deferring(drops.value(), when), (Ok(_), None)));
        assert_eq!((queue.deferred(), drops.count()), (5, 0));
    }
    for left in (2..5).rev() {
        assert!(matches!(queue.insert_deferring(drops.value(), 9), (Ok(_), Some(_))));
        assert_eq!((queue.deferred(), drops.count()), (left, 5 - left as u64));
    }
    assert!(queue.take_deferred().is_some());
    assert!(
        queue.take_displaced().is_none(),
        "the slot of what was taken out is free"
    );
    assert!(matches!(queue.insert_deferring(drops.value(), 9), (Ok(_), None)));
    assert!(queue.take_displaced().is_some());
    assert!(matches!(queue.insert_deferring(drops.value(), 9), (Ok(_), None)));
    assert!(matches!(
        queue.insert_deferring(drops.value(), 9),
        (Err((CoreError::Full { linked: 8, worn: 0 }, _)), None)
    ));
    assert_eq!((queue.deferred(), queue.clear(), drops.count()), (0, 8, 14));
}

// Two of four slots have had their only stamp, and a value waits in each: they are worn, and no insert takes them before
// the queue is renewed. Then it does, and hands over what waits.
// promise: slots.value-deferred
#[test]
fn a_value_waits_in_a_worn_slot() {
    let drops = Drops::default();
    let config = CoreConfig {
        shard: 0,
        capacity: 4,
        last_stamp: 1,
    };
    let words = || VecWords::new(4).expect("words");
    let Ok(mut queue) = DelayCore::new(config, words()) else {
        panic!("a queue")
    };
    let full = |linked, worn| CoreError::Full { linked, worn };
    for round in 1..=2 {
        for when in 0..2 {
            assert!(matches!(queue.insert_deferring(drops.value(), when), (Ok(_), None)));
        }
        assert_eq!(
            (queue.clear_deferring(), queue.deferred(), queue.worn()),
            (2, 2 * round, 2 * round)
        );
    }
    assert!(queue.take_displaced().is_none());
    let (refused, displaced) = queue.insert_deferring(drops.value(), 9);
    assert!(displaced.is_none() && refused.is_err_and(|refused| refused.0 == full(0, 4)));
    assert!(queue.take_deferred().is_some());
    assert_eq!((queue.deferred(), queue.worn(), drops.count()), (3, 4, 2));

    assert!(queue.renew(1, words()).is_ok());
    assert_eq!((queue.deferred(), queue.worn()), (3, 0));
    assert!(matches!(queue.insert_deferring(drops.value(), 9), (Ok(_), None)));
    for left in (0..3).rev() {
        assert!(matches!(queue.insert_deferring(drops.value(), 9), (Ok(_), Some(_))));
        assert_eq!(queue.deferred(), left);
    }
    let (refused, displaced) = queue.insert_deferring(drops.value(), 9);
    assert!(displaced.is_none() && refused.is_err_and(|refused| refused.0 == full(4, 0)));
    assert_eq!((queue.clear(), drops.count()), (4, 10));
}

// What is deferred in the last slots of the greatest queue is found.
#[test]
fn values_in_the_last_slots_are_taken_out() {
    let drops = Drops::default();
    let mut queue: DelayCore<Value, VecWords> = DelayCore::with_capacity(CAPACITY_LIMIT).expect("a queue");
    let inserted = |when| queue.insert(drops.value(), when).unwrap_or_else(|_| panic!("room"));
    let keys: Vec<_> = (0..CAPACITY_LIMIT as u64).map(inserted).collect();
    for key in keys.iter().rev().step_by(4_000) {
        assert!(queue.cancel(key).is_ok() && queue.reap_deferring(&key.entry()).is_ok());
    }
    assert_eq!((queue.deferred(), drops.count()), (17, 0));
    for taken in 1..=17 {
        assert!(queue.take_deferred().is_some(), "each is found");
        assert_eq!((queue.deferred(), drops.count()), (17 - taken, taken as u64));
    }
}

// Between slots that were filled again the others are found.
#[test]
fn values_between_filled_slots_are_taken_out() {
    let (drops, live) = (Drops::default(), Drops::default());
    let mut queue: DelayCore<Value, VecWords> = DelayCore::with_capacity(2_000).expect("a queue");
    for when in 0..2_000 {
        assert!(queue.insert(drops.value(), when).is_ok());
    }
    assert_eq!((queue.clear_deferring(), queue.deferred()), (2_000, 2_000));
    for when in 0..1_000 {
        assert!(queue.insert(live.value(), 3_000 + when).is_ok());
    }
    assert_eq!((queue.deferred(), drops.count()), (1_000, 1_000));
    while queue.deferred() > 0 {
        assert!(queue.take_deferred().is_some(), "each is found");
    }
    assert_eq!((drops.count(), live.count(), queue.len()), (2_000, 0, 1_000));
}
