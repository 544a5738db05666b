//! What the proofs ask of the queue's own calls is checked in every build where a program makes such a call: it
//! panics, in words, and what it was called on stays as it was.

use hontkhale::parts::owner::{Caller, CoreConfig, DelayCore, Keeper, VecWords, LAST_STAMP, LAST_TICK};
use hontkhale::parts::shards::{QueueConfig, SharedDelayQueue};
use hontkhale::parts::wheel::{Wheel, REACH};
use std::fmt::Debug;
use std::panic::{catch_unwind, AssertUnwindSafe};
use std::task::Waker;

// The words of the panic in which a call ends.
fn panics<T: Debug>(call: impl FnOnce() -> T) -> String {
    let panicked = catch_unwind(AssertUnwindSafe(call)).expect_err("it doesn't panic");
    match (panicked.downcast_ref::<&str>(), panicked.downcast_ref::<String>()) {
        (Some(words), _) => (*words).to_owned(),
        (_, Some(words)) => words.clone(),
        _ => String::new(),
    }
}

// A wheel of four indexes at tick 100, of which index 1 is filed at 300, and what a call is refused for.
fn refuses<T: Debug>(words: &str, call: impl FnOnce(&mut Wheel) -> T) {
    let mut wheel = Wheel::new(4).expect("a wheel");
    assert!(!wheel.advance(100));
    wheel.link(1, 300);
    assert_eq!(panics(|| call(&mut wheel)), words);
    assert_eq!((wheel.tick(), wheel.filed(1), wheel.least()), (100, Some(300), Some(1)));
    wheel.link(0, 101);
    wheel.unlink(1);
    assert!(wheel.advance(101));
    assert_eq!(
        (wheel.pop_due(), wheel.pop_due(), wheel.next_wake()),
        (Some(0), None, None)
    );
}

#[test]
fn a_wheel_refuses_strange_indexes() {
    for index in [4, 1_000_000_000, usize::MAX] {
        refuses("there is no such index", |wheel| wheel.filed(index));
        refuses("there is no such index", |wheel| wheel.place(index));
        refuses("there is no such index", |wheel| wheel.moves(index));
        refuses("there is no such index", |wheel| wheel.link(index, 200));
        refuses("there is no such index", |wheel| wheel.unlink(index));
    }
    for level in [6, usize::MAX] {
        refuses("there is no such level", |wheel| wheel.occupancy(level));
    }
}

#[test]
fn a_wheel_refuses_what_is_linked_or_loose_already() {
    refuses("the index is linked", |wheel| wheel.link(1, 9));
    refuses("the index is linked", |wheel| wheel.link(1, 300));
    refuses("the index isn't linked", |wheel| wheel.unlink(2));
}

#[test]
fn a_wheel_refuses_strange_ticks() {
    for filed in [0, 99, 101 + REACH, LAST_TICK, u64::MAX] {
        refuses("the tick is out of the wheel's reach", |wheel| wheel.link(2, filed));
    }
    for limit in [0, 99, LAST_TICK + 1, u64::MAX] {
        assert!(!panics(|| going(|wheel| wheel.advance(limit))).is_empty());
        assert!(!panics(|| going(|wheel| wheel.arrive(limit))).is_empty());
    }
}

// A wheel at tick 100.
fn going(call: impl FnOnce(&mut Wheel) -> bool) -> bool {
    let mut wheel = Wheel::new(4).expect("a wheel");
    assert!(!wheel.advance(100));
    call(&mut wheel)
}

#[test]
fn a_wheel_goes_nowhere_while_an_index_is_due() {
    let mut wheel = Wheel::new(4).expect("a wheel");
    wheel.link(3, 0);
    assert!(!panics(|| wheel.advance(5)).is_empty());
    assert!(!panics(|| wheel.arrive(5)).is_empty());
    assert_eq!((wheel.tick(), wheel.pop_due()), (0, Some(3)));
}

fn config(capacity: usize) -> CoreConfig {
    CoreConfig {
        shard: 3,
        capacity,
        last_stamp: LAST_STAMP,
    }
}

// The words of a queue that was in use, and a caller of them.
fn used() -> (Keeper, Caller) {
    let keeper = Keeper::new(2).expect("a keeper");
    let mut queue = DelayCore::new(config(2), keeper)
        .map_err(|refused| refused.0)
        .expect("a queue");
    queue.insert_or_drop('a', 10).expect("room");
    let caller = queue.issue().expect("a caller");
    assert_eq!(queue.clear(), 1);
    let fresh = Keeper::new(2).expect("a keeper");
    (
        queue
            .renew(4, fresh)
            .map_err(|refused| refused.0)
            .expect("a higher number"),
        caller,
    )
}

#[test]
fn no_queue_is_made_over_used_words() {
    let (keeper, _caller) = used();
    let words = panics(|| DelayCore::<char, _>::new(config(2), keeper).is_ok());
    assert_eq!(words, "the words of a queue that is made are in use already");
}

#[test]
fn no_queue_is_renewed_by_used_words() {
    let mut queue = DelayCore::new(config(2), Keeper::new(2).expect("a keeper"))
        .map_err(|refused| refused.0)
        .expect("a queue");
    let key = queue.insert_or_drop('a', 10).expect("room");
    let (keeper, _caller) = used();
    let words = panics(|| queue.renew(9, keeper).is_ok());
    assert_eq!(words, "the words that a queue is renewed by are in use already");
    assert_eq!((queue.shard(), queue.deadline(&key.entry())), (3, Ok(10)));
}

// Fresh words make and renew a queue.
#[test]
fn fresh_words_make_and_renew_a_queue() {
    let words = VecWords::new(2).expect("words");
    let mut queue = DelayCore::new(config(2), words)
        .map_err(|refused| refused.0)
        .expect("a queue");
    queue.insert_or_drop('a', 10).expect("room");
    assert_eq!(queue.clear(), 1);
    assert!(queue.renew(4, VecWords::new(2).expect("words")).is_ok());
    assert_eq!(
        queue
            .insert_or_drop('b', 10)
            .map(|key| (key.entry().shard(), key.stamp())),
        Ok((4, 1))
    );
}

// A poller is parked no later than the next wake, and nowhere where nothing is linked.
#[test]
fn no_poller_is_parked_behind_the_next_wake() {
    let queue = SharedDelayQueue::new(QueueConfig::of(2, 4)).expect("a queue");
    queue.insert_or_drop(1, 'a', 10).expect("room");
    for (shard, next) in [(0, 0), (0, 10), (1, 11), (1, u64::MAX)] {
        let entered = panics(|| queue.enter(shard).expect("a shard").park(next, Waker::noop().clone()));
        let lent = panics(|| queue.lend(shard, |state| state.park(next, Waker::noop().clone())));
        assert_eq!((entered, queue.parked(shard)), (lent, Ok(None)));
    }
    queue.enter(1).expect("a shard").park(10, Waker::noop().clone());
    assert_eq!(queue.parked(1), Ok(Some(10)));
}
