//! The cases of tokio_util's own tests of its `DelayQueue` (tests/time_delay_queue.rs of 0.7.3, MIT licence) that have
//! a meaning for a queue of one owner. Where a test sleeps, a tick is polled; where it asks whether its task was woken,
//! the next wake is compared. The cases of `compact` have none: the room is fixed.

use hontkhale::parts::owner::{DelayCore, Turn, VecWords};

type DelayQueue<T> = DelayCore<T, VecWords>;

fn queue<T>() -> DelayQueue<T> {
    DelayCore::with_capacity(16).unwrap()
}

/// What comes out at a tick, in order.
fn outs<T>(queue: &mut DelayQueue<T>, now: u64) -> Vec<T> {
    let mut outs = Vec::new();
    while let Turn::Out(expired) = queue.poll(now).unwrap() {
        outs.push(expired.value);
    }
    outs
}

fn sorted(mut values: Vec<&str>) -> Vec<&str> {
    values.sort_unstable();
    values
}

#[test]
fn single_immediate_delay() {
    let mut queue = queue();
    queue.insert_or_drop("foo", 0).unwrap();
    assert_eq!(outs(&mut queue, 0), ["foo"]);
    assert!(queue.is_empty());
}

#[test]
fn multi_immediate_delays() {
    let mut queue = queue();
    for value in ["1", "2", "3"] {
        queue.insert_or_drop(value, 0).unwrap();
    }
    assert_eq!(sorted(outs(&mut queue, 1)), ["1", "2", "3"]);
    assert!(queue.is_empty());
}

#[test]
fn single_short_delay() {
    let mut queue = queue();
    queue.insert_or_drop("foo", 5).unwrap();
    assert!(outs(&mut queue, 0).is_empty());
    assert_eq!(queue.next_wake(), Some(5));
    assert!(outs(&mut queue, 1).is_empty());
    assert_eq!(outs(&mut queue, 6), ["foo"]);
    assert_eq!(queue.next_wake(), None);
}

#[test]
fn multi_delay_at_start() {
    let long = 262_144 + 9 * 4096;
    let delays = [1000, 2, 234, long, 60, 10];
    let mut queue = queue();
    for when in delays {
        queue.insert_or_drop(when, when).unwrap();
    }
    for now in 0..1200 {
        let due: Vec<u64> = delays.iter().copied().filter(|when| *when == now).collect();
        assert_eq!(outs(&mut queue, now), due);
        assert!(queue.next_wake().unwrap() > now);
    }
    assert_eq!(outs(&mut queue, long), [long]);
}

#[test]
fn insert_in_past_fires_immediately() {
    let mut queue = queue();
    assert!(outs(&mut queue, 10).is_empty());
    queue.insert_or_drop("foo", 0).unwrap();
    assert_eq!(outs(&mut queue, 10), ["foo"]);
}

#[test]
fn remove_entry() {
    let mut queue = queue();
    let key = queue.insert_or_drop("foo", 5).unwrap();
    assert!(outs(&mut queue, 0).is_empty());
    assert_eq!(queue.remove(&key.entry()).unwrap().value, "foo");
    assert!(outs(&mut queue, 10).is_empty());
    assert!(queue.is_empty());
}

#[test]
fn reset_entry() {
    let mut queue = queue();
    let key = queue.insert_or_drop("foo", 5).unwrap();
    assert!(outs(&mut queue, 1).is_empty());
    queue.reset(&key.entry(), 10).unwrap();
    assert!(outs(&mut queue, 8).is_empty());
    assert_eq!(outs(&mut queue, 11), ["foo"]);
    assert!(queue.is_empty());
}

#[test]
fn reset_much_later() {
    let mut queue = queue();
    let key = queue.insert_or_drop("foo", 200).unwrap();
    assert!(outs(&mut queue, 1).is_empty());
    queue.reset(&key.entry(), 10).unwrap();
    assert_eq!(queue.next_wake(), Some(10));
    assert_eq!(outs(&mut queue, 24), ["foo"]);
}

#[test]
fn reset_twice() {
    let mut queue = queue();
    let key = queue.insert_or_drop("foo", 200).unwrap();
    assert!(outs(&mut queue, 1).is_empty());
    let key = queue.reset(&key.entry(), 50).unwrap();
    assert!(outs(&mut queue, 24).is_empty());
    queue.reset(&key.entry(), 40).unwrap();
    assert_eq!(outs(&mut queue, 44), ["foo"]);
}

#[test]
fn repeatedly_reset_entry_inserted_as_expired() {
    let mut queue = queue();
    assert!(outs(&mut queue, 100).is_empty());
    let key = queue.insert_or_drop("foo", 0).unwrap();
    let key = queue.reset(&key.entry(), 200).unwrap();
    queue.reset(&key.entry(), 150).unwrap();
    assert!(outs(&mut queue, 100).is_empty());
    assert_eq!(outs(&mut queue, 160), ["foo"]);
    assert!(queue.is_empty());
}

#[test]
fn remove_expired_item() {
    let mut queue = queue();
    assert!(outs(&mut queue, 10).is_empty());
    let key = queue.insert_or_drop("foo", 0).unwrap();
    assert_eq!(queue.remove(&key.entry()).unwrap().value, "foo");
}

#[test]
fn remove_at_timer_wheel_threshold() {
    let mut queue = queue();
    let foo = queue.insert_or_drop("foo", 64).unwrap();
    let bar = queue.insert_or_drop("bar", 64).unwrap();
    match queue.poll(80) {
        Ok(Turn::Out(expired)) => {
            let other = if expired.key == foo { bar } else { foo };
            let value = queue.remove(&other.entry()).unwrap().value;
            assert_eq!(sorted(vec![expired.value, value]), ["bar", "foo"]);
        }
        turn => panic!("{turn:?}"),
    }
}

#[test]
fn expires_before_last_insert() {
    let mut queue = queue();
    queue.insert_or_drop("foo", 10_000).unwrap();
    assert!(outs(&mut queue, 0).is_empty());
    queue.insert_or_drop("bar", 600).unwrap();
    assert!(outs(&mut queue, 0).is_empty());
    assert!(queue.next_wake().unwrap() <= 600);
    assert_eq!(outs(&mut queue, 600), ["bar"]);
}

#[test]
fn multi_reset() {
    let mut queue = queue();
    let one = queue.insert_or_drop("one", 200).unwrap();
    let two = queue.insert_or_drop("two", 250).unwrap();
    assert!(outs(&mut queue, 0).is_empty());
    let one = queue.reset(&one.entry(), 300).unwrap();
    queue.reset(&two.entry(), 350).unwrap();
    queue.reset(&one.entry(), 400).unwrap();
    assert!(outs(&mut queue, 310).is_empty());
    assert_eq!(outs(&mut queue, 360), ["two"]);
    assert_eq!(outs(&mut queue, 410), ["one"]);
    assert!(queue.is_empty());
}

#[test]
fn expire_first_key_when_reset_to_expire_earlier() {
    let mut queue = queue();
    let one = queue.insert_or_drop("one", 200).unwrap();
    queue.insert_or_drop("two", 250).unwrap();
    assert!(outs(&mut queue, 0).is_empty());
    queue.reset(&one.entry(), 100).unwrap();
    assert_eq!(outs(&mut queue, 100), ["one"]);
}

#[test]
fn expire_second_key_when_reset_to_expire_earlier() {
    let mut queue = queue();
    queue.insert_or_drop("one", 200).unwrap();
    let two = queue.insert_or_drop("two", 250).unwrap();
    assert!(outs(&mut queue, 0).is_empty());
    queue.reset(&two.entry(), 100).unwrap();
    assert_eq!(outs(&mut queue, 100), ["two"]);
}

#[test]
fn reset_first_expiring_item_to_expire_later() {
    let mut queue = queue();
    let one = queue.insert_or_drop("one", 200).unwrap();
    queue.insert_or_drop("two", 250).unwrap();
    assert!(outs(&mut queue, 0).is_empty());
    queue.reset(&one.entry(), 300).unwrap();
    assert_eq!(outs(&mut queue, 250), ["two"]);
}

#[test]
fn insert_before_first_after_poll() {
    let mut queue = queue();
    queue.insert_or_drop("one", 200).unwrap();
    assert!(outs(&mut queue, 0).is_empty());
    queue.insert_or_drop("two", 100).unwrap();
    assert!(outs(&mut queue, 99).is_empty());
    assert_eq!(outs(&mut queue, 100), ["two"]);
}

#[test]
fn insert_after_ready_poll() {
    let mut queue = queue();
    for value in ["1", "2", "3"] {
        queue.insert_or_drop(value, 100).unwrap();
    }
    assert!(outs(&mut queue, 0).is_empty());
    let mut values = Vec::new();
    while values.len() < 3 {
        match queue.poll(100) {
            Ok(Turn::Out(expired)) => values.push(expired.value),
            turn => panic!("{turn:?}"),
        }
        queue.insert_or_drop("foo", 500).unwrap();
    }
    assert_eq!(sorted(values), ["1", "2", "3"]);
    assert_eq!(queue.len(), 3);
}

#[test]
fn reset_inserted_expired() {
    let mut queue = queue();
    assert!(outs(&mut queue, 100).is_empty());
    let key = queue.insert_or_drop("foo", 0).unwrap();
    queue.reset(&key.entry(), 200).unwrap();
    assert_eq!(queue.len(), 1);
    assert_eq!(outs(&mut queue, 300), ["foo"]);
    assert_eq!(queue.len(), 0);
}

/// `reset_later_after_slot_starts` and `reset_earlier_after_slot_starts`: a reset while the wheel is behind the time.
#[test]
fn reset_after_slot_starts() {
    for first in [100, 200] {
        let mut queue = queue();
        let foo = queue.insert_or_drop("foo", first).unwrap();
        assert!(outs(&mut queue, 0).is_empty());
        queue.reset(&foo.entry(), 120).unwrap();
        assert!(queue.next_wake().unwrap() <= 120);
        assert!(outs(&mut queue, 80).is_empty());
        assert_eq!(queue.next_wake(), Some(120));
        assert!(outs(&mut queue, 119).is_empty());
        assert_eq!(outs(&mut queue, 120), ["foo"]);
    }
}

#[test]
fn insert_in_past_after_poll_fires_immediately() {
    let mut queue = queue();
    queue.insert_or_drop("foo", 200).unwrap();
    assert!(outs(&mut queue, 80).is_empty());
    queue.insert_or_drop("bar", 40).unwrap();
    assert_eq!(queue.next_wake(), Some(80));
    assert_eq!(outs(&mut queue, 80), ["bar"]);
}

#[test]
fn delay_queue_poll_expired_when_empty() {
    let mut queue = queue();
    let key = queue.insert_or_drop(0, 10_000).unwrap();
    assert!(matches!(queue.poll(0), Ok(Turn::Waiting { .. })));
    queue.remove(&key.entry()).unwrap();
    assert!(matches!(queue.poll(0), Ok(Turn::Idle)));
}
