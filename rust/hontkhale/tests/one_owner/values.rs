//! Each value is dropped once, whatever became of its entry.

use hontkhale::parts::owner::{shared_queue, DelayCore, Key, Turn};
use std::any::Any;
use std::cell::Cell;
use std::fmt::Debug;
use std::mem;
use std::rc::Rc;
use std::sync::Mutex;

/// Counts itself when it is dropped.
struct Counted(Rc<Cell<u32>>);

impl Drop for Counted {
    fn drop(&mut self) {
        self.0.set(self.0.get() + 1);
    }
}

fn counted() -> (Rc<Cell<u32>>, impl Fn() -> Counted) {
    let dropped = Rc::new(Cell::new(0));
    let count = dropped.clone();
    (dropped, move || Counted(count.clone()))
}

#[test]
fn a_queue_with_entries_drops_every_value() {
    let (dropped, value) = counted();
    let mut queue = DelayCore::with_capacity(100).unwrap();
    for when in 0..100 {
        assert!(queue.insert_or_drop(value(), when).is_ok());
    }
    assert!(queue.insert_or_drop(value(), 0).is_err());
    assert_eq!(dropped.get(), 1);
    assert_eq!((due!(queue, 39).count(), dropped.get()), (40, 41));
    drop(queue);
    assert_eq!(dropped.get(), 101);
}

// promise: core.removed-cleared
#[test]
fn removed_and_cleared_values_are_dropped() {
    let (dropped, value) = counted();
    let mut queue = DelayCore::with_capacity(10).unwrap();
    let keys: Vec<Key> = (0..10)
        .map(|when| queue.insert_or_drop(value(), when).unwrap())
        .collect();
    drop(queue.remove(&keys[3].entry()));
    assert_eq!(dropped.get(), 1);
    assert_eq!((queue.clear(), dropped.get(), queue.len()), (9, 10, 0));
}

/// It goes with the sweep, the poll that reaps its entry, the clear or the queue.
#[test]
fn a_cancelled_value_stays_until_it_is_reaped() {
    let (dropped, value) = counted();
    let mut queue = shared_queue(4).unwrap();
    let mut caller = queue.issue().unwrap();
    let mut put = |when| {
        let key = queue.insert_or_drop(value(), when).unwrap();
        caller.cancel(&key).unwrap();
    };
    put(10);
    (put)(10);
    assert_eq!((dropped.get(), queue.sweep(), dropped.get()), (0, 2, 2));
    let key = queue.insert_or_drop(value(), 10).unwrap();
    caller.cancel(&key).unwrap();
    assert!(matches!(queue.poll(9), Ok(Turn::Waiting { next: 10 })));
    assert_eq!((dropped.get(), queue.get(&key.entry()).is_some()), (2, true));
    assert!(matches!(queue.poll(10), Ok(Turn::Idle)));
    assert_eq!(dropped.get(), 3);
    let keys = [20, 30].map(|when| queue.insert_or_drop(value(), when).unwrap());
    caller.cancel(&keys[0]).unwrap();
    assert_eq!((queue.clear(), dropped.get()), (1, 5));
    let key = queue.insert_or_drop(value(), 40).unwrap();
    caller.cancel(&key).unwrap();
    drop(queue);
    assert_eq!(dropped.get(), 6);
}

#[test]
fn values_come_out_as_they_went_in() {
    let mut queue = DelayCore::with_capacity(64).unwrap();
    for entry in 0..64u64 {
        queue.insert_or_drop(format!("entry {entry}"), 1_000 - entry).unwrap();
    }
    let outs: Vec<String> = due!(queue, 5_000).map(|expired| expired.value).collect();
    assert!(outs.into_iter().eq((0..64).rev().map(|entry| format!("entry {entry}"))));
}

/// That of a live entry and of a cancelled one; for none that left the closure is called.
// promise: entries.with-value
#[test]
fn values_are_changed_where_they_are() {
    let mut queue = DelayCore::with_capacity(2).unwrap();
    let keys = [10, 20].map(|when| queue.insert_or_drop(when, when).unwrap());
    queue.cancel(&keys[1]).unwrap();
    for (key, when) in keys.iter().zip([10, 20]) {
        let was = queue.with_value(&key.entry(), |value| mem::replace(value, when + 1));
        assert_eq!((was, queue.get(&key.entry())), (Some(when), Some(&(when + 1))));
    }
    assert_eq!((queue.deadline(&keys[0].entry()), queue.sweep()), (Ok(10), 1));
    assert_eq!(queue.with_value(&keys[1].entry(), |_| unreachable!()), None::<()>);
    assert!(matches!(queue.poll(10), Ok(Turn::Out(out)) if (out.key, out.value) == (keys[0], 11)));
}

fn goes_through<T: Clone + PartialEq + Debug>(value: T) {
    let mut queue = DelayCore::with_capacity(100).unwrap();
    for round in 0..3 {
        let insert = |when| queue.insert_or_drop(value.clone(), round * 100 + when).unwrap();
        let keys: Vec<Key> = (0..100).map(insert).collect();
        let is_aligned = |it: &T| it as *const T as usize % mem::align_of::<T>() == 0;
        assert!(queue.entries().all(|it| *it.value == value && is_aligned(it.value)));
        assert_eq!(queue.remove(&keys[50].entry()).unwrap().value, value);
        let outs: Vec<T> = due!(queue, round * 100 + 70).map(|expired| expired.value).collect();
        assert!(outs.len() == 70 && outs.iter().all(|out| *out == value));
        assert_eq!((queue.entries().count(), queue.clear()), (29, 29));
    }
}

#[test]
fn values_of_no_size_of_much_and_of_a_wide_alignment() {
    #[derive(Clone, Copy, PartialEq, Debug)]
    #[repr(align(256))]
    struct Wide(u8);

    goes_through(());
    goes_through([7u64; 4096]);
    goes_through(Wide(9));
    goes_through(vec![1, 2, 3]);
}

static NEVER_DROPPED: Mutex<Vec<Box<dyn Any + Send>>> = Mutex::new(Vec::new());

/// As `mem::forget`, but found by whoever looks for lost memory.
fn forget(value: impl Any + Send) {
    NEVER_DROPPED.lock().unwrap().push(Box::new(value));
}

/// Whoever forgets a caller or a queue loses memory and nothing else.
#[test]
fn callers_and_queues_that_are_forgotten() {
    let mut queue = shared_queue(2).unwrap();
    let key = queue.insert_or_drop(Box::new(1), 10).unwrap();
    forget(queue.issue().unwrap());
    assert_eq!(queue.returned(), Err(1));
    let mut caller = queue.issue().unwrap();
    assert_eq!(caller.extend(&key, 20), Ok(20));
    assert!(matches!(queue.poll(10), Ok(Turn::Waiting { next: 20 })));
    forget(queue);
    assert_eq!((caller.extend(&key, 30), caller.cancel(&key)), (Ok(30), Ok(30)));
}
