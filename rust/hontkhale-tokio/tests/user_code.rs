//! What a value's drop and a task's waker do while a call of the queue runs them: call handles, call the queue, panic.

mod common;

use common::{ends, ms, paused, Wakes};
use futures_core::Stream;
use hontkhale_tokio::{delay_queue::Key, DelayQueue, Handle, SharedQueue};
use std::future::poll_fn;
use std::panic::{catch_unwind, AssertUnwindSafe};
use std::pin::Pin;
use std::sync::atomic::{AtomicUsize, Ordering::SeqCst};
use std::sync::{Arc, Mutex, PoisonError};
use std::task::{Context, RawWaker, RawWakerVTable, Waker};

/// What ends with a session: another entry of the same queue.
struct Session {
    handle: Handle,
    other: Option<Key>,
    ended: Arc<AtomicUsize>,
}

impl Drop for Session {
    fn drop(&mut self) {
        if let Some(other) = self.other {
            let _ = self.handle.extend(&other, ms(90_000));
            let _ = self.handle.cancel(&other);
        }
        self.ended.fetch_add(1, SeqCst);
    }
}

/// A queue of sessions, each of which ends the one before it; the last of every three was cancelled.
fn sessions(ended: &Arc<AtomicUsize>, many: usize) -> (DelayQueue<Session>, Vec<Key>) {
    let mut queue = DelayQueue::new();
    let handle = queue.handle();
    let mut keys: Vec<Key> = Vec::new();
    for at in 0..many {
        let (other, ended) = (keys.last().copied(), ended.clone());
        keys.push(queue.insert(Session { handle: handle.clone(), other, ended }, ms(10 + at as u64 % 50)));
    }
    keys.iter().skip(2).step_by(3).for_each(|key| assert!(handle.cancel(key).is_ok()));
    (queue, keys)
}

/// Makes a call on sessions whose drop calls the queue's handle, and drops the queue: each session ends once.
fn each_ends_once(call: fn(&mut DelayQueue<Session>, &[Key])) {
    ends(move || {
        paused().block_on(async {
            let ended = Arc::<AtomicUsize>::default();
            let (mut queue, keys) = sessions(&ended, 300);
            // A thread that has called none of the queue's handles yet.
            let runtime = tokio::runtime::Handle::current();
            std::thread::scope(|scope| {
                scope.spawn(|| {
                    let _context = runtime.enter();
                    call(&mut queue, &keys);
                    drop(queue);
                });
            });
            assert_eq!(ended.load(SeqCst), 300);
        });
    });
}

#[test]
fn compact_drops_cancelled_sessions_that_call_their_handle() {
    each_ends_once(|queue, _| queue.compact());
}

#[test]
fn shrink_to_fit_drops_cancelled_sessions_that_call_their_handle() {
    each_ends_once(|queue, keys| {
        keys.iter().for_each(|key| drop(queue.try_remove(key)));
        queue.shrink_to_fit();
    });
}

#[test]
fn clear_drops_sessions_that_call_their_handle() {
    each_ends_once(|queue, _| queue.clear());
}

#[test]
fn reserve_and_resets_meet_sessions_that_call_their_handle() {
    each_ends_once(|queue, keys| {
        queue.reserve(5_000);
        let soon = tokio::time::Instant::now() + ms(5);
        assert_eq!(keys.iter().filter(|key| queue.try_reset_at(key, soon).is_ok()).count(), 200);
        queue.compact();
    });
}

#[test]
fn a_queue_is_dropped_with_sessions_that_call_their_handle() {
    each_ends_once(|_, _| {});
}

#[test]
fn polls_drop_sessions_that_call_their_handle() {
    ends(|| {
        paused().block_on(async {
            let ended = Arc::<AtomicUsize>::default();
            let (mut queue, _) = sessions(&ended, 300);
            while let Some(out) = poll_fn(|cx| queue.poll_expired(cx)).await {
                drop(out.into_inner());
            }
            assert_eq!(ended.load(SeqCst), 300);
        });
    });
}

/// A value whose drop panics, once, where it is told to.
struct Fragile(usize, Arc<AtomicUsize>);

impl Drop for Fragile {
    fn drop(&mut self) {
        self.1.fetch_add(1, SeqCst);
        if self.0 == 63 {
            panic!("a value's drop");
        }
    }
}

#[test]
fn a_panic_in_a_values_drop_within_clear_loses_no_other_entry() {
    ends(|| {
        paused().block_on(async {
            let dropped = Arc::<AtomicUsize>::default();
            let mut queue = DelayQueue::new();
            let keys: Vec<Key> = (0..500).map(|at| queue.insert(Fragile(at, dropped.clone()), ms(10))).collect();
            assert!(catch_unwind(AssertUnwindSafe(|| queue.clear())).is_err());
            let left = 500 - dropped.load(SeqCst);
            assert_eq!(queue.len(), left);
            assert_eq!(keys.iter().filter(|key| queue.try_deadline(key).is_some()).count(), left);
            let mut outs = 0;
            while let Some(out) = poll_fn(|cx| queue.poll_expired(cx)).await {
                drop(out.into_inner());
                outs += 1;
            }
            assert_eq!((outs, dropped.load(SeqCst), queue.len()), (left, 500, 0));
        });
    });
}

/// The same where the queue was cleared before, polled, compacted and dropped.
#[test]
fn a_panic_in_a_cancelled_values_drop_loses_no_other_entry() {
    for call in [
        |queue: &mut DelayQueue<Fragile>| queue.compact(),
        |queue: &mut DelayQueue<Fragile>| {
            let _ = queue.poll_expired(&mut Context::from_waker(&Waker::from(Arc::<Wakes>::default())));
        },
    ] {
        ends(move || {
            paused().block_on(async {
                let dropped = Arc::<AtomicUsize>::default();
                let mut queue = DelayQueue::new();
                let handle = queue.handle();
                let keys: Vec<Key> =
                    (0..500).map(|at| queue.insert(Fragile(at, dropped.clone()), ms(10_000))).collect();
                keys.iter().skip(1).step_by(2).for_each(|key| assert!(handle.cancel(key).is_ok()));
                assert!(catch_unwind(AssertUnwindSafe(|| call(&mut queue))).is_err());
                let mut outs = 0;
                while let Some(out) = poll_fn(|cx| queue.poll_expired(cx)).await {
                    assert!(out.get_ref().0 % 2 == 0);
                    outs += 1;
                }
                assert_eq!((outs, dropped.load(SeqCst), queue.len()), (250, 500, 0));
                queue.insert(Fragile(0, dropped.clone()), ms(10));
                queue.compact();
                assert_eq!((queue.len(), queue.capacity()), (1, 1));
            });
        });
    }
}

/// What a waker does when it is cloned, dropped and woken.
type Call = dyn Fn() + Send + Sync;

/// A waker of which each clone, drop and wake makes the call.
fn calling(call: Arc<Call>) -> Waker {
    fn parts(data: *const ()) -> Arc<Arc<Call>> {
        // SAFETY: the data of each such waker is of `Arc::into_raw` below, of which this takes one count.
        unsafe { Arc::from_raw(data.cast::<Arc<Call>>()) }
    }
    fn again(data: *const ()) -> RawWaker {
        let call = parts(data);
        call();
        let clone = Arc::into_raw(call.clone());
        std::mem::forget(call);
        RawWaker::new(clone.cast(), &TABLE)
    }
    fn by_ref(data: *const ()) {
        let call = parts(data);
        call();
        std::mem::forget(call);
    }
    fn by_value(data: *const ()) {
        let call = parts(data);
        call();
    }
    static TABLE: RawWakerVTable = RawWakerVTable::new(again, by_value, by_ref, by_value);
    let data = Arc::into_raw(Arc::new(call));
    // SAFETY: the functions above keep the counts of the `Arc`.
    unsafe { Waker::from_raw(RawWaker::new(data.cast(), &TABLE)) }
}

#[test]
fn a_streams_waker_calls_the_queue() {
    ends(|| {
        paused().block_on(async {
            let (queue, start) = (SharedQueue::new(), tokio::time::Instant::now());
            let mut stream = queue.stream();
            let (filled, calls) = (queue.clone(), Arc::new(AtomicUsize::new(0)));
            let left = calls.clone();
            let call: Arc<Call> = Arc::new(move || {
                if left.load(SeqCst) > 0 {
                    left.fetch_sub(1, SeqCst);
                    filled.insert_at(7, start).unwrap();
                }
            });
            for round in 0..60 {
                let (first, second) = (calling(call.clone()), calling(call.clone()));
                assert!(Pin::new(&mut stream).poll_next(&mut Context::from_waker(&first)).is_pending());
                // The next calls are made where the stream waits for nothing else: by a clone, a drop, or a wake.
                calls.store(1 + round % 3, SeqCst);
                let mut outs = 0;
                while Pin::new(&mut stream).poll_next(&mut Context::from_waker(&second)).is_ready() {
                    outs += 1;
                }
                drop((first, second));
                assert!(outs > 0);
                calls.store(0, SeqCst);
                let third = calling(call.clone());
                while Pin::new(&mut stream).poll_next(&mut Context::from_waker(&third)).is_ready() {}
            }
            queue.insert(1, ms(5)).unwrap();
            assert!(stream.next().await.is_some());
        });
    });
}

#[test]
fn the_drop_of_a_cancelled_value_calls_the_queue_of_the_stream() {
    struct Inserts(SharedQueue<Option<Inserts>>);
    impl Drop for Inserts {
        fn drop(&mut self) {
            let _ = self.0.insert(None, ms(1));
        }
    }
    ends(|| {
        paused().block_on(async {
            let queue = SharedQueue::new();
            let mut stream = queue.stream();
            let key = queue.insert(Some(Inserts(queue.clone())), ms(5)).unwrap();
            queue.cancel(&key).unwrap();
            assert!(stream.next().await.is_some());
        });
    });
}

#[test]
fn a_tasks_waker_calls_the_queues_handle() {
    ends(|| {
        paused().block_on(async {
            let mut queue = DelayQueue::new();
            let handle = queue.handle();
            let keys: Vec<Key> = (0..64).map(|value| queue.insert(value, ms(10))).collect();
            let next = Mutex::new(0);
            let call: Arc<Call> = Arc::new(move || {
                let mut next = next.lock().unwrap_or_else(PoisonError::into_inner);
                *next += 1;
                let _ = handle.cancel(&keys[*next % 64]);
            });
            for _ in 0..20 {
                let waker = calling(call.clone());
                let _ = queue.poll_expired(&mut Context::from_waker(&waker));
                queue.insert(1, ms(1));
            }
            while poll_fn(|cx| queue.poll_expired(cx)).await.is_some() {}
            assert!(queue.is_empty());
        });
    });
}

#[test]
fn a_waker_that_panics_within_an_insert_takes_no_key_along() {
    ends(|| {
        paused().block_on(async {
            let mut queue = DelayQueue::new();
            let waker = calling(Arc::new(|| ()));
            queue.insert(1, ms(60_000));
            assert!(queue.poll_expired(&mut Context::from_waker(&waker)).is_pending());
            // It panics from here on.
            let is_armed = Arc::new(AtomicUsize::new(0));
            let armed = is_armed.clone();
            let fragile = calling(Arc::new(move || assert_eq!(armed.load(SeqCst), 0, "a task's waker")));
            assert!(queue.poll_expired(&mut Context::from_waker(&fragile)).is_pending());
            is_armed.store(1, SeqCst);
            assert!(catch_unwind(AssertUnwindSafe(|| queue.insert(2, ms(10)))).is_err());
            is_armed.store(0, SeqCst);
            assert_eq!(queue.len(), 1, "what has no key isn't in");
        });
    });
}
