//! The ends of receivers: with the last clone, and once nothing waits.

use crate::kit::{ms, within_the_limit, Drops, FAR};
use hontkhale::{DelayQueue, Handle, InsertErrorKind, Key, ManualClock, Receiver, TryRecvError};
use std::hint;
use std::panic::{catch_unwind, AssertUnwindSafe};
use std::sync::atomic::{AtomicUsize, Ordering::SeqCst};
use std::sync::Arc;
use std::task::{Context, Poll, Wake, Waker};
use std::thread::{self, JoinHandle};
use std::time::Duration;

fn receives(receiver: Receiver<u64>) -> JoinHandle<Vec<u64>> {
    thread::spawn(move || receiver.iter().map(|expired| expired.value).collect())
}

#[test]
fn receivers_end_with_the_last_clone_once_nothing_waits() {
    within_the_limit(|| {
        let queue = DelayQueue::new();
        let threads = [receives(queue.receiver()), receives(queue.receiver().clone())];
        let clone = queue.clone();
        queue.insert(1, ms(20)).expect("room");
        drop(queue);
        clone.insert(2, ms(40)).expect("room");
        drop(clone);
        let mut got: Vec<u64> = threads.into_iter().flat_map(|it| it.join().unwrap()).collect();
        got.sort_unstable();
        assert_eq!(got, [1, 2]);
    });
}

#[test]
fn a_receiver_of_an_empty_queue_ends_with_the_last_clone() {
    within_the_limit(|| {
        let queue = DelayQueue::new();
        let waits = receives(queue.receiver());
        let receiver = queue.receiver();
        thread::sleep(ms(20));
        assert_eq!(receiver.try_recv().map(|out| out.value), Err(TryRecvError::Empty));
        drop(queue);
        assert_eq!(waits.join().unwrap(), []);
        assert_eq!(receiver.try_recv().map(|out| out.value), Err(TryRecvError::Closed));
        let queue = receiver.queue();
        let refused = queue.insert(1, FAR).map_err(|refused| refused.kind());
        assert_eq!(refused, Err(InsertErrorKind::Closed));
    });
}

#[test]
fn a_receivers_queue_is_one_clone_more() {
    let queue = DelayQueue::new();
    let receiver = queue.receiver();
    drop(receiver.queue());
    assert!(queue.insert("first".to_string(), FAR).is_ok());
    let clone = receiver.queue();
    drop(queue);
    assert!(clone.insert("second".to_string(), FAR).is_ok());
    drop(clone);
    assert!(receiver.queue().is_closed());
}

/// The other end is a guard's, or a handle's.
#[test]
fn what_inserts_nothing_keeps_no_receiver() {
    within_the_limit(|| {
        let queue = DelayQueue::new();
        let (guard, handle) = (queue.guard(1, ms(10)).expect("room"), queue.handle());
        let waits = receives(queue.receiver());
        drop(queue);
        assert_eq!(waits.join().unwrap(), [1]);
        assert!(guard.extend(FAR).is_err() && handle.extend(&guard.key(), FAR).is_err());
    });
}

type Ends = fn(&DelayQueue<u64>, &Handle, &Key);

/// Each way in which an entry may end.
const WAYS: [Ends; 7] = [
    |queue, _, key| _ = queue.remove(key),
    |queue, _, key| _ = queue.cancel(key),
    |_, handle, key| _ = handle.cancel(key),
    |queue, _, _| _ = queue.clear(),
    |queue, _, _| assert_eq!(queue.drain().count(), 1),
    |queue, _, key| {
        queue.reset(key, Duration::ZERO).expect("it waits");
        // A receiver may be first.
        let _ = queue.remove_if_due(key);
    },
    |queue, _, key| _ = queue.reset(key, Duration::ZERO),
];

#[test]
fn receivers_end_with_the_last_entry_however_it_ends() {
    within_the_limit(|| {
        for (way, ends) in WAYS.into_iter().enumerate() {
            for most in [100, usize::MAX] {
                for moves in [false, true] {
                    ends_by(way, ends, most, moves);
                }
            }
        }
    });
}

fn ends_by(way: usize, ends: Ends, most: usize, moves: bool) {
    let queue = DelayQueue::builder().max_entries(most).last_stamp(2).build();
    let handle = queue.handle();
    let key = queue.insert(7, FAR).expect("room");
    let wakes = Arc::<Wakes>::default();
    let mut task = queue.receiver();
    assert!(poll(&mut task, &wakes).is_pending());
    let waits = [receives(queue.receiver()), receives(queue.receiver())];
    if moves {
        // The slot has no stamp left then.
        (0..2).for_each(|_| assert_eq!(queue.reset(&key, FAR), Ok(key)));
    }
    queue.close_when_empty();
    assert!(queue.is_closed() && !queue.wait_empty(ms(1)));
    ends(&queue, &handle, &key);
    let got: usize = waits.into_iter().map(|it| it.join().unwrap().len()).sum();
    assert!(got == usize::from(way == 6) || way == 5, "{way}");
    assert!(queue.wait_empty(Duration::MAX));
    assert!(wakes.0.load(SeqCst) > 0, "{way}");
    assert_eq!(poll(&mut task, &wakes), Poll::Ready(None));
}

/// An insert that is accepted while another thread closes the queue comes out.
#[test]
fn no_entry_is_left_behind_by_a_close_that_comes_amid_inserts() {
    within_the_limit(|| {
        for round in 0..300 {
            let queue = DelayQueue::builder().shards(2 + round % 3).build();
            let threads = [receives(queue.receiver()), receives(queue.receiver())];
            let inserts = |_| {
                let queue = queue.clone();
                let inserts_some = move || {
                    let accepted = (0..200).take_while(|_| queue.insert(1, Duration::ZERO).is_ok());
                    accepted.count()
                };
                thread::spawn(inserts_some)
            };
            let inserters: Vec<_> = (0..2).map(inserts).collect();
            // Some inserts are made before.
            (0..round % 20 * 100).for_each(|_| hint::spin_loop());
            queue.close_when_empty();
            let accepted: usize = inserters.into_iter().map(|it| it.join().unwrap()).sum();
            let received: usize = threads.into_iter().map(|it| it.join().unwrap().len()).sum();
            assert_eq!((received, queue.len()), (accepted, 0));
        }
    });
}

#[test]
fn a_wait_until_the_queue_is_empty_goes_by_the_queues_clock() {
    within_the_limit(|| {
        let clock = ManualClock::new();
        let queue = DelayQueue::builder().clock(&clock).build();
        assert!(queue.wait_empty(Duration::ZERO) && queue.wait_empty(Duration::MAX));
        let key = queue.insert(1, FAR).expect("room");
        assert!(!queue.wait_empty(Duration::ZERO));
        let waits = |length| {
            let queue = queue.clone();
            thread::spawn(move || queue.wait_empty(length))
        };
        let (brief, long) = (waits(ms(10)), waits(FAR * 2));
        thread::sleep(ms(20));
        assert!(!brief.is_finished());
        while !brief.is_finished() {
            clock.advance(ms(10));
            thread::sleep(ms(1));
        }
        assert!(!brief.join().unwrap());
        queue.remove(&key).expect("it waits");
        assert!(long.join().unwrap());
    });
}

#[derive(Default)]
struct Wakes(AtomicUsize);

impl Wake for Wakes {
    fn wake(self: Arc<Self>) {
        self.0.fetch_add(1, SeqCst);
    }
}

struct Panics;

impl Wake for Panics {
    fn wake(self: Arc<Self>) {
        panic!("a waker that panics");
    }
}

fn poll<T, W: Wake + Send + Sync + 'static>(receiver: &mut Receiver<T>, wakes: &Arc<W>) -> Poll<Option<T>> {
    let waker = Waker::from(Arc::clone(wakes));
    let polled = receiver.poll_recv(&mut Context::from_waker(&waker));
    polled.map(|out| out.map(|it| it.value))
}

#[test]
fn a_waker_that_panics_at_the_end_loses_no_value() {
    within_the_limit(|| {
        let (drops, queue) = (Drops::default(), DelayQueue::new());
        let key = queue.insert(drops.value(1), FAR).expect("room");
        let mut tasks = [queue.receiver(), queue.receiver()];
        let (panics, wakes) = (Arc::new(Panics), Arc::<Wakes>::default());
        assert!(poll(&mut tasks[0], &panics).is_pending() && poll(&mut tasks[1], &wakes).is_pending());
        queue.close_when_empty();
        let value = queue.remove(&key).expect("it waits");
        assert_eq!((value.number, drops.count(1), wakes.0.load(SeqCst)), (1, 0, 1));
    });
}

#[test]
fn a_waker_that_panics_as_the_last_clone_goes_keeps_nobody_asleep() {
    let queue = DelayQueue::<u64>::new();
    let mut tasks = [queue.receiver(), queue.receiver()];
    let (panics, wakes) = (Arc::new(Panics), Arc::<Wakes>::default());
    assert!(poll(&mut tasks[0], &panics).is_pending() && poll(&mut tasks[1], &wakes).is_pending());
    assert!(catch_unwind(AssertUnwindSafe(|| drop(queue))).is_err());
    assert_eq!(
        (wakes.0.load(SeqCst), poll(&mut tasks[1], &wakes)),
        (1, Poll::Ready(None))
    );
    // In a thread that panics already it goes no further.
    let queue = DelayQueue::<u64>::new();
    let mut task = queue.receiver();
    assert!(poll(&mut task, &panics).is_pending());
    let panicked = catch_unwind(AssertUnwindSafe(|| {
        let _queue = queue;
        panic!("a thread that panics");
    }));
    assert_eq!(panicked.unwrap_err().downcast_ref(), Some(&"a thread that panics"));
}
