//! Programs that make calls where one would rather not: within drops, wakes and closures, amid panics, and twice.

use crate::kit::{ms, within_the_limit, Drops, FAR};
use hontkhale::{DelayQueue, InsertErrorKind, Key, KeyError, ManualClock, Receiver, RecvTimeoutError, TryRecvError};
use std::panic::{catch_unwind, AssertUnwindSafe};
use std::sync::atomic::{AtomicBool, AtomicU64, AtomicUsize, Ordering::SeqCst};
use std::sync::{mpsc, Arc, Barrier, Mutex, OnceLock};
use std::task::{Context, Poll, Wake, Waker};
use std::thread;
use std::time::{Duration, Instant};

struct Nothing;

impl Wake for Nothing {
    fn wake(self: Arc<Self>) {}
}

/// Whether receivers of a queue to which nothing more comes end.
fn ends<T: Send + 'static>(receiver: Receiver<T>) {
    let received = thread::spawn(move || receiver.iter().count());
    assert_eq!(received.join().expect("no panic"), 0);
}

#[test]
fn a_drop_waits_until_its_queue_is_empty() {
    within_the_limit(|| {
        let drops = Drops::default();
        for (number, timeout) in [Duration::ZERO, ms(5), Duration::MAX].into_iter().enumerate() {
            let queue = DelayQueue::new();
            let seen = Arc::new(Mutex::new(Vec::new()));
            let (of_drop, sees) = (queue.clone(), seen.clone());
            let waits = move || sees.lock().expect("no panic").push(of_drop.wait_empty(timeout));
            let value = drops.value(number as u64).then(waits);
            let key = queue.insert(value, FAR).expect("room");
            queue.cancel(&key).expect("it waits");
            assert_eq!(queue.try_recv().map(|_| ()), Err(TryRecvError::Empty));
            assert_eq!(*seen.lock().expect("no panic"), [true]);
        }
        assert!(drops.are_once(3));
    });
}

/// It waits for what is beside it, and not for the value that is dropped.
#[test]
fn a_drop_that_waits_in_clear_sees_the_time_pass() {
    within_the_limit(|| {
        let (queue, drops, seen) = (DelayQueue::new(), Drops::default(), Arc::new(AtomicUsize::new(0)));
        for number in 0..3 {
            let (of_drop, sees) = (queue.clone(), seen.clone());
            let waits = move || _ = sees.fetch_add(of_drop.wait_empty(ms(5)).into(), SeqCst);
            queue.insert(drops.value(number).then(waits), FAR).expect("room");
        }
        assert_eq!(queue.clear(), 3);
        assert!(drops.are_once(3) && queue.is_empty());
        assert_eq!(seen.load(SeqCst), 1, "the last one alone");
    });
}

#[test]
fn two_closes_amid_an_insert_that_panics_end_the_receivers() {
    within_the_limit(|| {
        for round in 0..500 {
            let builder = DelayQueue::builder().shards(1 + round % 2);
            let queue = if round % 3 > 0 { builder.max_entries(8) } else { builder }.build();
            let (receiver, start) = (queue.receiver(), Barrier::new(3));
            thread::scope(|scope| {
                for _ in 0..2 {
                    scope.spawn(|| {
                        start.wait();
                        queue.close_when_empty();
                    });
                }
                scope.spawn(|| {
                    start.wait();
                    let inserts = || queue.insert_with(|_| -> u64 { panic!("a value that can't be made") }, FAR);
                    let made = catch_unwind(AssertUnwindSafe(inserts));
                    assert!(!matches!(made, Ok(Ok(_))));
                });
            });
            ends(receiver);
            assert_eq!(
                queue.insert(1, FAR).map_err(|refused| refused.kind()),
                Err(InsertErrorKind::Closed)
            );
        }
    });
}

#[test]
fn a_full_row_takes_what_is_due() {
    let (clock, drops) = (ManualClock::new(), Drops::default());
    let queue = DelayQueue::builder().clock(&clock).build();
    for number in 0..300 {
        queue.insert(drops.value(number), ms(number % 7)).expect("room");
    }
    let mut row = Vec::new();
    assert_eq!(queue.try_recv_many(&mut row, 0), Ok(0));
    assert_eq!((row.capacity(), queue.recv_many(&mut row, 0)), (0, 0));
    clock.advance(ms(10));
    assert_eq!(queue.try_recv_many(&mut row, 1), Ok(1));
    row.shrink_to_fit();
    assert_eq!(queue.try_recv_many(&mut row, 2), Ok(2));
    row.shrink_to_fit();
    assert_eq!(queue.try_recv_many(&mut row, usize::MAX), Ok(297));
    assert_eq!(queue.try_recv_many(&mut row, usize::MAX), Err(TryRecvError::Empty));
    queue.close();
    assert_eq!(queue.try_recv_many(&mut row, usize::MAX), Err(TryRecvError::Closed));
    assert_eq!(queue.recv_many(&mut row, usize::MAX), 0);
    drop(row);
    assert!(drops.are_once(300));
}

#[test]
fn moments_that_never_come_are_waited_for_until_the_end() {
    within_the_limit(|| {
        // The last moment that a clock of the system tells, or one near it.
        let last = (0..64)
            .rev()
            .find_map(|bits| Instant::now().checked_add(Duration::from_secs(u64::MAX >> (63 - bits))));
        let last = last.expect("a moment");
        let queue = DelayQueue::<u64>::new();
        let (receiver, waits) = (queue.receiver(), queue.clone());
        let by_moment = thread::spawn(move || receiver.recv_deadline(last).map(|_| ()));
        let receiver = queue.receiver();
        let by_length = thread::spawn(move || receiver.recv_timeout(Duration::MAX).map(|_| ()));
        let key = queue.insert(1, FAR).expect("room");
        let empties = thread::spawn(move || waits.wait_empty(Duration::MAX));
        assert_eq!(queue.extend_at(&key, last), Err(KeyError::TooFar));
        assert_eq!(queue.reset_at(&key, last).map(|_| ()), Err(KeyError::TooFar));
        assert_eq!(
            queue.insert_at(2, last).map_err(|refused| refused.kind()),
            Err(InsertErrorKind::TooFar)
        );
        thread::sleep(ms(20));
        assert!(!by_moment.is_finished() && !by_length.is_finished() && !empties.is_finished());
        queue.close_when_empty();
        assert_eq!(queue.remove(&key), Ok(1));
        assert_eq!(by_moment.join().expect("no panic"), Err(RecvTimeoutError::Closed));
        assert_eq!(by_length.join().expect("no panic"), Err(RecvTimeoutError::Closed));
        assert!(empties.join().expect("no panic"));
    });
}

/// A waker that drops receivers as it is called: its own among them.
struct Lets(Arc<Mutex<Vec<Receiver<u64>>>>);

impl Wake for Lets {
    fn wake(self: Arc<Self>) {
        let receivers = std::mem::take(&mut *self.0.lock().expect("no panic"));
        drop(receivers);
    }
}

#[test]
fn receivers_go_within_a_wake() {
    within_the_limit(|| {
        type End = fn(&DelayQueue<u64>);
        let ends: [End; 3] = [
            |queue| assert!(queue.insert(7, Duration::ZERO).is_ok()),
            DelayQueue::close,
            DelayQueue::close_when_empty,
        ];
        for end in ends {
            let (queue, held) = (DelayQueue::new(), Arc::new(Mutex::new(Vec::new())));
            let waker = Waker::from(Arc::new(Lets(held.clone())));
            for _ in 0..5 {
                let mut receiver = queue.receiver();
                assert!(receiver.poll_recv(&mut Context::from_waker(&waker)).is_pending());
                held.lock().expect("no panic").push(receiver);
            }
            end(&queue);
            assert!(held.lock().expect("no panic").is_empty());
            drop(queue);
        }
    });
}

/// A waker that drops its own receiver.
struct LetsItself(Mutex<Option<Receiver<String>>>);

impl Wake for LetsItself {
    fn wake(self: Arc<Self>) {
        let receiver = self.0.lock().expect("no panic").take();
        drop(receiver);
    }
}

#[test]
fn no_waker_stands_on_the_stack_of_another() {
    let let_each_other_go = || {
        let queue = DelayQueue::builder().shards(1).build();
        let waits = |_| {
            let (mut receiver, lets) = (queue.receiver(), Arc::new(LetsItself(Mutex::default())));
            let waker = Waker::from(lets.clone());
            assert!(receiver.poll_recv(&mut Context::from_waker(&waker)).is_pending());
            *lets.0.lock().expect("no panic") = Some(receiver);
            lets
        };
        let tasks: Vec<_> = (0..5_000).map(waits).collect();
        queue.insert("due".to_string(), Duration::ZERO).expect("room");
        assert!(tasks.iter().all(|task| task.0.lock().expect("no panic").is_none()));
    };
    // It holds some hundred calls.
    let thread = thread::Builder::new().stack_size(256 * 1_024);
    thread
        .spawn(let_each_other_go)
        .expect("a thread")
        .join()
        .expect("no panic");
}

/// A waker that polls its receiver, and panics then, the first time.
struct PollsAndPanics {
    task: Mutex<Receiver<String>>,
    wakes: AtomicUsize,
}

impl PollsAndPanics {
    fn poll(self: &Arc<Self>) {
        let waker = Waker::from(Arc::clone(self));
        let mut task = self.task.lock().expect("no panic");
        assert!(task.poll_recv(&mut Context::from_waker(&waker)).is_pending());
    }
}

impl Wake for PollsAndPanics {
    fn wake(self: Arc<Self>) {
        if self.wakes.fetch_add(1, SeqCst) == 0 {
            self.poll();
            panic!("a waker that panics");
        }
    }
}

/// It isn't in line any more.
#[test]
fn a_task_that_was_polled_by_its_waker_is_woken_once_more_where_that_panics() {
    let queue = DelayQueue::builder().clock(&ManualClock::new()).build();
    let polls = Arc::new(PollsAndPanics {
        task: Mutex::new(queue.receiver()),
        wakes: AtomicUsize::new(0),
    });
    polls.poll();
    assert!(catch_unwind(AssertUnwindSafe(|| queue.insert("waits".to_string(), FAR))).is_err());
    assert_eq!(polls.wakes.load(SeqCst), 2);
}

/// A waker that has another thread put something in, and takes the wake that this one is given for it.
struct Parks(DelayQueue<String>);

impl Wake for Parks {
    fn wake(self: Arc<Self>) {
        let queue = self.0.clone();
        let inserts = thread::spawn(move || queue.insert("due".to_string(), Duration::ZERO).is_ok());
        assert!(inserts.join().expect("no panic"));
        thread::park();
    }
}

/// It takes the lead from a task that was to have acted, and wakes that one.
#[test]
fn a_receiver_that_wakes_another_one_looks_again() {
    static PASSED: AtomicU64 = AtomicU64::new(0);
    fn now() -> Instant {
        static START: OnceLock<Instant> = OnceLock::new();
        *START.get_or_init(Instant::now) + ms(PASSED.load(SeqCst))
    }
    within_the_limit(|| {
        let queue = DelayQueue::builder().read_clock(now).build();
        let key = queue.insert("waits".to_string(), ms(10)).expect("room");
        let (mut task, waker) = (queue.receiver(), Waker::from(Arc::new(Parks(queue.clone()))));
        assert!(task.poll_recv(&mut Context::from_waker(&waker)).is_pending());
        queue.extend(&key, FAR).expect("it waits");
        PASSED.store(100, SeqCst);
        assert_eq!(queue.recv().map(|out| out.value).as_deref(), Some("due"));
    });
}

#[test]
fn a_guard_that_is_forgotten_keeps_no_receiver() {
    within_the_limit(|| {
        let (queue, drops) = (DelayQueue::new(), Drops::default());
        let receiver = queue.receiver();
        std::mem::forget(queue.guard(drops.value(0), ms(1)).expect("room"));
        let key = queue.guard(drops.value(1), ms(2)).expect("room").forget();
        std::mem::forget(queue.guard(drops.value(2), FAR).expect("room"));
        drop(queue.handle());
        let handle = queue.handle();
        drop(queue);
        assert_eq!(receiver.recv().map(|out| out.value.number), Some(0));
        assert_eq!(receiver.recv().map(|out| out.key), Some(key));
        let waits = receiver.queue();
        let left: Vec<_> = waits.drain().map(|(key, ..)| key).collect();
        assert_eq!(handle.cancel(&left[0]), Err(KeyError::Ended));
        drop(waits);
        ends(receiver);
        assert!(drops.are_once(3));
    });
}

/// By turns it lands in the shard whose lock is held, and in another.
#[test]
fn a_closure_that_inserts_is_answered_or_panics() {
    within_the_limit(|| {
        let queue = DelayQueue::builder().shards(2).build();
        let keys: Vec<_> = (0..300)
            .map(|number| queue.insert(number, FAR).expect("room"))
            .collect();
        let mut answered = 0;
        for key in &keys {
            let inserts = || queue.get(key, |number| queue.insert(number + 1_000, FAR).is_ok());
            match catch_unwind(AssertUnwindSafe(inserts)) {
                Ok(inserted) => {
                    assert_eq!(inserted, Ok(true));
                    answered += 1;
                }
                Err(said) => assert!(said
                    .downcast::<&str>()
                    .is_ok_and(|said| said.contains("under a queue's lock"))),
            }
        }
        assert_eq!(queue.len(), 300 + answered);
        assert!(keys.iter().all(|key| queue.remove(key).is_ok()));
        assert_eq!(queue.clear(), answered);
    });
}

/// The lock that is held is the outermost one.
#[test]
fn a_closure_within_that_of_another_queue_is_told_that_it_waits_for_itself() {
    within_the_limit(|| {
        let (one, other) = (DelayQueue::new(), DelayQueue::new());
        let (key, within) = (one.insert(1, FAR).expect("room"), other.insert(2, FAR).expect("room"));
        let asks = || one.get(&key, |_| other.get(&within, |_| one.get(&key, |number| *number)));
        assert!(catch_unwind(AssertUnwindSafe(asks)).is_err());
        let makes = || {
            one.insert_with(
                |_| other.get(&within, |_| one.get(&key, |number| *number)).map_or(0, |_| 3),
                FAR,
            )
        };
        let _ = catch_unwind(AssertUnwindSafe(makes));
        assert_eq!((one.remove(&key), other.remove(&within)), (Ok(1), Ok(2)));
    });
}

#[test]
fn a_closure_cancels_the_last_entry_and_the_receivers_end() {
    within_the_limit(|| {
        for most in [8, usize::MAX] {
            let queue = DelayQueue::builder().max_entries(most).build();
            let receiver = queue.receiver();
            let key = queue.insert("last".to_string(), FAR).expect("room");
            // From here on this thread cancels without a lock.
            queue.extend(&key, FAR).expect("it waits");
            queue.close_when_empty();
            assert!(queue
                .get(&key, |_| queue.cancel(&key).is_ok())
                .is_ok_and(|is_cancelled| is_cancelled));
            let received = thread::spawn(move || receiver.iter().count());
            assert_eq!(received.join().expect("no panic"), 0);
            assert!(queue.wait_empty(Duration::MAX));
        }
    });
}

/// The close waits for the lock of the shard in which the value is made.
#[test]
fn a_value_that_is_made_amid_a_close_cancels_the_last_entry() {
    within_the_limit(|| {
        for panics in [false, true] {
            let queue = DelayQueue::builder().shards(1).build();
            let (receiver, key) = (queue.receiver(), queue.insert(1, FAR).expect("room"));
            // From here on this thread cancels without a lock.
            queue.extend(&key, FAR).expect("it waits");
            let (makes, is_made) = mpsc::channel();
            let closing = queue.clone();
            let closes = thread::spawn(move || {
                is_made.recv().expect("a value that is made");
                closing.close_when_empty();
            });
            let inserts = || {
                let make = |_| {
                    makes.send(()).expect("a close");
                    while !queue.is_closed() {
                        thread::yield_now();
                    }
                    thread::sleep(ms(20));
                    assert!(queue.cancel(&key).is_ok());
                    assert!(!panics, "a value that can't be made");
                    2
                };
                queue.insert_with(make, FAR)
            };
            let made = catch_unwind(AssertUnwindSafe(inserts));
            closes.join().expect("no panic");
            if let Ok(Ok(key)) = made {
                assert_eq!(queue.remove(&key), Ok(2));
            }
            ends(receiver);
        }
    });
}

#[test]
fn a_clock_that_panics_loses_nothing() {
    within_the_limit(|| {
        static BREAKS: AtomicBool = AtomicBool::new(false);
        fn now() -> Instant {
            assert!(!BREAKS.load(SeqCst), "a clock that panics");
            Instant::now()
        }
        let queue = DelayQueue::builder().read_clock(now).max_entries(2).build();
        let key = queue.insert("due".to_string(), Duration::ZERO).expect("room");
        let polls = || {
            let waker = Waker::from(Arc::new(Nothing));
            queue.receiver().poll_recv(&mut Context::from_waker(&waker)).is_ready()
        };
        BREAKS.store(true, SeqCst);
        let calls: [&dyn Fn(); 6] = [
            &|| _ = queue.recv(),
            &|| _ = queue.try_recv(),
            &|| _ = queue.insert("lost".to_string(), FAR),
            &|| _ = queue.wait_empty(FAR),
            &|| _ = polls(),
            &|| _ = queue.reset(&key, FAR),
        ];
        for call in calls {
            assert!(catch_unwind(AssertUnwindSafe(call)).is_err());
        }
        BREAKS.store(false, SeqCst);
        let [taken, refused] = ["later", "no room"].map(|value| queue.insert(value.to_string(), FAR).is_ok());
        assert!(taken && !refused);
        assert_eq!(queue.recv().map(|out| out.value).as_deref(), Some("due"));
        assert_eq!(queue.clear(), 1);
        assert!(queue.wait_empty(Duration::MAX));
    });
}

/// A moment is told, and the clock is read for the receiver alone that is woken.
#[test]
fn a_clock_that_panics_keeps_no_task_asleep() {
    static BREAKS: AtomicBool = AtomicBool::new(false);
    fn now() -> Instant {
        assert!(!BREAKS.load(SeqCst), "a clock that panics");
        Instant::now()
    }
    let queue = DelayQueue::builder().read_clock(now).build();
    // There is room from then on.
    let key = queue.insert(0, FAR).expect("room");
    assert_eq!(queue.remove(&key), Ok(0));
    let held = Arc::new(Mutex::new(Vec::new()));
    let (mut task, waker) = (queue.receiver(), Waker::from(Arc::new(Lets(held.clone()))));
    assert!(task.poll_recv(&mut Context::from_waker(&waker)).is_pending());
    held.lock().expect("no panic").push(queue.receiver());
    let when = Instant::now();
    BREAKS.store(true, SeqCst);
    assert!(catch_unwind(AssertUnwindSafe(|| queue.insert_at(1, when))).is_err());
    BREAKS.store(false, SeqCst);
    // It was called.
    assert!(held.lock().expect("no panic").is_empty());
    assert_eq!(queue.recv().map(|out| out.value), Some(1));
}

/// The lock of the entry's shard is held meanwhile.
#[test]
fn a_closure_closes_its_queue_and_the_receivers_end() {
    type Close = fn(&DelayQueue<u64>, &Key);
    let closes: [Close; 3] = [
        |queue, key| queue.get(key, |_| queue.close_when_empty()).expect("it waits"),
        |queue, key| queue.get_mut(key, |_| queue.close_when_empty()).expect("it waits"),
        |queue, _| {
            let made = queue.insert_with(|_| (queue.close_when_empty(), 2).1, FAR);
            assert_eq!(made, Err(InsertErrorKind::Closed));
        },
    ];
    for close in closes {
        let queue = DelayQueue::builder().shards(1).build();
        let (receiver, key) = (queue.receiver(), queue.insert(1, FAR).expect("room"));
        close(&queue, &key);
        assert_eq!(receiver.try_recv().map(|_| ()), Err(TryRecvError::Empty));
        queue.cancel(&key).expect("it waits");
        assert_eq!(receiver.try_recv().map(|_| ()), Err(TryRecvError::Closed));
    }
}

/// Its drop leaves the last clone, whose close wakes the receiver that drops it.
#[test]
fn a_value_that_keeps_its_queue_ends_it_with_its_drop() {
    within_the_limit(|| {
        struct Keeps(Option<DelayQueue<Keeps>>);
        let queue = DelayQueue::new();
        let receiver = queue.receiver();
        let keys: Vec<Key> = (0..3)
            .map(|at| queue.insert(Keeps(Some(queue.clone())), ms(at)).expect("room"))
            .collect();
        queue.cancel(&keys[1]).expect("it waits");
        drop(queue);
        let mut count = 0;
        while let Some(mut out) = receiver.recv() {
            count += 1;
            drop(out.value.0.take());
            let mut other = receiver.clone();
            let waker = Waker::from(Arc::new(Nothing));
            let polled = other.poll_recv(&mut Context::from_waker(&waker));
            if let Poll::Ready(Some(_)) = polled {
                count += 1;
            }
        }
        assert_eq!(count, 2);
    });
}
