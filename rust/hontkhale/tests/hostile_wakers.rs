//! Wakers that do what a runtime's may do at a bad moment, to receivers that wait.

use hontkhale::{DelayQueue, Expired, Key, ManualClock, Receiver};
use std::cell::{Cell, RefCell};
use std::panic::{catch_unwind, AssertUnwindSafe};
use std::sync::atomic::{AtomicBool, AtomicU64, AtomicUsize, Ordering::SeqCst};
use std::sync::mpsc::{channel, RecvTimeoutError};
use std::sync::{Arc, Mutex, OnceLock};
use std::task::{Context, Poll, Wake, Waker};
use std::thread;
use std::time::{Duration, Instant};

const SECOND: Duration = Duration::from_secs(1);

/// A waker that makes a call.
struct Calls<F>(F);

impl<F: Fn() + Send + Sync> Wake for Calls<F> {
    fn wake(self: Arc<Self>) {
        (self.0)();
    }
}

fn waker(call: impl Fn() + Send + Sync + 'static) -> Waker {
    Waker::from(Arc::new(Calls(call)))
}

fn poll<T>(receiver: &mut Receiver<T>, waker: &Waker) -> Poll<Option<Expired<T>>> {
    receiver.poll_recv(&mut Context::from_waker(waker))
}

/// Runs a test in a thread of its own. It fails where the test does, and where it hangs.
fn within_the_limit(test: impl FnOnce() + Send + 'static) {
    let (done, waits) = channel();
    let runs = thread::spawn(move || {
        test();
        let _ = done.send(());
    });
    assert_ne!(
        waits.recv_timeout(60 * SECOND),
        Err(RecvTimeoutError::Timeout),
        "it hangs"
    );
    runs.join().expect("the test passes");
}

/// A clock that goes on without a word to those who wait.
fn clock() -> Instant {
    static START: OnceLock<Instant> = OnceLock::new();
    *START.get_or_init(Instant::now) + Duration::from_millis(MILLIS.load(SeqCst))
}

static MILLIS: AtomicU64 = AtomicU64::new(0);

/// A thread takes the lead from a task that is late, and calls its waker, which waits as a full channel does.
#[test]
fn a_waker_that_parks_its_caller_takes_no_wake_from_it() {
    within_the_limit(|| {
        let queue = DelayQueue::builder().read_clock(clock).build();
        queue.insert("early", Duration::from_millis(1)).expect("room");
        let (mut late, inserts) = (queue.receiver(), queue.clone());
        let parks = waker(move || {
            let inserts = inserts.clone();
            let inserted = thread::spawn(move || inserts.insert("late", Duration::ZERO).map(drop).is_ok());
            assert!(inserted.join().is_ok_and(|is_in| is_in));
            thread::park_timeout(Duration::from_millis(1));
        });
        assert!(poll(&mut late, &parks).is_pending());
        MILLIS.fetch_add(1_000, SeqCst);
        assert_eq!(queue.try_recv().map(|out| out.value), Ok("early"));
        assert_eq!(queue.recv().map(|out| out.value), Some("late"));
    });
}

/// Each drops its own receiver, as that of a runtime which has ended does, and so the next one is called.
#[test]
fn many_wakers_that_drop_their_receivers_take_little_of_the_stack() {
    within_the_limit(|| {
        let queue = DelayQueue::new();
        let tasks: Vec<Arc<Mutex<Option<Receiver<u64>>>>> = (0..10_000).map(|_| Arc::default()).collect();
        for task in &tasks {
            let (mut receiver, own) = (queue.receiver(), Arc::clone(task));
            let drops = waker(move || drop(own.lock().map(|mut own| own.take())));
            assert!(poll(&mut receiver, &drops).is_pending());
            *task.lock().expect("no panic") = Some(receiver);
        }
        queue.insert(1, Duration::ZERO).expect("room");
        assert!(tasks.iter().all(|task| task.lock().expect("no panic").is_none()));
        assert_eq!(queue.recv().map(|out| out.value), Some(1));
    });
}

/// The next one is called after the waker, and its own panic is lost.
#[test]
fn a_waker_that_leaves_and_panics_keeps_nobody_asleep() {
    let queue = DelayQueue::new();
    let own = Arc::new(Mutex::new(None::<Receiver<u64>>));
    let (mut leads, dropped) = (queue.receiver(), Arc::clone(&own));
    let leaves = waker(move || {
        drop(dropped.lock().map(|mut own| own.take()));
        panic!("a waker that has left");
    });
    let panics = waker(|| panic!("a waker that panics"));
    let woken = Arc::new(AtomicUsize::new(0));
    let counts = Arc::clone(&woken);
    let last_waker = waker(move || _ = counts.fetch_add(1, SeqCst));
    let (mut next, mut last) = (queue.receiver(), queue.receiver());
    assert!(poll(&mut leads, &leaves).is_pending());
    *own.lock().expect("no panic") = Some(leads);
    assert!(poll(&mut next, &last_waker).is_pending() && poll(&mut last, &panics).is_pending());
    let panic = catch_unwind(AssertUnwindSafe(|| queue.insert(1, SECOND))).expect_err("a waker's panic");
    assert_eq!(panic.downcast_ref(), Some(&"a waker that has left"));
    assert_eq!(woken.load(SeqCst), 1);
}

/// They slept until they are called, as long as no task had waited.
#[test]
fn threads_that_slept_before_the_first_task_came_wait_for_it_a_little() {
    within_the_limit(|| {
        let queue = DelayQueue::new();
        let threads =
            [queue.clone(), queue.clone()].map(|queue| thread::spawn(move || queue.recv().map(|out| out.value)));
        // They sleep by then, or the test tells nothing.
        thread::sleep(Duration::from_millis(50));
        let mut idle = queue.receiver();
        assert!(poll(&mut idle, &waker(|| {})).is_pending());
        // The thread that leads takes one and goes. Then the task leads, and nobody polls it.
        let _keys = [1, 2].map(|number| queue.insert(number, Duration::ZERO).expect("room"));
        let mut taken = threads.map(|thread| thread.join().expect("no panic"));
        taken.sort_unstable();
        assert_eq!(taken, [Some(1), Some(2)]);
    });
}

#[test]
fn a_task_that_is_called_to_lead_has_a_moment_for_it() {
    let clock = ManualClock::new();
    let queue: DelayQueue<u64> = DelayQueue::builder().clock(&clock).build();
    let mut tasks: Vec<_> = (0..3).map(|_| queue.receiver()).collect();
    let follows = |task: &mut Receiver<u64>| {
        assert!(poll(task, &waker(|| {})).is_pending());
        let soon = clock.now() + SECOND;
        task.wake_at().is_some_and(|again| clock.now() < again && again < soon)
    };
    tasks.iter_mut().for_each(|task| _ = follows(task));
    // All are woken, and then the last one leads. Neither of those that lead is polled.
    clock.advance(10 * SECOND);
    assert!(follows(&mut tasks[1]));
    drop(tasks.remove(0));
    assert!(follows(&mut tasks[0]));
}

static IS_BROKEN: AtomicBool = AtomicBool::new(false);

fn breaking_clock() -> Instant {
    assert!(!IS_BROKEN.load(SeqCst), "a clock that panics");
    Instant::now()
}

/// It is read where a leader is rung.
#[test]
fn a_clock_that_panics_keeps_nobody_asleep() {
    let queue = DelayQueue::builder().read_clock(breaking_clock).build();
    let woken = Arc::new(AtomicUsize::new(0));
    let counts = Arc::clone(&woken);
    queue.insert("later", 1_000 * SECOND).expect("room");
    let mut task = queue.receiver();
    assert!(poll(&mut task, &waker(move || _ = counts.fetch_add(1, SeqCst))).is_pending());
    let due = Instant::now() + SECOND;
    IS_BROKEN.store(true, SeqCst);
    let inserted = catch_unwind(AssertUnwindSafe(|| queue.insert_at("in", due)));
    IS_BROKEN.store(false, SeqCst);
    assert!(inserted.is_err());
    assert_eq!((woken.load(SeqCst), queue.len()), (1, 2));
}

#[test]
fn a_waker_that_a_close_calls_may_ask_whether_the_queue_is_empty() {
    within_the_limit(|| {
        let queue: DelayQueue<u64> = DelayQueue::new();
        let (mut task, asks) = (queue.receiver(), queue.clone());
        let asked = Arc::new(AtomicUsize::new(0));
        let counts = Arc::clone(&asked);
        let waits = waker(move || _ = counts.fetch_add(usize::from(asks.wait_empty(Duration::ZERO)), SeqCst));
        assert!(poll(&mut task, &waits).is_pending());
        queue.close_when_empty();
        assert_eq!(asked.load(SeqCst), 1);
        assert!(matches!(poll(&mut task, &waits), Poll::Ready(None)));
    });
}

/// What it holds calls the queue as it is dropped.
struct Inserts(DelayQueue<u64>);

impl Drop for Inserts {
    fn drop(&mut self) {
        let _ = self.0.insert(1, Duration::ZERO);
    }
}

#[test]
fn a_waker_may_insert_as_it_is_dropped() {
    within_the_limit(|| {
        let queue = DelayQueue::new();
        let inserts = || {
            let inserts = Inserts(queue.clone());
            waker(move || _ = inserts.0.len())
        };
        let mut task = queue.receiver();
        // One whose place another one takes, and one that leaves.
        assert!(poll(&mut task, &inserts()).is_pending());
        assert!(poll(&mut task, &inserts()).is_pending());
        drop(task);
        assert_eq!(queue.len(), 2);
    });
}

/// Another one that goes on without a word.
fn other_clock() -> Instant {
    static START: OnceLock<Instant> = OnceLock::new();
    *START.get_or_init(Instant::now) + Duration::from_millis(OTHER_MILLIS.load(SeqCst))
}

static OTHER_MILLIS: AtomicU64 = AtomicU64::new(0);

#[test]
fn who_follows_a_task_that_was_called_and_is_not_polled_takes_the_lead() {
    let queue = DelayQueue::builder().read_clock(other_clock).build();
    let [mut idle, mut follows, mut last] = [(); 3].map(|()| queue.receiver());
    let called = Arc::new(AtomicUsize::new(0));
    let counts = Arc::clone(&called);
    assert!(poll(&mut idle, &waker(move || _ = counts.fetch_add(1, SeqCst))).is_pending());
    let polls = |follows: &mut Receiver<u64>| {
        assert!(poll(follows, &waker(|| {})).is_pending());
        follows.wake_at().map(|when| when - other_clock())
    };
    assert_eq!([polls(&mut follows), polls(&mut last)], [Some(SECOND); 2]);
    queue.insert(1, 10 * SECOND).expect("room");
    OTHER_MILLIS.fetch_add(100, SeqCst);
    // It leads, until the entry is due. The one that led was called.
    assert_eq!(polls(&mut follows), Some(Duration::from_millis(9_900)));
    assert_eq!(called.load(SeqCst), 1);
}

thread_local! {
    /// How far this thread's clock is, and what is done as it is read, but for a reading within that.
    static PASSED: Cell<Duration> = const { Cell::new(Duration::ZERO) };
    static AT_READING: RefCell<Option<Box<dyn FnMut()>>> = const { RefCell::new(None) };
}

fn hooked_clock() -> Instant {
    static START: OnceLock<Instant> = OnceLock::new();
    if let Some(mut call) = AT_READING.take() {
        call();
        AT_READING.set(Some(call));
    }
    *START.get_or_init(Instant::now) + PASSED.get()
}

fn at_each_reading(call: impl FnMut() + 'static) {
    AT_READING.set(Some(Box::new(call)));
}

/// It looks again after a second, which is over by this clock before it sleeps. Its own time is over after days.
#[test]
fn a_thread_with_a_time_limit_looks_again_whether_a_task_acts() {
    within_the_limit(|| {
        let queue = DelayQueue::builder().read_clock(hooked_clock).build();
        queue.insert(1, 100 * SECOND).expect("room");
        let mut idle = queue.receiver();
        assert!(poll(&mut idle, &waker(|| {})).is_pending());
        at_each_reading(|| PASSED.set(PASSED.get() + SECOND));
        let received = queue.recv_timeout(1_000_000 * SECOND);
        assert_eq!(received.map(|out| out.value), Ok(1));
    });
}

/// It takes the entry, or is to poll again at once.
#[test]
fn a_task_misses_no_entry_that_comes_while_it_falls_asleep() {
    for reading in 1.. {
        let queue = DelayQueue::builder().read_clock(hooked_clock).build();
        let mut task = queue.receiver();
        let woken = Arc::new(AtomicUsize::new(0));
        let counts = Arc::clone(&woken);
        let (inserts, mut readings) = (queue.clone(), 0);
        at_each_reading(move || {
            readings += 1;
            assert!(readings != reading || inserts.insert(1, Duration::ZERO).is_ok());
        });
        let polled = poll(&mut task, &waker(move || _ = counts.fetch_add(1, SeqCst)));
        AT_READING.take();
        if polled.is_pending() && queue.is_empty() {
            // The poll doesn't read the clock that often.
            return assert!(reading > 1);
        }
        let polls_again = woken.load(SeqCst) > 0 || task.wake_at().is_some_and(|when| when <= hooked_clock());
        assert!(polled.is_ready() || polls_again, "at reading {reading}");
    }
}

/// Each time that it falls asleep an entry comes sooner, until its poll is over.
#[test]
fn who_follows_a_task_that_found_no_sleep_takes_the_lead() {
    let queue = DelayQueue::builder().read_clock(hooked_clock).build();
    let [mut idle, mut follows] = [(); 2].map(|()| queue.receiver());
    let (inserts, mut seconds) = (queue.clone(), 1_000);
    at_each_reading(move || {
        seconds -= 1;
        assert!(inserts.insert(1, seconds * SECOND).is_ok());
    });
    assert!(poll(&mut idle, &waker(|| {})).is_pending());
    AT_READING.take();
    assert_eq!(idle.wake_at(), None);
    PASSED.set(PASSED.get() + SECOND);
    assert!(poll(&mut follows, &waker(|| {})).is_pending());
    assert_eq!(follows.wake_at(), queue.next_deadline());
}

/// A call that takes an entry out does a part of what keeps the queue of the right size, and comes upon the cancelled one.
#[test]
fn what_is_taken_out_is_given_though_a_waker_panics() {
    type Takes = fn(&DelayQueue<u64>, &mut Receiver<u64>, &Key) -> bool;
    let takes: [Takes; 3] = [
        |queue, _, _| queue.try_recv().is_ok(),
        |queue, _, key| queue.remove(key).is_ok(),
        |_, receiver, _| poll(receiver, &waker(|| {})).is_ready(),
    ];
    for take in takes {
        let queue = DelayQueue::builder().read_clock(hooked_clock).shards(1).build();
        let cancelled = queue.insert(0, 1_000 * SECOND).expect("room");
        let keys: Vec<Key> = (1..200)
            .map(|number| queue.insert(number, SECOND).expect("room"))
            .collect();
        let (mut task, mut receiver) = (queue.receiver(), queue.receiver());
        let woken = Arc::new(AtomicUsize::new(0));
        let counts = Arc::clone(&woken);
        let panics = waker(move || panic!("the waker {} panics", counts.fetch_add(1, SeqCst)));
        assert!(poll(&mut task, &panics).is_pending());
        queue.cancel(&cancelled).expect("it waits");
        PASSED.set(PASSED.get() + SECOND);
        assert!(keys.iter().all(|key| take(&queue, &mut receiver, key)));
        assert_eq!((queue.len(), woken.load(SeqCst)), (0, 1));
    }
}

/// Of the last entry: its end closes the queue, and calls the other task.
#[test]
fn a_clock_that_panics_at_any_reading_loses_no_entry() {
    for reading in 1.. {
        let queue = DelayQueue::builder().read_clock(hooked_clock).build();
        queue.insert(1, SECOND).expect("room");
        let [mut takes, mut waits] = [(); 2].map(|()| queue.receiver());
        let woken = Arc::new(AtomicUsize::new(0));
        let counts = Arc::clone(&woken);
        assert!(poll(&mut takes, &waker(|| {})).is_pending());
        assert!(poll(&mut waits, &waker(move || _ = counts.fetch_add(1, SeqCst))).is_pending());
        queue.close_when_empty();
        PASSED.set(PASSED.get() + SECOND);
        let mut readings = 0;
        at_each_reading(move || {
            readings += 1;
            assert!(readings < reading, "a clock that panics");
        });
        let polled = catch_unwind(AssertUnwindSafe(|| poll(&mut takes, &waker(|| {}))));
        // What has panicked is gone.
        if AT_READING.take().is_some() {
            return assert!(reading > 1);
        }
        let came_out = polled.is_ok_and(|polled| polled.is_ready());
        assert_eq!(
            (queue.is_empty(), woken.load(SeqCst) > 0),
            (came_out, came_out),
            "at reading {reading}"
        );
    }
}

/// Whoever is behind one whose waker panics leads from then on, and so it is woken.
#[test]
fn a_task_that_sleeps_again_within_a_waker_that_panics_is_woken() {
    let queue = DelayQueue::new();
    let own = Arc::new(Mutex::new(queue.receiver()));
    let woken = Arc::new(AtomicUsize::new(0));
    let (polled, counts) = (Arc::clone(&own), Arc::clone(&woken));
    let again = waker(move || _ = counts.fetch_add(1, SeqCst));
    let panics = waker(move || {
        assert!(polled.lock().is_ok_and(|mut task| poll(&mut task, &again).is_pending()));
        panic!("a waker that panics");
    });
    assert!(poll(&mut own.lock().expect("no panic"), &panics).is_pending());
    assert!(catch_unwind(AssertUnwindSafe(|| queue.insert("sooner".to_string(), SECOND))).is_err());
    assert_eq!(woken.load(SeqCst), 1);
}

/// A waker drops its own receiver, and wakes a task of another queue, before that or after it.
#[test]
fn a_task_is_called_after_the_waker_that_left_whatever_other_queue_that_wakes() {
    for wakes_first in [false, true] {
        let (queue, other) = (DelayQueue::new(), DelayQueue::new());
        let told = Arc::new(Mutex::new(String::new()));
        let tells = |word: &'static str| {
            let told = Arc::clone(&told);
            move || told.lock().expect("no panic").push_str(word)
        };
        let [leads, mut next, mut elsewhere] = [&queue, &queue, &other].map(DelayQueue::receiver);
        let own = Arc::new(Mutex::new(Some(leads)));
        let (inserts, dropped, begins, ends) = (other.clone(), Arc::clone(&own), tells("begins "), tells("ends "));
        let insert = move || assert!(inserts.insert(1, Duration::ZERO).is_ok());
        let leaves = waker(move || {
            begins();
            wakes_first.then(&insert);
            drop(dropped.lock().map(|mut own| own.take()));
            (!wakes_first).then(&insert);
            ends();
        });
        let waits = |task: &mut Receiver<u64>, waker: &Waker| assert!(poll(task, waker).is_pending());
        waits(own.lock().expect("no panic").as_mut().expect("it waits"), &leaves);
        waits(&mut next, &waker(tells("next ")));
        waits(&mut elsewhere, &waker(tells("elsewhere ")));
        queue.insert(1, Duration::ZERO).expect("room");
        assert_eq!(*told.lock().expect("no panic"), "begins elsewhere ends next ");
    }
}

/// What is called as it is dropped.
struct AtDrop<F: Fn()>(F);

impl<F: Fn()> Drop for AtDrop<F> {
    fn drop(&mut self) {
        (self.0)();
    }
}

/// The task has left the line by then, and has the entry in hand.
#[test]
fn a_waker_that_panics_as_it_is_dropped_loses_no_entry() {
    let queue = DelayQueue::builder().read_clock(hooked_clock).build();
    queue.insert("due".to_string(), SECOND).expect("room");
    let mut task = queue.receiver();
    let dropped = Arc::new(AtomicUsize::new(0));
    let counts = Arc::clone(&dropped);
    let panics = AtDrop(move || panic!("the drop {} panics", counts.fetch_add(1, SeqCst)));
    assert!(poll(&mut task, &waker(move || _ = &panics)).is_pending());
    PASSED.set(PASSED.get() + SECOND);
    let polled = poll(&mut task, &waker(|| {}));
    assert!(matches!(polled, Poll::Ready(Some(out)) if out.value == "due"));
    assert_eq!(dropped.load(SeqCst), 1);
}
