//! Tasks that receive, in the place of threads.

use crate::kit::{within_the_limit, Drops, FAR};
use hontkhale::{DelayQueue, Expired, ManualClock, Receiver};
use std::panic::{catch_unwind, panic_any, AssertUnwindSafe};
use std::sync::atomic::{AtomicUsize, Ordering::SeqCst};
use std::sync::Arc;
use std::task::{Context, Poll, RawWaker, RawWakerVTable, Wake, Waker};
use std::thread::{self, Thread};
use std::time::{Duration, Instant};

/// How often a task was woken.
#[derive(Default)]
struct Wakes(AtomicUsize);

impl Wake for Wakes {
    fn wake(self: Arc<Self>) {
        self.0.fetch_add(1, SeqCst);
    }
}

impl Wakes {
    fn take(&self) -> usize {
        self.0.swap(0, SeqCst)
    }
}

struct Unparks(Thread);

impl Wake for Unparks {
    fn wake(self: Arc<Self>) {
        self.0.unpark();
    }
}

fn poll<T>(receiver: &mut Receiver<T>, wakes: &Arc<Wakes>) -> Poll<Option<T>> {
    let waker = Waker::from(Arc::clone(wakes));
    receiver
        .poll_recv(&mut Context::from_waker(&waker))
        .map(|out| out.map(|it| it.value))
}

/// Receives in this thread as a runtime would.
fn receive<T>(receiver: &mut Receiver<T>) -> Option<Expired<T>> {
    let waker = Waker::from(Arc::new(Unparks(thread::current())));
    loop {
        if let Poll::Ready(received) = receiver.poll_recv(&mut Context::from_waker(&waker)) {
            return received;
        }
        match receiver.wake_at() {
            Some(when) => thread::park_timeout(when.saturating_duration_since(Instant::now())),
            None => thread::park(),
        }
    }
}

const SECOND: Duration = Duration::from_secs(1);

#[test]
fn a_task_is_woken_by_what_comes_sooner_and_by_nothing_else() {
    let (clock, wakes) = (ManualClock::new(), Arc::<Wakes>::default());
    let queue = DelayQueue::builder().clock(&clock).build();
    let mut receiver = queue.receiver();
    assert!(poll(&mut receiver, &wakes).is_pending());
    assert_eq!((receiver.wake_at(), wakes.take()), (None, 0));
    let first = queue.insert("first", 10 * SECOND).expect("room");
    assert_eq!(wakes.take(), 1);
    assert!(poll(&mut receiver, &wakes).is_pending());
    assert_eq!(receiver.wake_at(), Some(clock.now() + 10 * SECOND));
    let late = queue.insert("late", 20 * SECOND).expect("room");
    queue.extend(&first, 30 * SECOND).expect("it waits");
    assert_eq!(wakes.take(), 0);
    queue.insert("sooner", 5 * SECOND).expect("room");
    assert_eq!(wakes.take(), 1);
    assert!(poll(&mut receiver, &wakes).is_pending());
    queue.reset(&late, 2 * SECOND).expect("it waits");
    assert_eq!(wakes.take(), 1);
    assert!(poll(&mut receiver, &wakes).is_pending());
    assert_eq!(receiver.wake_at(), Some(clock.now() + 2 * SECOND));
    let told: Vec<_> = [2, 3, 24]
        .into_iter()
        .map(|seconds| {
            assert!(poll(&mut receiver, &wakes).is_pending());
            clock.advance(seconds * SECOND - Duration::from_millis(1));
            wakes.take();
            assert!(poll(&mut receiver, &wakes).is_pending());
            clock.advance(Duration::from_millis(1));
            assert_eq!(wakes.take(), 1);
            poll(&mut receiver, &wakes)
        })
        .collect();
    // The first was extended to 30 s, of which 29 are over.
    assert_eq!(told[..2], [Poll::Ready(Some("late")), Poll::Ready(Some("sooner"))]);
    assert!(told[2].is_pending());
    clock.advance(SECOND);
    assert_eq!(poll(&mut receiver, &wakes), Poll::Ready(Some("first")));
}

#[test]
fn a_close_ends_a_task_once_nothing_is_due() {
    let (clock, wakes) = (ManualClock::new(), Arc::<Wakes>::default());
    let queue = DelayQueue::builder().clock(&clock).build();
    let (mut one, mut other) = (queue.receiver(), queue.receiver());
    assert!(poll(&mut one, &wakes).is_pending() && poll(&mut other, &wakes).is_pending());
    queue.insert("due", Duration::ZERO).expect("room");
    queue.insert("waits", SECOND).expect("room");
    // One of them leads.
    assert_eq!(wakes.take(), 1);
    queue.close();
    // The other.
    assert_eq!(wakes.take(), 1);
    assert_eq!(poll(&mut one, &wakes), Poll::Ready(Some("due")));
    assert_eq!(
        (poll(&mut one, &wakes), poll(&mut other, &wakes)),
        (Poll::Ready(None), Poll::Ready(None))
    );
    assert_eq!(queue.len(), 1);
}

#[test]
fn a_task_that_nobody_polls_keeps_nothing_from_the_others() {
    let queue = DelayQueue::new();
    let (mut idle, wakes) = (queue.receiver(), Arc::<Wakes>::default());
    assert!(poll(&mut idle, &wakes).is_pending());
    queue.insert(1, Duration::from_millis(5)).expect("room");
    assert_eq!(queue.recv().map(|out| out.value), Some(1));
    queue.insert(2, Duration::from_millis(5)).expect("room");
    assert_eq!(receive(&mut queue.receiver()).map(|out| out.value), Some(2));
    drop(idle);
    queue.insert(3, Duration::ZERO).expect("room");
    assert_eq!((queue.recv().map(|out| out.value), wakes.take() > 0), (Some(3), true));
}

#[test]
fn tasks_and_threads_receive_all_that_others_put_in() {
    const EACH: u64 = 20_000;
    let queue = DelayQueue::new();
    let sums: Vec<u64> = thread::scope(|scope| {
        let by_task = |_| {
            let mut receiver = queue.receiver();
            scope.spawn(move || std::iter::from_fn(|| receive(&mut receiver)).map(|out| out.value).sum())
        };
        let mut receivers: Vec<_> = (0..2).map(by_task).collect();
        receivers.push(scope.spawn(|| queue.iter().map(|out| out.value).sum()));
        let put_in = |thread: u64| {
            for at in 0..EACH {
                queue
                    .insert(1, Duration::from_micros((at * 7 + thread) % 2_500))
                    .expect("room");
            }
        };
        let senders: Vec<_> = (0..3).map(|thread| scope.spawn(move || put_in(thread))).collect();
        senders.into_iter().for_each(|sender| sender.join().expect("it ends"));
        while !queue.is_empty() {
            thread::sleep(Duration::from_millis(1));
        }
        queue.close();
        receivers
            .into_iter()
            .map(|receiver| receiver.join().expect("it ends"))
            .collect()
    });
    assert_eq!(sums.iter().sum::<u64>(), 3 * EACH);
}

struct Panics;

impl Wake for Panics {
    fn wake(self: Arc<Self>) {
        panic!("a waker that panics");
    }
}

#[test]
fn a_waker_that_panics_keeps_no_other_task_asleep() {
    let calls: [fn(&DelayQueue<u64>); 2] = [|queue| _ = queue.insert(1, SECOND), DelayQueue::close];
    for call in calls {
        let queue = DelayQueue::new();
        let wakes = Arc::<Wakes>::default();
        let (mut one, mut other) = (queue.receiver(), queue.receiver());
        let panics = Waker::from(Arc::new(Panics));
        assert!(one.poll_recv(&mut Context::from_waker(&panics)).is_pending());
        assert!(poll(&mut other, &wakes).is_pending());
        assert!(catch_unwind(AssertUnwindSafe(|| call(&queue))).is_err());
        assert_eq!(wakes.take(), 1);
    }
}

/// The thousandth insert frees what was cancelled in a core that drains, and wakes a receiver, which is to drop it.
#[test]
fn an_insert_that_empties_a_core_has_its_entry_in_though_a_waker_panics() {
    let queue = DelayQueue::builder().shards(1).build();
    let insert = |after| queue.insert("a value".to_string(), after).expect("room");
    // The first core is full, and there is another one.
    let keys: Vec<_> = (0..66).map(|_| insert(FAR)).collect();
    let mut receiver = queue.receiver();
    let panics = Waker::from(Arc::new(Panics));
    assert!(receiver.poll_recv(&mut Context::from_waker(&panics)).is_pending());
    let (cancelled, removed) = keys.split_at(3);
    cancelled.iter().for_each(|key| assert!(queue.cancel(key).is_ok()));
    removed.iter().for_each(|key| assert!(queue.remove(key).is_ok()));
    // Each comes later than what the task waits for.
    let panics_or_goes = |_: &i32| match catch_unwind(AssertUnwindSafe(|| insert(2 * FAR))) {
        Ok(key) => queue.remove(&key).is_err(),
        Err(_) => true,
    };
    assert!((0..2_000).any(|number| panics_or_goes(&number)));
    assert_eq!(queue.len(), 1);
}

#[test]
fn a_waker_that_panics_keeps_nobody_of_another_queue_asleep() {
    let clock = ManualClock::new();
    let queues: Vec<DelayQueue<String>> = (0..3).map(|_| DelayQueue::builder().clock(&clock).build()).collect();
    let wakes = Arc::<Wakes>::default();
    let panics = Waker::from(Arc::new(Panics));
    let mut receivers: Vec<_> = queues.iter().map(DelayQueue::receiver).collect();
    for receiver in &mut receivers[..2] {
        assert!(receiver.poll_recv(&mut Context::from_waker(&panics)).is_pending());
    }
    assert!(poll(&mut receivers[2], &wakes).is_pending());
    let panic = catch_unwind(AssertUnwindSafe(|| clock.advance(SECOND))).expect_err("a waker's panic");
    assert_eq!(panic.downcast_ref(), Some(&"a waker that panics"));
    assert_eq!(wakes.take(), 1);
}

/// A waker that panics with what panics itself as it is dropped.
struct PanicsToo(Arc<AtomicUsize>);

impl Wake for PanicsToo {
    fn wake(self: Arc<Self>) {
        panic_any(Bomb(Arc::clone(&self.0)));
    }
}

struct Bomb(Arc<AtomicUsize>);

impl Drop for Bomb {
    fn drop(&mut self) {
        self.0.fetch_add(1, SeqCst);
        panic!("a panic's value that panics");
    }
}

#[test]
fn a_panic_that_panics_as_it_is_dropped_keeps_nobody_asleep() {
    type Call = fn(&ManualClock, &DelayQueue<String>);
    // How many of the panics are lost. An insert calls the one that leads, and the next one where its waker panics.
    let calls: [(Call, usize); 3] = [
        (|_, queue| _ = queue.insert("sooner".to_string(), SECOND), 0),
        (|_, queue| queue.close(), 1),
        (|clock, _| clock.advance(SECOND), 1),
    ];
    for (call, lost) in calls {
        let clock = ManualClock::new();
        let queue = DelayQueue::builder().clock(&clock).build();
        let (drops, wakes) = (Arc::<AtomicUsize>::default(), Arc::<Wakes>::default());
        let panics = Waker::from(Arc::new(PanicsToo(Arc::clone(&drops))));
        let mut receivers = [queue.receiver(), queue.receiver(), queue.receiver()];
        for receiver in &mut receivers[..2] {
            assert!(receiver.poll_recv(&mut Context::from_waker(&panics)).is_pending());
        }
        assert!(poll(&mut receivers[2], &wakes).is_pending());
        let panic = catch_unwind(AssertUnwindSafe(|| call(&clock, &queue))).expect_err("a waker's panic");
        assert_eq!((wakes.take(), drops.load(SeqCst)), (1, lost));
        assert!(panic.is::<Bomb>());
        assert!(catch_unwind(AssertUnwindSafe(|| drop(panic))).is_err());
        assert_eq!(drops.load(SeqCst), lost + 1);
    }
}

/// A waker that calls the queue as it is cloned, dropped and called.
mod calling {
    use super::*;

    type Queue = DelayQueue<u64>;

    const TABLE: RawWakerVTable = RawWakerVTable::new(clone, wake, wake_by_ref, dropped);

    fn of(data: *const ()) -> Arc<Queue> {
        // SAFETY: each waker has a count of this.
        unsafe { Arc::from_raw(data.cast()) }
    }

    fn calls(queue: &Queue) {
        let key = queue.insert(7, SECOND).expect("room");
        assert!(queue.remove(&key).is_ok() && queue.next_deadline().is_some());
    }

    fn clone(data: *const ()) -> RawWaker {
        let queue = of(data);
        calls(&queue);
        let _ = Arc::into_raw(Arc::clone(&queue));
        RawWaker::new(Arc::into_raw(queue).cast(), &TABLE)
    }

    fn wake(data: *const ()) {
        calls(&of(data));
    }

    fn wake_by_ref(data: *const ()) {
        let queue = of(data);
        calls(&queue);
        let _ = Arc::into_raw(queue);
    }

    fn dropped(data: *const ()) {
        calls(&of(data));
    }

    pub fn waker(queue: &Queue) -> Waker {
        let data = Arc::into_raw(Arc::new(queue.clone()));
        // SAFETY: the table's functions take what `into_raw` gave, each once.
        unsafe { Waker::from_raw(RawWaker::new(data.cast(), &TABLE)) }
    }
}

#[test]
fn a_tasks_waker_calls_the_queue() {
    let queue = DelayQueue::new();
    queue.insert(1, 60 * SECOND).expect("room");
    let mut receiver = queue.receiver();
    for waker in [calling::waker(&queue), calling::waker(&queue)] {
        assert!(receiver.poll_recv(&mut Context::from_waker(&waker)).is_pending());
    }
    queue.insert(2, Duration::ZERO).expect("room");
    drop(receiver);
    assert_eq!(queue.len(), 2);
}

/// Receivers of a queue, each polled once, with what tells how often it was woken.
fn waiting(queue: &DelayQueue<u64>, count: usize) -> Vec<(Receiver<u64>, Arc<Wakes>)> {
    let waits = |_| {
        let (mut receiver, wakes) = (queue.receiver(), Arc::<Wakes>::default());
        assert!(poll(&mut receiver, &wakes).is_pending());
        (receiver, wakes)
    };
    (0..count).map(waits).collect()
}

/// The places of those that were woken.
fn woken(tasks: &[(Receiver<u64>, Arc<Wakes>)]) -> Vec<usize> {
    (0..tasks.len()).filter(|at| tasks[*at].1.take() > 0).collect()
}

#[test]
fn a_sooner_insert_wakes_one_of_many_tasks() {
    let queue = DelayQueue::builder().clock(&ManualClock::new()).build();
    let mut tasks = waiting(&queue, 100);
    assert_eq!(woken(&tasks), []);
    for seconds in [40, 30, 20, 10] {
        queue.insert(seconds, seconds as u32 * SECOND).expect("room");
        assert_eq!(woken(&tasks), [0]);
        let (receiver, wakes) = &mut tasks[0];
        assert!(poll(receiver, wakes).is_pending());
        queue.insert(seconds, 50 * SECOND).expect("room");
        assert_eq!(woken(&tasks), []);
    }
}

/// The next one leads, and each that leaves as it leads wakes one.
#[test]
fn an_entry_that_a_task_takes_wakes_one_of_many_tasks() {
    let clock = ManualClock::new();
    let queue = DelayQueue::builder().clock(&clock).build();
    let mut tasks = waiting(&queue, 100);
    let mut leader = 0;
    for _ in 0..1_000 {
        queue.insert(1, Duration::ZERO).expect("room");
        assert_eq!(woken(&tasks), [leader]);
        let (receiver, wakes) = &mut tasks[leader];
        assert_eq!(poll(receiver, wakes), Poll::Ready(Some(1)));
        assert!(poll(receiver, wakes).is_pending());
        let next = woken(&tasks);
        assert!(next.len() == 1 && next != [leader]);
        leader = next[0];
        let (receiver, wakes) = &mut tasks[leader];
        assert!(poll(receiver, wakes).is_pending());
    }
}

#[test]
fn many_tasks_that_are_dropped_wake_one_for_each_that_led() {
    let queue = DelayQueue::builder().clock(&ManualClock::new()).build();
    for takes_last in [false, true] {
        let mut tasks = waiting(&queue, 10_000);
        let mut led = 0;
        while !tasks.is_empty() {
            let at = if takes_last { tasks.len() - 1 } else { 0 };
            let (receiver, wakes) = tasks.swap_remove(at);
            drop(receiver);
            let next = tasks.get(at.min(tasks.len().saturating_sub(1)));
            led += next.map_or(0, |(_, wakes)| wakes.take());
            assert_eq!(wakes.take(), 0);
        }
        assert_eq!(led, if takes_last { 0 } else { 9_999 });
    }
}

/// By the least of a second and what the one that leads is late by at most.
#[test]
fn a_task_that_nobody_polls_keeps_no_other_task_from_an_entry() {
    let clock = ManualClock::new();
    let queue = DelayQueue::builder().clock(&clock).build();
    let mut tasks = waiting(&queue, 2);
    assert_eq!(tasks[0].0.wake_at(), None);
    let again = tasks[1].0.wake_at().expect("it looks again");
    assert!(again <= clock.now() + SECOND);
    // The one that leads is woken, and isn't polled.
    queue.insert(1, Duration::from_millis(1)).expect("room");
    assert_eq!(woken(&tasks), [0]);
    clock.advance(again - clock.now());
    assert_eq!(woken(&tasks), [1]);
    let (receiver, wakes) = &mut tasks[1];
    assert_eq!(poll(receiver, wakes), Poll::Ready(Some(1)));
    // It leads from now on.
    queue.insert(2, 10 * SECOND).expect("room");
    assert!(poll(receiver, wakes).is_pending());
    assert_eq!(receiver.wake_at(), Some(clock.now() + 10 * SECOND));
    queue.insert(3, SECOND).expect("room");
    assert_eq!(wakes.take(), 1);
}

/// One that leads, and sleeps until a tick, may come a little late to it.
#[test]
fn a_task_waits_for_the_one_that_leads_a_little() {
    let clock = ManualClock::new();
    let queue = DelayQueue::builder().clock(&clock).build();
    queue.insert(1, SECOND / 2).expect("room");
    let tasks = waiting(&queue, 2);
    let [leads, follows] = [0, 1].map(|at: usize| tasks[at].0.wake_at().expect("it looks again"));
    assert_eq!(leads, clock.now() + SECOND / 2);
    assert!(leads < follows && follows < leads + SECOND / 2);
}

#[test]
fn a_task_that_lost_its_place_touches_nobody_elses() {
    let clock = ManualClock::new();
    let queue = DelayQueue::builder().clock(&clock).build();
    let mut tasks = waiting(&queue, 2);
    queue.insert(1, 100 * SECOND).expect("room");
    // The first is woken, and isn't polled: the second takes the lead, and a third takes the first one's place.
    clock.advance(2 * SECOND);
    let (receiver, wakes) = &mut tasks[1];
    assert!(poll(receiver, wakes).is_pending());
    assert_eq!(receiver.wake_at(), Some(clock.now() + 98 * SECOND));
    tasks.extend(waiting(&queue, 1));
    woken(&tasks);
    drop(tasks.remove(0));
    assert_eq!(woken(&tasks), []);
    // The second led, and the third leads now.
    drop(tasks.remove(0));
    assert_eq!(woken(&tasks), [0]);
    let (receiver, wakes) = &mut tasks[0];
    assert!(poll(receiver, wakes).is_pending());
    assert_eq!(receiver.wake_at(), Some(clock.now() + 98 * SECOND));
    queue.insert(2, SECOND).expect("room");
    assert_eq!(wakes.take(), 1);
}

#[test]
fn a_task_that_lost_its_place_joins_the_line_again() {
    let clock = ManualClock::new();
    let queue = DelayQueue::builder().clock(&clock).build();
    let mut tasks = waiting(&queue, 2);
    queue.insert(1, 100 * SECOND).expect("room");
    // The first is woken, and isn't polled: the second takes the lead.
    clock.advance(2 * SECOND);
    let (receiver, wakes) = &mut tasks[1];
    assert!(poll(receiver, wakes).is_pending());
    woken(&tasks);
    let (receiver, wakes) = &mut tasks[0];
    assert!(poll(receiver, wakes).is_pending());
    // It follows, and isn't to poll at once.
    assert!(receiver.wake_at() > Some(clock.now()));
    assert_eq!(woken(&tasks), []);
}

/// The one that led took an entry, and calls it.
#[test]
fn a_task_that_is_called_to_lead_and_is_not_polled_is_passed_over() {
    let clock = ManualClock::new();
    let queue = DelayQueue::builder().clock(&clock).build();
    let (mut tasks, due) = (waiting(&queue, 3), clock.now() + 10 * SECOND);
    queue.insert(1, Duration::ZERO).expect("room");
    assert_eq!(woken(&tasks), [0]);
    let (receiver, wakes) = &mut tasks[0];
    assert_eq!(poll(receiver, wakes), Poll::Ready(Some(1)));
    assert_eq!(woken(&tasks), [2]);
    queue.insert_at(2, due).expect("room");
    let (receiver, wakes) = &mut tasks[1];
    assert!(poll(receiver, wakes).is_pending());
    let again = receiver.wake_at().expect("it looks again");
    assert!(again < clock.now() + SECOND);
    clock.advance(again - clock.now());
    assert!(poll(receiver, wakes).is_pending());
    assert_eq!(receiver.wake_at(), Some(due));
}

#[test]
fn a_task_that_nobody_polls_keeps_no_thread_from_an_entry() {
    within_the_limit(|| {
        let clock = ManualClock::new();
        let queue = DelayQueue::builder().clock(&clock).build();
        let receiver = queue.clone();
        // It may wait before the task does, or behind it.
        let waits = thread::spawn(move || receiver.iter().map(|out| out.value).collect::<Vec<_>>());
        let (idle, wakes) = waiting(&queue, 1).pop().expect("a task");
        for number in 0..100 {
            queue.insert(number, Duration::from_millis(number % 3)).expect("room");
            while !queue.is_empty() {
                clock.advance(Duration::from_millis(50));
                thread::yield_now();
            }
        }
        queue.close();
        assert_eq!(waits.join().unwrap(), (0..100).collect::<Vec<_>>());
        drop((idle, wakes));
    });
}

/// It slept without an end until the task came.
#[test]
fn a_thread_that_followed_another_looks_whether_a_task_leads() {
    within_the_limit(|| {
        let queue = DelayQueue::new();
        let receives = |_| {
            let queue = queue.clone();
            thread::spawn(move || queue.recv().map(|out| out.value))
        };
        let threads: Vec<_> = (0..2).map(receives).collect();
        // One of them leads by now, and the other one follows.
        thread::sleep(Duration::from_millis(50));
        let _idle = waiting(&queue, 1);
        queue.insert(1, Duration::ZERO).expect("room");
        while !queue.is_empty() {
            thread::sleep(Duration::from_millis(1));
        }
        // The task leads, and isn't polled.
        queue.insert(2, Duration::ZERO).expect("room");
        let mut got: Vec<_> = threads.into_iter().map(|thread| thread.join().unwrap()).collect();
        got.sort_unstable();
        assert_eq!(got, [Some(1), Some(2)]);
    });
}

/// A task may be polled with another waker each time, as by a `select!` that has moved.
#[test]
fn the_waker_of_the_last_poll_is_called() {
    let queue = DelayQueue::builder().clock(&ManualClock::new()).build();
    let wakers = [(); 3].map(|()| Arc::<Wakes>::default());
    let mut receiver = queue.receiver();
    for wakes in &wakers {
        assert!(poll(&mut receiver, wakes).is_pending());
    }
    queue.insert("due".to_string(), Duration::ZERO).expect("room");
    assert_eq!(wakers.map(|wakes| wakes.take()), [0, 0, 1]);
}

/// A thread that is called runs, so nobody takes the lead from one.
#[test]
fn a_task_behind_a_thread_that_leads_looks_again_after_a_second() {
    within_the_limit(|| {
        let clock = ManualClock::new();
        let queue = DelayQueue::builder().clock(&clock).build();
        queue.insert("due".to_string(), SECOND / 4).expect("room");
        let receiver = queue.clone();
        let leads = thread::spawn(move || receiver.recv().map(|out| out.value));
        // It sleeps by then, or the test tells nothing.
        thread::sleep(Duration::from_millis(50));
        let (mut task, wakes) = (queue.receiver(), Arc::<Wakes>::default());
        for _ in 0..2 {
            assert!(poll(&mut task, &wakes).is_pending());
            assert_eq!(task.wake_at(), Some(clock.now() + SECOND));
        }
        clock.advance(SECOND);
        assert_eq!(leads.join().expect("no panic").as_deref(), Some("due"));
    });
}

#[test]
fn a_clone_of_a_receiver_that_waits_has_no_place_in_line() {
    let queue = DelayQueue::builder().clock(&ManualClock::new()).build();
    let (receiver, wakes) = waiting(&queue, 1).pop().expect("a task");
    drop(receiver.clone());
    queue.insert(1, SECOND).expect("room");
    assert_eq!(wakes.take(), 1);
}

#[test]
fn a_task_that_was_given_an_entry_waits_for_no_moment() {
    let (clock, wakes) = (ManualClock::new(), Arc::<Wakes>::default());
    let queue = DelayQueue::builder().clock(&clock).build();
    let mut receiver = queue.receiver();
    queue.insert("due".to_string(), SECOND).expect("room");
    assert!(poll(&mut receiver, &wakes).is_pending());
    assert_eq!(receiver.wake_at(), Some(clock.now() + SECOND));
    clock.advance(SECOND);
    assert_eq!(poll(&mut receiver, &wakes), Poll::Ready(Some("due".to_string())));
    assert_eq!(receiver.wake_at(), None);
}

/// A value that was cancelled is dropped as the task is about to sleep.
#[test]
fn what_comes_as_a_task_is_about_to_sleep_is_given_by_that_poll() {
    let (drops, wakes) = (Drops::default(), Arc::<Wakes>::default());
    let queue = DelayQueue::builder().clock(&ManualClock::new()).build();
    let (inserts, due) = (queue.clone(), drops.value(1));
    let cancelled = drops
        .value(0)
        .then(move || assert!(inserts.insert(due, Duration::ZERO).is_ok()));
    let key = queue.insert(cancelled, FAR).expect("room");
    queue.cancel(&key).expect("it waits");
    let given = poll(&mut queue.receiver(), &wakes);
    assert_eq!((given.is_ready(), drops.count(0), queue.len()), (true, 1, 0));
}
