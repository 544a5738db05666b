//! A soak: tasks and threads beside a queue and a stream, for as long as it is told.
//!
//!   HONTKHALE_SOAK_SECONDS=600 cargo test --release --test soak -- --ignored
//!
//! 64 tasks and 8 threads make drawn calls. Values own handles; as they are dropped some extend or cancel another entry, and
//! some panic. Runtimes come and go, their tasks with them. Nothing hangs, each value is dropped once, nothing comes out
//! before a deadline that was told for it, none that a handle cancelled comes out at all, and none is lost.

mod common;

use common::{ms, Dice};
use futures_core::Stream;
use hontkhale_tokio::shared_queue::QueueStream;
use hontkhale_tokio::{delay_queue, DelayQueue, Handle, SharedQueue};
use std::collections::HashMap;
use std::future::poll_fn;
use std::panic::{catch_unwind, resume_unwind, AssertUnwindSafe};
use std::pin::Pin;
use std::sync::atomic::{AtomicBool, AtomicU64, Ordering::SeqCst};
use std::sync::mpsc::channel;
use std::sync::{Arc, Mutex, MutexGuard, PoisonError};
use std::task::Poll;
use std::thread;
use std::time::Duration;
use tokio::runtime::{Builder, Runtime};
use tokio::time::{sleep, Instant};

const TASKS: u64 = 64;
const THREADS: u64 = 8;
/// The entries that a queue has at most.
const MOST: usize = 4_000;
/// How long a runtime lives.
const LIFE: Duration = Duration::from_millis(700);
/// The deadline of an entry that a handle cancelled.
const CANCELLED: u64 = u64::MAX;

/// How long the soak is, 5 seconds where nobody says.
fn length() -> Duration {
    let seconds = std::env::var("HONTKHALE_SOAK_SECONDS").ok().and_then(|it| it.parse().ok());
    Duration::from_secs(seconds.unwrap_or(5))
}

/// Waits for a lock; who panicked under it was told to.
fn lock<T>(mutex: &Mutex<T>) -> MutexGuard<'_, T> {
    mutex.lock().unwrap_or_else(PoisonError::into_inner)
}

/// What became of all values.
#[derive(Default)]
struct Ledger {
    made: AtomicU64,
    dropped: AtomicU64,
    came_out: AtomicU64,
    is_over: AtomicBool,
}

/// What is known of one entry: until when it can't come out.
#[derive(Default)]
struct Told {
    /// The greatest deadline that was told for it, in milliseconds since the start.
    until: AtomicU64,
    is_dropped: AtomicBool,
}

/// How a value ends another entry as it is dropped.
type Ends = Box<dyn Fn() + Send + Sync>;

/// A value that owns a handle.
struct Value {
    told: Arc<Told>,
    ledger: Arc<Ledger>,
    ends: Option<Ends>,
    panics: bool,
}

/// What a value's drop panics with.
struct Planned;

impl Drop for Value {
    fn drop(&mut self) {
        assert!(!self.told.is_dropped.swap(true, SeqCst), "a value is dropped twice");
        self.ledger.dropped.fetch_add(1, SeqCst);
        if let Some(ends) = self.ends.take() {
            ends();
        }
        // A second panic would end the process.
        if self.panics && !thread::panicking() {
            resume_unwind(Box::new(Planned));
        }
    }
}

/// Makes a call in which values are dropped, of which some panic.
fn guarded<R>(call: impl FnOnce() -> R) -> Option<R> {
    match catch_unwind(AssertUnwindSafe(call)) {
        Ok(answer) => Some(answer),
        Err(panic) if panic.is::<Planned>() => None,
        Err(panic) => resume_unwind(panic),
    }
}

/// The milliseconds of a moment since the start, rounded down.
fn millis(start: Instant, moment: Instant) -> u64 {
    moment.saturating_duration_since(start).as_millis() as u64
}

/// What came out: no sooner than was told, and not cancelled.
fn check_out(start: Instant, deadline: Instant, value: Value) {
    let until = value.told.until.load(SeqCst);
    assert!(until != CANCELLED, "a cancelled entry came out");
    assert!(until <= millis(start, deadline), "an entry came out before a deadline that was told for it");
    assert!(deadline <= Instant::now(), "an entry came out before its deadline");
    value.ledger.came_out.fetch_add(1, SeqCst);
    guarded(|| drop(value));
}

/// A queue of one owner at a time, and what is known of its entries.
struct Owned {
    queue: Mutex<DelayQueue<Value>>,
    handle: Handle,
    known: Mutex<HashMap<delay_queue::Key, Arc<Told>>>,
    start: Instant,
    ledger: Arc<Ledger>,
}

impl Owned {
    fn new(ledger: &Arc<Ledger>) -> Owned {
        let mut queue = DelayQueue::new();
        let (handle, known) = (queue.handle(), Mutex::default());
        Owned { queue: Mutex::new(queue), handle, known, start: Instant::now(), ledger: ledger.clone() }
    }

    fn drawn(&self, dice: &mut Dice) -> Option<(delay_queue::Key, Arc<Told>)> {
        let known = lock(&self.known);
        let at = dice.below(known.len().max(1) as u64) as usize;
        known.iter().nth(at.min(40)).map(|(key, told)| (*key, told.clone()))
    }

    fn value(&self, dice: &mut Dice, told: &Arc<Told>) -> Value {
        let ends = self.drawn(dice).filter(|_| dice.below(4) == 0).map(|(key, other)| {
            let (handle, cancels) = (self.handle.clone(), dice.below(2) == 0);
            let ends: Ends = Box::new(move || {
                let _ = if cancels { cancel(&handle, &key, &other) } else { handle.extend(&key, ms(50)).ok() };
            });
            ends
        });
        self.ledger.made.fetch_add(1, SeqCst);
        Value { told: told.clone(), ledger: self.ledger.clone(), ends, panics: dice.below(50) == 0 }
    }

    /// A call of the owner.
    fn own(&self, dice: &mut Dice) {
        let mut queue = lock(&self.queue);
        let when = Instant::now() + ms(dice.below(300));
        match dice.below(100) {
            0..=49 if queue.len() < MOST => {
                let told = Arc::<Told>::default();
                let value = self.value(dice, &told);
                let key = queue.insert_at(value, when);
                told.until.store(millis(self.start, when), SeqCst);
                lock(&self.known).insert(key, told);
            }
            50..=64 => {
                if let Some((key, _)) = self.drawn(dice) {
                    if let Some(out) = queue.try_remove(&key) {
                        lock(&self.known).remove(&key);
                        drop(queue);
                        guarded(|| drop(out));
                    }
                }
            }
            65..=79 => {
                // A reset may lower the deadline. A cancel that comes between stays told.
                if let Some((key, told)) = self.drawn(dice) {
                    let before = told.until.swap(0, SeqCst);
                    let until = match queue.try_reset_at(&key, when) {
                        Ok(()) => millis(self.start, when),
                        Err(_) => before,
                    };
                    let _ = told.until.compare_exchange(0, until, SeqCst, SeqCst);
                }
            }
            80 => drop(guarded(|| queue.compact())),
            81 => drop(guarded(|| queue.shrink_to_fit())),
            82 if dice.below(20) == 0 => {
                guarded(|| queue.clear());
            }
            83 => {
                if let Some(key) = queue.peek() {
                    // A handle may have cancelled it since.
                    let _ = queue.try_deadline(&key);
                }
                assert!(queue.numbers().handles > 0);
            }
            _ => {}
        }
    }

    /// A call of a handle.
    fn call(&self, handle: &Handle, dice: &mut Dice) {
        let Some((key, told)) = self.drawn(dice) else {
            return;
        };
        if dice.below(8) == 0 {
            if cancel(handle, &key, &told).is_some() {
                lock(&self.known).remove(&key);
            }
        } else {
            // A reset that comes between takes an extend back, so only an owner's deadline is held against what comes out.
            let _ = handle.extend(&key, ms(dice.below(300)));
        }
    }

    /// Takes out what is due, as one of the tasks.
    async fn poll(&self, dice: &mut Dice) {
        let polled = poll_fn(|cx| Poll::Ready(guarded(|| lock(&self.queue).poll_expired(cx))));
        if let Some(Poll::Ready(Some(out))) = polled.await {
            lock(&self.known).remove(&out.key());
            let deadline = out.deadline();
            check_out(self.start, deadline, out.into_inner());
        } else {
            sleep(ms(dice.below(3))).await;
        }
    }

    /// Lets everything come out, and drops the queue.
    fn end(self) {
        let runtime = Runtime::new().expect("a runtime");
        let queue = &self.queue;
        runtime.block_on(async {
            // Where an entry were lost, or its deadline, this came to no end.
            while !lock(queue).is_empty() {
                let polled = poll_fn(|cx| match guarded(|| lock(queue).poll_expired(cx)) {
                    Some(polled) => polled.map(Some),
                    None => Poll::Ready(None),
                });
                if let Some(Some(out)) = polled.await {
                    let deadline = out.deadline();
                    check_out(self.start, deadline, out.into_inner());
                }
            }
        });
        let all = self.known.into_inner().unwrap_or_else(PoisonError::into_inner);
        assert!(all.values().all(|told| told.is_dropped.load(SeqCst)), "a value is lost");
    }
}

/// Cancels an entry, of which nothing may come out from then on.
fn cancel(handle: &Handle, key: &delay_queue::Key, told: &Told) -> Option<Instant> {
    let deadline = handle.cancel(key).ok()?;
    told.until.store(CANCELLED, SeqCst);
    Some(deadline)
}

/// A queue that all fill, and its streams.
struct Filled {
    queue: SharedQueue<Value>,
    known: Mutex<Vec<(hontkhale::Key, Arc<Told>)>>,
    start: Instant,
    ledger: Arc<Ledger>,
}

impl Filled {
    fn new(ledger: &Arc<Ledger>) -> Filled {
        let queue = SharedQueue::builder().max_entries(MOST).build().into();
        Filled { queue, known: Mutex::default(), start: Instant::now(), ledger: ledger.clone() }
    }

    fn call(&self, dice: &mut Dice) {
        let when = Instant::now() + ms(dice.below(300));
        let at = dice.below(MOST as u64) as usize;
        let known = lock(&self.known).get(at).cloned();
        match (dice.below(10), known) {
            (0..=4, _) => {
                let told = Arc::<Told>::default();
                told.until.store(millis(self.start, when), SeqCst);
                let queue = self.queue.clone();
                let (other, removes) = (lock(&self.known).get(at / 2).cloned(), dice.below(2) == 0);
                let ends: Option<Ends> = other.map(|(key, _)| -> Ends {
                    Box::new(move || match removes {
                        true => drop(queue.remove(&key)),
                        false => drop(queue.extend(&key, ms(50))),
                    })
                });
                self.ledger.made.fetch_add(1, SeqCst);
                let (told_too, ledger) = (told.clone(), self.ledger.clone());
                let value = Value { told: told_too, ledger, ends, panics: dice.below(50) == 0 };
                // An insert that finds no room drops what was cancelled.
                match guarded(|| self.queue.insert_at(value, when)) {
                    Some(Ok(key)) => {
                        let mut known = lock(&self.known);
                        if at < known.len() {
                            known[at] = (key, told);
                        } else {
                            known.push((key, told));
                        }
                    }
                    Some(Err(full)) => drop(guarded(|| drop(full.into_inner()))),
                    None => {}
                }
            }
            (5, Some((key, _))) => {
                if let Ok(out) = self.queue.remove(&key) {
                    guarded(|| drop(out));
                }
            }
            (6, Some((key, told))) => {
                let is_cancelled = self.queue.cancel(&key).is_ok();
                if is_cancelled {
                    told.until.store(CANCELLED, SeqCst);
                }
            }
            (_, Some((key, _))) => {
                let _ = self.queue.extend(&key, ms(dice.below(300)));
            }
            _ => {}
        }
    }

    async fn serve(&self, stream: &mut QueueStream<Value>) {
        let polled = poll_fn(|cx| match guarded(|| Pin::new(&mut *stream).poll_next(cx)) {
            Some(polled) => polled.map(Some),
            None => Poll::Ready(None),
        });
        if let Ok(Some(Some(out))) = tokio::time::timeout(ms(20), polled).await {
            check_out(self.start, out.deadline, out.value);
        }
    }

    /// Lets everything come out, and drops the queue.
    fn end(self) {
        let runtime = Runtime::new().expect("a runtime");
        let mut stream = self.queue.stream();
        let stream = &mut stream;
        runtime.block_on(async {
            while !self.queue.is_empty() {
                let polled = poll_fn(|cx| match guarded(|| Pin::new(&mut *stream).poll_next(cx)) {
                    Some(polled) => polled.map(Some),
                    None => Poll::Ready(None),
                });
                // None where a value's drop panicked amid the poll.
                if let Some(Some(out)) = polled.await {
                    check_out(self.start, out.deadline, out.value);
                }
            }
        });
        // What was cancelled and nobody freed goes with the last hold of the queue, and a panic there with the others.
        while guarded(|| self.queue.get_ref().try_recv().is_err()).is_none() {}
        let all = self.known.into_inner().unwrap_or_else(PoisonError::into_inner);
        assert!(all.iter().all(|(_, told)| told.is_dropped.load(SeqCst)), "a value is lost");
    }
}

/// The tasks of one runtime after the other.
fn run_tasks(owned: &Arc<Owned>, filled: &Arc<Filled>, ledger: &Arc<Ledger>, steps: &Arc<AtomicU64>) {
    let mut lives = 0;
    while !ledger.is_over.load(SeqCst) {
        lives += 1;
        let builder = &mut if lives % 2 == 0 { Builder::new_current_thread() } else { Builder::new_multi_thread() };
        let runtime = builder.enable_time().worker_threads(2).build().expect("a runtime");
        for task in 0..TASKS {
            let (owned, filled, steps) = (owned.clone(), filled.clone(), steps.clone());
            let mut dice = Dice(0x9e37_79b9_7f4a_7c15 ^ (lives * TASKS + task) << 9);
            runtime.spawn(async move {
                let mut stream = if task < 4 { Some(filled.queue.stream()) } else { None };
                loop {
                    steps.fetch_add(1, SeqCst);
                    match &mut stream {
                        Some(stream) => filled.serve(stream).await,
                        None if task % 8 == 7 => owned.poll(&mut dice).await,
                        None => {
                            owned.own(&mut dice);
                            filled.call(&mut dice);
                            sleep(ms(dice.below(4))).await;
                        }
                    }
                }
            });
        }
        runtime.block_on(async { sleep(LIFE).await });
        // The tasks end amid whatever they wait for.
        runtime.shutdown_timeout(Duration::from_secs(60));
    }
}

fn soak(length: Duration, steps: &Arc<AtomicU64>) {
    let runtime = Builder::new_current_thread().enable_time().build().expect("a runtime");
    let context = runtime.enter();
    let ledger = Arc::<Ledger>::default();
    let (owned, filled) = (Arc::new(Owned::new(&ledger)), Arc::new(Filled::new(&ledger)));
    thread::scope(|scope| {
        for thread in 0..THREADS {
            let (owned, filled, ledger, steps) = (&owned, &filled, &ledger, &steps);
            let mut dice = Dice(0xd1b5_4a32_d192_ed03 ^ (thread + 1) << 11);
            let runtime = runtime.handle().clone();
            scope.spawn(move || {
                let _context = runtime.enter();
                let handle = owned.handle.clone();
                while !ledger.is_over.load(SeqCst) {
                    steps.fetch_add(1, SeqCst);
                    owned.call(&handle, &mut dice);
                    filled.call(&mut dice);
                    if dice.below(16) == 0 {
                        thread::sleep(ms(1));
                    }
                }
            });
        }
        scope.spawn(|| {
            thread::sleep(length);
            ledger.is_over.store(true, SeqCst);
        });
        run_tasks(&owned, &filled, &ledger, steps);
    });
    drop(context);
    let came_out = ledger.came_out.load(SeqCst);
    Arc::into_inner(owned).expect("all tasks have ended").end();
    Arc::into_inner(filled).expect("all tasks have ended").end();
    let (made, dropped) = (ledger.made.load(SeqCst), ledger.dropped.load(SeqCst));
    // A line of bench/results/adapter-soak.tsv.
    println!("{}\t{made}\t{came_out}\t{}", length.as_secs(), steps.load(SeqCst));
    assert_eq!(made, dropped, "each value is dropped once");
    assert!(came_out > 100);
}

#[test]
#[ignore = "as long as HONTKHALE_SOAK_SECONDS says"]
fn nothing_hangs_and_each_value_is_dropped_once() {
    let steps = Arc::new(AtomicU64::new(0));
    let (done, is_done) = channel();
    let of_soak = steps.clone();
    let soak = thread::spawn(move || {
        soak(length(), &of_soak);
        let _ = done.send(());
    });
    let mut before = u64::MAX;
    // While it goes on there are calls; at its end there may be none for a while.
    while let Err(std::sync::mpsc::RecvTimeoutError::Timeout) = is_done.recv_timeout(Duration::from_secs(120)) {
        let now = steps.load(SeqCst);
        assert_ne!(before, now, "it hangs");
        before = now;
    }
    soak.join().expect("the soak passes");
}
