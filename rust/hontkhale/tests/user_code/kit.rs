//! A time limit, values and wakers that run code of a test, and queues of such values.

use hontkhale::parts::owner::{Key, Tally};
use hontkhale::parts::shards::{QueueConfig, SharedDelayQueue};
use hontkhale::parts::streams::{ExpiredStream, TickSource};
use std::any::Any;
use std::mem::ManuallyDrop;
use std::panic::{catch_unwind, AssertUnwindSafe};
use std::sync::atomic::{AtomicU64, Ordering};
use std::sync::mpsc::{channel, RecvTimeoutError};
use std::sync::{Arc, Mutex};
use std::task::{Context, RawWaker, RawWakerVTable, Wake, Waker};
use std::thread;
use std::time::Duration;

pub type Queue = SharedDelayQueue<Value>;

/// Far more than any of these tests takes on a machine under load.
const LIMIT: Duration = Duration::from_secs(20);

/// Runs a test in a thread of its own. It fails where the test does, and where it hangs.
pub fn within_the_limit(test: impl FnOnce() + Send + 'static) {
    let (done, waits) = channel();
    let runs = thread::spawn(move || {
        test();
        let _ = done.send(());
    });
    match waits.recv_timeout(LIMIT) {
        Err(RecvTimeoutError::Timeout) => panic!("it hangs"),
        Ok(()) | Err(RecvTimeoutError::Disconnected) => {
            if let Err(panicked) = runs.join() {
                std::panic::resume_unwind(panicked);
            }
        }
    }
}

/// The words of the panic in which a call ends.
pub fn panics<T>(call: impl FnOnce() -> T) -> String {
    match catch_unwind(AssertUnwindSafe(call)) {
        Ok(_) => panic!("it doesn't panic"),
        Err(panicked) => words(&*panicked),
    }
}

fn words(panicked: &(dyn Any + Send)) -> String {
    match (panicked.downcast_ref::<&str>(), panicked.downcast_ref::<String>()) {
        (Some(words), _) => (*words).to_owned(),
        (None, Some(words)) => words.clone(),
        (None, None) => String::new(),
    }
}

type Action = Box<dyn FnOnce() + Send>;

/// How many values were dropped.
#[derive(Clone, Default)]
pub struct Drops(Arc<AtomicU64>);

impl Drops {
    pub fn count(&self) -> u64 {
        self.0.load(Ordering::SeqCst)
    }

    /// A value that runs nothing.
    pub fn value(&self) -> Value {
        Value {
            _memory: Box::new(1),
            drops: self.clone(),
            action: None,
        }
    }

    /// A value that runs this once it is dropped.
    pub fn value_that(&self, action: impl FnOnce() + Send + 'static) -> Value {
        let mut value = self.value();
        value.action = Some(Box::new(action));
        value
    }

    /// A value whose drop panics.
    pub fn value_that_panics(&self) -> Value {
        self.value_that(|| panic!("a value's drop"))
    }
}

/// A value that owns memory, and runs code of the test where it is dropped.
pub struct Value {
    _memory: Box<u64>,
    drops: Drops,
    action: Option<Action>,
}

impl Drop for Value {
    fn drop(&mut self) {
        self.drops.0.fetch_add(1, Ordering::SeqCst);
        if let Some(action) = self.action.take() {
            action();
        }
    }
}

/// A task that runs code of the test where it is woken, and where its last waker is dropped.
pub struct Task {
    wakes: AtomicU64,
    on_wake: Box<dyn Fn() + Send + Sync>,
    on_drop: Mutex<Option<Action>>,
}

impl Task {
    pub fn that_counts() -> Arc<Task> {
        Task::that(|| {})
    }

    pub fn that(on_wake: impl Fn() + Send + Sync + 'static) -> Arc<Task> {
        Arc::new(Task::of(on_wake, None))
    }

    fn of(on_wake: impl Fn() + Send + Sync + 'static, on_drop: Option<Action>) -> Task {
        Task {
            wakes: AtomicU64::new(0),
            on_wake: Box::new(on_wake),
            on_drop: Mutex::new(on_drop),
        }
    }

    pub fn that_panics() -> Arc<Task> {
        Task::that(|| panic!("a wake"))
    }

    /// A waker whose drop, where it is the last one, runs this.
    pub fn dropped_by(on_drop: impl FnOnce() + Send + 'static) -> Waker {
        Arc::new(Task::of(|| {}, Some(Box::new(on_drop)))).into()
    }

    pub fn wakes(&self) -> u64 {
        self.wakes.load(Ordering::SeqCst)
    }

    pub fn waker(self: &Arc<Self>) -> Waker {
        self.clone().into()
    }
}

impl Wake for Task {
    fn wake(self: Arc<Self>) {
        self.wakes.fetch_add(1, Ordering::SeqCst);
        (self.on_wake)();
    }
}

impl Drop for Task {
    fn drop(&mut self) {
        let action = self.on_drop.get_mut().ok().and_then(Option::take);
        if let Some(action) = action {
            action();
        }
    }
}

/// A queue of two shards with room for eight entries each.
pub fn queue() -> Arc<Queue> {
    Arc::new(Queue::new(QueueConfig::of(2, 8)).expect("a queue"))
}

/// An insert into shard 0.
pub fn insert(queue: &Queue, value: Value, when: u64) -> Key {
    queue.insert_or_drop(0, value, when).expect("room")
}

/// An insert into shard 0 that a handle cancels at once.
pub fn insert_cancelled(queue: &Queue, value: Value, when: u64) -> Key {
    let key = insert(queue, value, when);
    let mut handle = queue.handle().expect("a handle");
    assert_eq!(handle.cancel(&key), Ok(when));
    handle.give_back();
    key
}

/// Always tells tick 0.
pub struct Zero;

impl TickSource for Zero {
    fn now(&mut self) -> u64 {
        0
    }
}

/// A stream of shard 0 parks at tick 0.
pub fn park(queue: &Queue, waker: &Waker) {
    let Ok(mut stream) = ExpiredStream::new(queue, 0, Zero) else {
        panic!("a stream")
    };
    assert!(stream.poll_next(&mut Context::from_waker(waker)).is_pending());
}

/// What was inserted has ended or is linked.
pub fn adds_up(tally: &Tally) {
    assert_eq!(
        tally.inserted,
        tally.expired + tally.removed + tally.cancelled + tally.linked,
        "{tally:?}"
    );
}

/// Shard 0 is whole: its tally adds up, its poller may wait on, and it takes an entry and gives it.
pub fn is_whole(queue: &Queue, drops: &Drops) {
    adds_up(&queue.tally(0).expect("a shard"));
    if let Some(parked) = queue.parked(0).expect("a shard") {
        let wake = queue.next_wake(0).expect("a shard");
        assert!(
            wake.is_some_and(|wake| parked <= wake),
            "parked until {parked}, and the next wake is {wake:?}"
        );
    }
    queue.clear(0).expect("a shard");
    assert_eq!(queue.tally(0).expect("a shard").linked, 0);
    let key = insert(queue, drops.value(), 1_000);
    assert_eq!(queue.remove(&key.entry()).expect("an entry").deadline, 1_000);
    adds_up(&queue.tally(0).expect("a shard"));
}

type Call = dyn Fn() + Send + Sync;

/// A waker that runs this at each clone, wake and drop. No waker of std's own runs code of a user where it is cloned.
#[allow(unsafe_code)]
pub fn waker_that(call: impl Fn() + Send + Sync + 'static) -> Waker {
    fn parts(data: *const ()) -> Arc<Arc<Call>> {
        // SAFETY: the data of each such waker is of `Arc::into_raw` below, of which this takes one count.
        unsafe { Arc::from_raw(data.cast::<Arc<Call>>()) }
    }
    fn again(data: *const ()) -> RawWaker {
        let call = ManuallyDrop::new(parts(data));
        call();
        RawWaker::new(Arc::into_raw(Arc::clone(&call)).cast(), &TABLE)
    }
    fn by_ref(data: *const ()) {
        let call = ManuallyDrop::new(parts(data));
        call();
    }
    fn by_value(data: *const ()) {
        let call = parts(data);
        call();
    }
    static TABLE: RawWakerVTable = RawWakerVTable::new(again, by_value, by_ref, by_value);
    let call: Arc<Call> = Arc::new(call);
    let data = Arc::into_raw(Arc::new(call));
    // SAFETY: the functions above keep the counts of the `Arc`.
    unsafe { Waker::from_raw(RawWaker::new(data.cast(), &TABLE)) }
}
