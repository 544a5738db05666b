//! What the tests are given in the place of the kit that they are proved with: tasks and executors, threads that are
//! joined, values whose memory is counted, and numbers from a fixed generator.

pub use crate::parts::AllocError;
use crate::core::Expired;
use crate::parts::streams::{ExpiredStream, PacedStream, StreamFault, TickSource};
use std::cell::Cell;
use std::error::Error;
use std::fmt;
use std::ops::Deref;
use std::sync::atomic::{AtomicBool, Ordering};
use std::sync::Arc;
use std::task::{Context, Poll, Wake, Waker};
use std::thread;

/// Why a test fails.
pub type Fail = Box<dyn Error + Send + Sync>;

/// A call answers so. Else the test ends: it names the call and shows both.
pub fn same<T>(call: impl fmt::Display + Copy, answer: T, expected: T)
where
    T: PartialEq + fmt::Debug,
{
    assert_eq!(answer, expected, "{call}");
}

/// Runs both in threads of their own, and waits for both.
pub fn join<A: Send, B: Send>(one: impl FnOnce() -> A + Send, other: impl FnOnce() -> B + Send) -> (A, B) {
    thread::scope(|scope| {
        let one = scope.spawn(one);
        let other = other();
        (one.join().expect("a thread"), other)
    })
}

/// A push that tells whether memory was refused.
pub trait Pushed<T> {
    fn pushed(&mut self, value: T) -> Result<(), AllocError>;
}

impl<T> Pushed<T> for Vec<T> {
    fn pushed(&mut self, value: T) -> Result<(), AllocError> {
        self.try_reserve(1).map_err(|_| AllocError)?;
        self.push(value);
        Ok(())
    }
}

/// Numbers from a fixed generator, the same in each run.
pub struct Draw {
    state: u64,
}

const STEP: u64 = 6_364_136_223_846_793_005;

impl Draw {
    pub fn new(seed: u64) -> Draw {
        let mut draw = Draw {
            state: seed.wrapping_add(1),
        };
        draw.step();
        draw
    }

    fn step(&mut self) {
        self.state = self.state.wrapping_mul(STEP).wrapping_add(1);
    }

    // The next 32 bits of a permuted congruential generator.
    fn next(&mut self) -> u64 {
        let state = self.state;
        self.step();
        let mixed = (((state >> 18) ^ state) >> 27) as u32;
        u64::from(mixed.rotate_right((state >> 59) as u32))
    }

    /// A number below the bound, or 0 where the bound is 0.
    pub fn below(&mut self, bound: u64) -> u64 {
        let low = self.next();
        (self.next() << 32 | low).checked_rem(bound).unwrap_or(0)
    }
}

/// Counts the memory of the values that are held in it.
#[derive(Default)]
pub struct LocalHeap {
    used: Cell<usize>,
}

impl LocalHeap {
    pub fn new() -> LocalHeap {
        LocalHeap::default()
    }

    /// The bytes of the values that live.
    pub fn used(&self) -> usize {
        self.used.get()
    }
}

/// A value that owns memory, which a heap counts while it lives.
pub struct HeapBox<'heap, T> {
    value: Box<T>,
    heap: &'heap LocalHeap,
}

impl<'heap, T> HeapBox<'heap, T> {
    pub fn new(heap: &'heap LocalHeap, value: T) -> HeapBox<'heap, T> {
        heap.used.set(heap.used() + size_of::<T>());
        let value = Box::new(value);
        HeapBox { value, heap }
    }
}

impl<T> Deref for HeapBox<'_, T> {
    type Target = T;

    fn deref(&self) -> &T {
        &self.value
    }
}

impl<T> Drop for HeapBox<'_, T> {
    fn drop(&mut self) {
        self.heap.used.set(self.heap.used() - size_of::<T>());
    }
}

impl<T: fmt::Debug> fmt::Debug for HeapBox<'_, T> {
    fn fmt(&self, f: &mut fmt::Formatter<'_>) -> fmt::Result {
        self.value.fmt(f)
    }
}

/// A text that owns memory, which a heap counts while it lives.
pub type HeapString<'heap> = HeapBox<'heap, &'static str>;

/// A future that is polled where it stands.
pub trait Future {
    type Output;

    fn poll(&mut self, cx: &mut Context<'_>) -> Poll<Self::Output>;
}

/// A stream that is polled where it stands.
pub trait Stream {
    type Item;

    fn poll_next(&mut self, cx: &mut Context<'_>) -> Poll<Option<Self::Item>>;
}

/// What a stream gives next, and all that it gives.
pub trait StreamExt: Stream + Sized {
    fn next(&mut self) -> Next<'_, Self> {
        Next(self)
    }

    fn collect(self) -> Collect<Self> {
        let items = Vec::new();
        Collect { stream: self, items }
    }
}

impl<S: Stream> StreamExt for S {}

pub struct Next<'s, S>(&'s mut S);

impl<S: Stream> Future for Next<'_, S> {
    type Output = Option<S::Item>;

    fn poll(&mut self, cx: &mut Context<'_>) -> Poll<Option<S::Item>> {
        self.0.poll_next(cx)
    }
}

pub struct Collect<S: Stream> {
    stream: S,
    items: Vec<S::Item>,
}

impl<S: Stream> Future for Collect<S> {
    type Output = Result<Vec<S::Item>, AllocError>;

    fn poll(&mut self, cx: &mut Context<'_>) -> Poll<Self::Output> {
        loop {
            match self.stream.poll_next(cx) {
                Poll::Pending => return Poll::Pending,
                Poll::Ready(Some(item)) => self.items.push(item),
                Poll::Ready(None) => return Poll::Ready(Ok(self.items.drain(..).collect())),
            }
        }
    }
}

macro_rules! streams {
    ($($stream:ident,)*) => {$(
        impl<T, S: TickSource> Stream for $stream<'_, T, S> {
            type Item = Result<Expired<T>, StreamFault>;

            fn poll_next(&mut self, cx: &mut Context<'_>) -> Poll<Option<Self::Item>> {
                $stream::poll_next(self, cx)
            }
        }
    )*};
}

streams! {
    ExpiredStream,
    PacedStream,
}

/// Either of two futures of one output.
pub enum Either<A, B> {
    Left(A),
    Right(B),
}

impl<A: Future, B: Future<Output = A::Output>> Future for Either<A, B> {
    type Output = A::Output;

    fn poll(&mut self, cx: &mut Context<'_>) -> Poll<A::Output> {
        match self {
            Either::Left(future) => future.poll(cx),
            Either::Right(future) => future.poll(cx),
        }
    }
}

/// Wakes the task that is polled, and is pending.
pub fn yield_now<T>(cx: &mut Context<'_>) -> Poll<T> {
    cx.waker().wake_by_ref();
    Poll::Pending
}

// Whether a task was woken.
#[derive(Default)]
struct Woken(AtomicBool);

impl Wake for Woken {
    fn wake(self: Arc<Self>) {
        self.0.store(true, Ordering::SeqCst);
    }
}

/// A task that a test polls by hand. It is not woken at first.
#[derive(Default)]
pub struct MockTask {
    woken: Arc<Woken>,
}

impl MockTask {
    pub fn new() -> MockTask {
        MockTask::default()
    }

    /// Whether it was woken since it was entered.
    pub fn is_woken(&self) -> bool {
        self.woken.0.load(Ordering::SeqCst)
    }

    /// Calls this in the task's context, which is not woken from then on.
    pub fn enter<T>(&self, call: impl FnOnce(&mut Context<'_>) -> T) -> T {
        self.woken.0.store(false, Ordering::SeqCst);
        let waker = Waker::from(self.woken.clone());
        call(&mut Context::from_waker(&waker))
    }

    pub fn poll<F: Future>(&self, future: &mut F) -> Poll<F::Output> {
        self.enter(|cx| future.poll(cx))
    }
}

// Wakes a thread.
struct Unparks(thread::Thread);

impl Wake for Unparks {
    fn wake(self: Arc<Self>) {
        self.0.unpark();
    }
}

/// Waits in this thread for a future.
pub fn block_on<F: Future>(mut future: F) -> Result<F::Output, AllocError> {
    let waker = Waker::from(Arc::new(Unparks(thread::current())));
    let mut cx = Context::from_waker(&waker);
    loop {
        match future.poll(&mut cx) {
            Poll::Ready(output) => return Ok(output),
            Poll::Pending => thread::park(),
        }
    }
}

/// Runs all of these in turn, each where it was woken, until all are done.
pub fn run_all<F: Future<Output = ()>>(futures: Vec<F>) -> Result<(), Fail> {
    let mut left: Vec<(F, MockTask)> = futures.into_iter().map(|future| (future, MockTask::new())).collect();
    let mut is_first = true;
    while !left.is_empty() {
        if !is_first && !left.iter().any(|(_, task)| task.is_woken()) {
            return Err(Fail::from("no task is woken"));
        }
        left.retain_mut(|(future, task)| !(is_first || task.is_woken()) || task.poll(future).is_pending());
        is_first = false;
    }
    Ok(())
}
