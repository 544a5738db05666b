//! What several tests use.
#![allow(dead_code)]

use std::sync::atomic::{AtomicUsize, Ordering::SeqCst};
use std::sync::mpsc::{channel, RecvTimeoutError};
use std::sync::Arc;
use std::task::Wake;
use std::thread;
use std::time::Duration;

/// More than any of these tests takes, also where the machine is busy: one that takes longer hangs.
const LIMIT: Duration = Duration::from_secs(120);

/// Runs a test in a thread of its own, and fails where it doesn't come to its end.
pub fn ends(test: impl FnOnce() + Send + 'static) {
    let (done, is_done) = channel();
    let thread = thread::spawn(move || {
        test();
        let _ = done.send(());
    });
    match is_done.recv_timeout(LIMIT) {
        Err(RecvTimeoutError::Timeout) => panic!("it hangs"),
        _ => thread.join().expect("the test passes"),
    }
}

/// A runtime whose clock stands until nothing else is to do.
pub fn paused() -> tokio::runtime::Runtime {
    tokio::runtime::Builder::new_current_thread().enable_time().start_paused(true).build().expect("a runtime")
}

/// A runtime whose clock is the machine's.
pub fn running() -> tokio::runtime::Runtime {
    tokio::runtime::Builder::new_current_thread().enable_time().build().expect("a runtime")
}

/// The same of so many threads.
pub fn threaded(workers: usize) -> tokio::runtime::Runtime {
    let mut builder = tokio::runtime::Builder::new_multi_thread();
    builder.worker_threads(workers).enable_time().build().expect("a runtime")
}

pub fn ms(millis: u64) -> Duration {
    Duration::from_millis(millis)
}

/// How often a task was woken.
#[derive(Default)]
pub struct Wakes(AtomicUsize);

impl Wakes {
    /// The wakes since this was asked last.
    pub fn take(&self) -> usize {
        self.0.swap(0, SeqCst)
    }
}

impl Wake for Wakes {
    fn wake(self: Arc<Self>) {
        self.0.fetch_add(1, SeqCst);
    }
}

/// Marsaglia's xorshift.
pub struct Dice(pub u64);

impl Dice {
    pub fn below(&mut self, limit: u64) -> u64 {
        self.0 ^= self.0 << 13;
        self.0 ^= self.0 >> 7;
        self.0 ^= self.0 << 17;
        self.0 % limit
    }
}
