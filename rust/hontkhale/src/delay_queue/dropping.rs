//! How values are dropped, of which each may call the queue: one after the other, so that no drop of a queue stands on
//! another one's stack. Another queue's drop is made where it stands: the stack holds one for each queue. And how panics are dropped.

use crate::locks::{hold, Within};
use std::mem;
use std::panic::{catch_unwind, resume_unwind, AssertUnwindSafe};
use std::sync::atomic::{AtomicUsize, Ordering::SeqCst};
use std::sync::Mutex;
use std::thread;

thread_local! {
    /// The queues of whose drops this thread is within, each by its address.
    static DROPS: Within<usize> = const { Within::new(0) };
}

/// Held while this thread drops values of a queue. It has the queue of the drop around it, or 0.
struct Dropping(usize);

impl Drop for Dropping {
    #[inline]
    fn drop(&mut self) {
        DROPS.with(|drops| drops.leave(self.0));
    }
}

/// Values of a queue that were freed within a drop of another one of its values. They are dropped after it.
pub(crate) struct DropQueue<T> {
    values: Mutex<Vec<T>>,
    /// In how many places values wait for their drop: here, and in the shards where some are deferred.
    places: AtomicUsize,
}

impl<T> DropQueue<T> {
    pub fn new() -> DropQueue<T> {
        DropQueue {
            values: Mutex::default(),
            places: AtomicUsize::new(0),
        }
    }

    /// Whether values of the queue wait for their drop, here or in a shard.
    #[inline]
    pub fn has_values(&self) -> bool {
        self.places.load(SeqCst) > 0
    }

    /// Counts a place where values wait for their drop from now on, or no longer.
    pub fn note_place(&self, has_values: bool) {
        match has_values {
            true => self.places.fetch_add(1, SeqCst),
            false => self.places.fetch_sub(1, SeqCst),
        };
    }

    pub fn len(&self) -> usize {
        hold(&self.values).len()
    }

    fn push(&self, value: T) {
        let mut values = hold(&self.values);
        if values.is_empty() {
            self.note_place(true);
        }
        values.push(value);
    }

    fn pop(&self) -> Option<T> {
        let mut values = hold(&self.values);
        let value = values.pop();
        if value.is_some() && values.is_empty() {
            *values = Vec::new();
            self.note_place(false);
        }
        value
    }

    /// What tells the queue from others.
    fn address(&self) -> usize {
        self as *const DropQueue<T> as usize
    }

    /// Whether there are such values, and this thread may drop them now.
    pub fn may_drop(&self) -> bool {
        self.has_values() && !self.is_dropping()
    }

    /// Whether the thread is within a drop of the queue.
    fn is_dropping(&self) -> bool {
        DROPS.with(|drops| drops.any(|queue| *queue == self.address()))
    }

    /// None within a drop of the queue.
    #[inline]
    fn begin(&self) -> Option<Dropping> {
        let begins = || Dropping(DROPS.with(|drops| drops.enter(self.address())));
        (!self.is_dropping()).then(begins)
    }

    /// Drops them, and those that are freed meanwhile. Nothing within a drop of the queue.
    pub fn drop_all(&self) {
        if let Some(dropping) = self.begin() {
            self.drop_rest(dropping);
        }
    }

    /// The same where the turn is begun.
    #[inline(always)]
    fn drop_rest(&self, _dropping: Dropping) {
        while self.has_values() {
            let Some(value) = self.pop() else { return };
            drop(value);
        }
    }

    /// Drops a value, or defers it within a drop of the queue.
    #[inline(always)]
    pub fn drop_value(&self, value: T) {
        match self.begin() {
            None => self.push(value),
            Some(dropping) => {
                drop(value);
                self.drop_rest(dropping);
            }
        }
    }
}

/// Makes all of some calls, and gives the first panic.
pub(crate) fn first_panic(calls: impl Iterator<Item = thread::Result<()>>) -> thread::Result<()> {
    let first = calls.reduce(|first, called| {
        if first.is_ok() {
            return called;
        }
        lose(called);
        first
    });
    first.unwrap_or(Ok(()))
}

/// Goes on with what a call panicked with, where it did.
#[inline(always)]
pub(crate) fn go_on(called: thread::Result<()>) {
    called.unwrap_or_else(|panic| resume_unwind(panic));
}

/// Drops what a call panicked with, where it did.
#[inline]
pub(crate) fn lose(called: thread::Result<()>) {
    let Err(panic) = called else { return };
    if let Err(within) = catch_unwind(AssertUnwindSafe(|| drop(panic))) {
        // A panic's value may panic as it is dropped, and so may that of this panic.
        mem::forget(within);
    }
}
