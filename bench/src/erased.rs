//! Our queue as plain Rust has it: the cargo crate, which is the erased source.

use hontkhale::parts::owner::{
    shared_queue, CallError, Caller, CoreConfig, DelayCore, Expired, Keeper, Key, OpenWords, Turn,
};

use crate::queue::{Extends, Parts, Polls, Queue, Shared};

/// By what the owner extends and cancels.
pub trait Calls {
    fn extend(&mut self, key: &Key, deadline: u64) -> Result<u64, CallError>;

    fn cancel(&mut self, key: &Key) -> Result<u64, CallError>;
}

impl Calls for Caller {
    #[inline(always)]
    fn extend(&mut self, key: &Key, deadline: u64) -> Result<u64, CallError> {
        Caller::extend(self, key, deadline)
    }

    #[inline(always)]
    fn cancel(&mut self, key: &Key) -> Result<u64, CallError> {
        Caller::cancel(self, key)
    }
}

impl Calls for OpenWords {
    #[inline(always)]
    fn extend(&mut self, key: &Key, deadline: u64) -> Result<u64, CallError> {
        OpenWords::extend(self, key, deadline)
    }

    #[inline(always)]
    fn cancel(&mut self, key: &Key) -> Result<u64, CallError> {
        OpenWords::cancel(self, key)
    }
}

/// Nobody: the owner alone has the words, so that its steps are plain ones.
pub struct Nobody;

impl Calls for Nobody {
    fn extend(&mut self, _key: &Key, _deadline: u64) -> Result<u64, CallError> {
        unreachable!("nobody extends")
    }

    fn cancel(&mut self, _key: &Key) -> Result<u64, CallError> {
        unreachable!("nobody cancels")
    }
}

/// The queue, and a caller of it, its open words, or neither.
pub struct Erased<C> {
    queue: DelayCore<u64, Keeper>,
    calls: C,
}

impl Erased<Caller> {
    pub fn new(capacity: usize) -> Erased<Caller> {
        let mut queue = shared_queue(capacity).expect("a queue of that capacity");
        let calls = queue.issue().expect("a first caller");
        Erased { queue, calls }
    }
}

impl Erased<OpenWords> {
    pub fn open(capacity: usize) -> Erased<OpenWords> {
        let mut keeper = Keeper::new(capacity).expect("a keeper of that capacity");
        let calls = keeper.open().expect("open words");
        let queue = DelayCore::new(CoreConfig::of(capacity), keeper).expect("a queue of that capacity");
        Erased { queue, calls }
    }
}

impl Erased<Nobody> {
    pub fn alone(capacity: usize) -> Erased<Nobody> {
        let queue = shared_queue(capacity).expect("a queue of that capacity");
        Erased { queue, calls: Nobody }
    }
}

#[inline(always)]
fn extended(calls: &mut impl Calls, key: Key, deadline: u64) -> u64 {
    calls.extend(&key, deadline).expect("the entry is live")
}

#[inline(always)]
fn polled(queue: &mut DelayCore<u64, Keeper>, tick: u64) -> Option<Expired<u64>> {
    match queue.poll(tick).expect("the tick is in range") {
        Turn::Out(out) => Some(out),
        _ => None,
    }
}

impl<C: Calls> Queue for Erased<C> {
    type Key = Key;
    type Out = Expired<u64>;

    #[inline(always)]
    fn insert(&mut self, value: u64, deadline: u64) -> Key {
        self.queue.insert(value, deadline).map_err(|refused| refused.0).expect("a slot is free")
    }

    #[inline(always)]
    fn extend(&mut self, key: Key, deadline: u64) -> u64 {
        extended(&mut self.calls, key, deadline)
    }

    #[inline(always)]
    fn reset(&mut self, key: Key, deadline: u64) -> Key {
        self.queue.reset(&key.entry(), deadline).expect("the entry is live")
    }

    #[inline(always)]
    fn remove(&mut self, key: Key) -> u64 {
        // Without `expect`, which would carry the error to its panic.
        match self.queue.remove(&key.entry()) {
            Ok(removed) => removed.value,
            Err(_) => panic!("the entry is live"),
        }
    }

    #[inline(always)]
    fn cancel(&mut self, key: Key) {
        self.calls.cancel(&key).expect("the entry is live");
    }

    #[inline(always)]
    fn poll(&mut self, tick: u64) -> Option<Expired<u64>> {
        polled(&mut self.queue, tick)
    }

    fn value(out: &Expired<u64>) -> u64 {
        out.value
    }

    fn deadline(&self, out: &Expired<u64>) -> u64 {
        out.deadline
    }
}

impl Shared for Erased<Caller> {
    fn share(&mut self, threads: usize) -> Parts<impl Extends<Key>, impl Polls<Expired<u64>>> {
        let queue = &mut self.queue;
        let extends = (0..threads)
            .map(|_| {
                let mut caller = queue.issue().expect("fewer than 1,024 callers were issued");
                move |key, deadline| extended(&mut caller, key, deadline)
            })
            .collect();
        Parts { extends, poll: move |tick| polled(queue, tick) }
    }
}
