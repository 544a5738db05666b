//! The least that an extend without a lock can cost, which is no queue: one `fetch_max` on the entry's word, or one store to the
//! word of its connection, as a server has it that looks at all connections each second.

use std::sync::atomic::{AtomicU64, Ordering};

use crate::queue::{Extends, Parts, Polls, Queue, Shared};

/// A live word of stamp 1: the stamp stands above 44 bits, the deadline in the lowest 42.
const LIVE: u64 = 1 << 44;
const FIELD: u64 = (1 << 42) - 1;

/// What an entry has, and what an extend does to it.
pub trait Word: Default + Send + Sync {
    fn word(&self) -> &AtomicU64;
    /// Gives what is in force.
    fn touch(&self, word: u64) -> u64;
}

impl Word for AtomicU64 {
    fn word(&self) -> &AtomicU64 {
        self
    }

    #[inline(always)]
    fn touch(&self, word: u64) -> u64 {
        self.fetch_max(word, Ordering::SeqCst).max(word)
    }
}

/// When a connection was last heard of, among what else is kept of it. It alone says so, so a store does.
#[derive(Default)]
#[repr(align(64))]
pub struct LastHeard(AtomicU64);

impl Word for LastHeard {
    fn word(&self) -> &AtomicU64 {
        &self.0
    }

    #[inline(always)]
    fn touch(&self, word: u64) -> u64 {
        self.0.store(word, Ordering::Relaxed);
        word
    }
}

/// One word an entry. A poll gives the entries in the order of their words, each once it is due.
pub struct Floor<W> {
    words: Vec<W>,
    linked: usize,
    next: usize,
}

impl<W: Word> Floor<W> {
    pub fn new(capacity: usize) -> Floor<W> {
        Floor { words: (0..capacity).map(|_| W::default()).collect(), linked: 0, next: 0 }
    }

    #[inline(always)]
    fn raise(&self, key: u32, deadline: u64) -> u64 {
        self.words[key as usize].touch(LIVE | deadline) & FIELD
    }

    /// The next entry, where it is due.
    fn due(&self, tick: u64) -> Option<(u64, u64)> {
        let deadline = self.words[self.next].word().load(Ordering::SeqCst) & FIELD;
        (deadline <= tick).then_some((deadline, self.next as u64))
    }
}

impl<W: Word> Queue for Floor<W> {
    type Key = u32;
    type Out = (u64, u64);

    fn insert(&mut self, _value: u64, deadline: u64) -> u32 {
        let index = self.linked;
        self.words[index].word().store(LIVE | deadline, Ordering::SeqCst);
        self.linked += 1;
        index as u32
    }

    fn extend(&mut self, key: u32, deadline: u64) -> u64 {
        self.raise(key, deadline)
    }

    fn reset(&mut self, _key: u32, _deadline: u64) -> u32 {
        unreachable!("the floor is timed by extends alone")
    }

    fn remove(&mut self, _key: u32) -> u64 {
        unreachable!("the floor is timed by extends alone")
    }

    fn cancel(&mut self, _key: u32) {
        unreachable!("the floor is timed by extends alone")
    }

    fn poll(&mut self, tick: u64) -> Option<(u64, u64)> {
        if self.next == self.linked {
            (self.linked, self.next) = (0, 0);
            return None;
        }
        let out = self.due(tick)?;
        self.next += 1;
        Some(out)
    }

    fn value(out: &(u64, u64)) -> u64 {
        out.1
    }

    fn deadline(&self, out: &(u64, u64)) -> u64 {
        out.0
    }
}

impl<W: Word> Shared for Floor<W> {
    fn share(&mut self, threads: usize) -> Parts<impl Extends<u32>, impl Polls<(u64, u64)>> {
        let floor = &*self;
        let extend = move |key, deadline| floor.raise(key, deadline);
        Parts { extends: vec![extend; threads], poll: move |tick| floor.due(tick) }
    }
}
