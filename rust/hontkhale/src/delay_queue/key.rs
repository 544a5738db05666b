//! The calls by the names of entries. A step on an entry's words takes no lock, but where only its shard can tell.

use crate::core::{CallError, CoreError, Look};
use crate::delay_queue::dropping::go_on;
use crate::delay_queue::errors::KeyError;
use crate::delay_queue::shard::Locked;
use crate::delay_queue::shared::{Common, Shared};
use crate::ticks::{self, LAST_TICK};
use crate::words::OpenWords;
use std::any::Any;
use std::sync::atomic::Ordering::SeqCst;
use std::time::{Duration, Instant};

pub use crate::ticks::names::Key;

/// What is asked of an entry's word.
#[derive(Clone, Copy)]
pub(crate) enum Step {
    /// To a tick at the least. Beyond the last one it is refused once the key is found to be of the queue, live or not.
    Extend(u64),
    Cancel,
    Look,
}

/// What a step comes to: the deadline that is in force then, or that was given up.
type Made = Result<u64, KeyError>;

impl Step {
    /// Makes it, without a lock. It gives the deadline that is in force then, or that was given up.
    #[inline(always)]
    pub fn make(self, words: &OpenWords, key: &ticks::Key) -> Result<u64, CallError> {
        match self {
            Step::Extend(tick) => words.extend(key, tick),
            Step::Cancel => words.cancel(key),
            Step::Look => match words.look(key)? {
                Look::StillLive(deadline) => Ok(deadline),
                how => Err(CallError::Ended { how }),
            },
        }
    }
}

impl Common {
    /// A step by the words of an entry's first place, without a lock; none where the shard is to tell: after a reset the key has
    /// an earlier stamp, and an entry that was moved is found as removed.
    #[inline(always)]
    fn quick_step(&self, key: &Key, step: Step) -> Option<Made> {
        if key.queue() != self.id {
            return Some(Err(KeyError::WrongQueue));
        }
        match step.make(self.words.get(key.number())?, &key.inner()) {
            Ok(deadline) => Some(Ok(deadline)),
            Err(CallError::TooFar { .. }) => Some(Err(KeyError::TooFar)),
            Err(CallError::Ended { how }) if !matches!(how, Look::LookRemoved(_)) => Some(Err(KeyError::Ended)),
            Err(_) => None,
        }
    }

    /// Makes a step; `slowly` by its shard's lock, where that is to tell. Who asks for the queue's end is told by `note_end`.
    #[inline(always)]
    pub fn step(&self, key: &Key, step: Step, slowly: impl FnOnce() -> Made, note_end: impl FnOnce()) -> Made {
        // Taken apart here, it comes in registers.
        // An extend takes a few instructions more by `unwrap_or_else`.
        let deadline = match self.quick_step(key, step) {
            Some(Ok(deadline)) => deadline,
            Some(Err(error)) => return Err(error),
            None => slowly()?,
        };
        if matches!(step, Step::Cancel) {
            self.seen[key.shard()].cancels.fetch_add(1, SeqCst);
            self.uncount(1);
            if self.is_asked() {
                note_end();
            }
        }
        Ok(deadline)
    }

    /// Raises the deadline of a live entry to a tick where that isn't sooner, without a lock, and tells whether it did.
    #[inline(always)]
    pub fn is_later(&self, key: &Key, tick: u64) -> bool {
        let Some(words) = self.words.get(key.number()).filter(|_| key.queue() == self.id) else {
            return false;
        };
        let key = key.inner();
        let isnt_sooner = matches!(words.look(&key), Ok(Look::StillLive(deadline)) if deadline <= tick);
        isnt_sooner && words.extend(&key, tick).is_ok()
    }
}

/// What a handle asks of a queue whose values it doesn't know.
pub(crate) trait Steps: Send + Sync {
    /// A step that takes the shard's lock.
    fn slow_step(&self, key: &Key, step: Step) -> Result<u64, KeyError>;

    /// Has those told who wait until the queue is empty, where it is.
    fn note_end(&self);

    /// The queue, for who knows the type of its values.
    fn as_any(&self) -> &dyn Any;
}

impl<T: Send + 'static> Steps for Shared<T> {
    fn slow_step(&self, key: &Key, step: Step) -> Result<u64, KeyError> {
        self.step_slowly(key, step)
    }

    fn note_end(&self) {
        Shared::note_end(self);
    }

    fn as_any(&self) -> &dyn Any {
        self
    }
}

/// Held while a program's closure is called under a lock of a queue, from before the lock is taken until it is let go.
pub(crate) struct Lends<'q, T>(pub &'q Shared<T>);

impl<T> Drop for Lends<'_, T> {
    /// What the closure ended may have been the last entry.
    #[inline]
    fn drop(&mut self) {
        if self.0.common.is_asked() {
            self.0.note_end();
        }
    }
}

/// Why a call by key isn't made: the entry has ended, or `NoMemory` where it is to be moved and no slot is free.
pub(crate) fn refused(error: CoreError) -> KeyError {
    match error {
        CoreError::NoMemory | CoreError::Full { .. } => KeyError::NoMemory,
        _ => KeyError::Ended,
    }
}

/// The calls by key. An entry has the key that its insert gave, wherever it is.
impl<T> Shared<T> {
    /// The shard of a key of this queue.
    #[inline(always)]
    pub fn lock_of(&self, key: &Key) -> Result<Locked<'_, T>, KeyError> {
        if key.queue() != self.common.id {
            return Err(KeyError::WrongQueue);
        }
        Ok(self.lock(key.shard()))
    }

    #[inline(always)]
    pub fn step(&self, key: &Key, step: Step) -> Result<u64, KeyError> {
        let slowly = || self.step_slowly(key, step);
        self.common.step(key, step, slowly, || self.note_end())
    }

    /// A step whose deadline is told as a moment.
    #[inline(always)]
    pub fn step_to_moment(&self, key: &Key, step: Step) -> Result<Instant, KeyError> {
        let deadline = self.step(key, step)?;
        Ok(self.common.time.moment(deadline))
    }

    #[inline(always)]
    pub fn extend(&self, key: &Key, after: Duration) -> Result<Instant, KeyError> {
        self.step_to_moment(key, Step::Extend(self.common.time.tick_in(after)))
    }

    #[inline(always)]
    pub fn extend_at(&self, key: &Key, when: Instant) -> Result<Instant, KeyError> {
        let rounded = self.common.time.rounded(when);
        let deadline = self.step(key, Step::Extend(rounded.0))?;
        Ok(self.common.time.moment_beside(deadline, rounded))
    }

    /// A step under the shard's lock: the entry's stamp was changed by a reset, it was moved, or it has ended.
    #[cold]
    fn step_slowly(&self, key: &Key, step: Step) -> Result<u64, KeyError> {
        let (mut shard, entry) = (self.lock_of(key)?, key.entry());
        shard.entries.deadline(&entry).map_err(refused)?;
        let place = shard.entries.store().place(&entry).ok_or(KeyError::Ended)?;
        let words = self.common.words.get(place.shard()).ok_or(KeyError::Ended)?;
        // The entry is there by its birth, and under the lock nobody changes its stamp.
        let made = match step.make(words, &ticks::Key::new(place, place.born())) {
            Err(CallError::Stale { seen }) => step.make(words, &ticks::Key::new(place, seen)),
            made => made,
        };
        if matches!(step, Step::Cancel) && made.is_ok() {
            // It doesn't come out by this key any more.
            shard.reap(&entry);
        }
        made.map_err(|_| KeyError::Ended)
    }

    /// Gives an entry the deadline `tick`, and gives its key of the present stamp. One that isn't sooner is an extend, without a
    /// lock. It is inlined as the insert is.
    #[inline(always)]
    pub fn reset(&self, key: &Key, tick: u64) -> Result<Key, KeyError> {
        if self.common.is_later(key, tick) {
            return Ok(*key);
        }
        self.reset_under_lock(key, tick)
    }

    fn reset_under_lock(&self, key: &Key, tick: u64) -> Result<Key, KeyError> {
        let mut shard = self.lock_of(key)?;
        if tick > LAST_TICK {
            return Err(KeyError::TooFar);
        }
        let mut has_freed = false;
        loop {
            let (renamed, beside) = shard.reset(key, tick);
            let woken = shard.end();
            if let Some(value) = beside {
                self.deferred.drop_value(value);
            }
            go_on(woken);
            let Err(CoreError::Full { .. }) = renamed else {
                return renamed.map_err(refused);
            };
            self.make_room(key.shard(), &mut has_freed)
                .map_err(|_| KeyError::NoMemory)?;
            shard = self.lock(key.shard());
        }
    }

    /// Takes a live entry out, and gives its value.
    #[inline]
    pub fn remove(&self, key: &Key) -> Result<T, KeyError> {
        let mut shard = self.lock_of(key)?;
        let removed = shard.remove(&key.entry()).map_err(refused)?;
        self.leave(shard, 1);
        Ok(removed.value)
    }
}
