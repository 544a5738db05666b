//! The queue of one owner: a wheel of filed indexes, a row of slots and a row of words.
//!
//! Each entry has a slot, and its deadline in force stands in the slot's word, where callers may extend it without
//! the owner. The wheel files the index no later than that deadline; where an entry comes due there and its word has
//! a later deadline, it is filed again.

use crate::core::errors::{CoreConfig, CoreError};
use crate::core::outcomes::{Expired, Pace, Progress, Removed, Turn};
use crate::core::slots::Slots;
use crate::core::words::{Look, Settled, Words};
use crate::fresh::are_fresh;
use crate::memory::AllocError;
use crate::ticks::{EntryId, Key, Mark, CAPACITY_LIMIT, LAST_STAMP, LAST_TICK, REACH};
use crate::wheels::{Beside, Wheel};

/// A delay queue of one owner: values of `T`, with their deadlines in the words `W`. Ticks are of one millisecond,
/// and the owner passes them in: the queue reads no clock. It takes all of its memory when it is made.
///
/// ```
/// use hontkhale::parts::owner::{DelayCore, Turn};
///
/// let mut queue = DelayCore::with_capacity(1_000)?;
/// let first = queue.insert_or_drop("first", 100)?;
/// let second = queue.insert_or_drop("second", 200)?;
/// assert_eq!(queue.extend(&first, 300), Ok(300));
///
/// assert_eq!(queue.remove(&second.entry())?.value, "second");
/// assert!(matches!(queue.poll(299)?, Turn::Waiting { .. }));
/// assert!(matches!(queue.poll(300)?, Turn::Out(expired) if expired.value == "first"));
/// assert!(matches!(queue.poll(300)?, Turn::Idle));
/// # Ok::<(), hontkhale::parts::owner::CoreError>(())
/// ```
///
/// An entry is *live* until it comes out, is removed or is cancelled. A cancelled entry keeps its slot until a call
/// frees it: a poll at which it would have been due, a sweep, a reap or a clear. Each insert and each reset takes one
/// of a slot's 1,048,575 stamps. A free slot without a stamp left is *worn*, and isn't used again;
/// [`DelayCore::renew`] begins the stamps again.
pub struct DelayCore<T, W: Words> {
    pub(crate) shard: u32,
    pub(crate) noted: u64,
    pub(crate) wheel: Wheel,
    pub(crate) slots: Slots<T>,
    pub(crate) words: W,
    pub(crate) inserted: u64,
    pub(crate) expired: u64,
    pub(crate) removed: u64,
}

// The slots and the words of a queue, which its wheel reads ahead: a poll settles a word first, and then reads the
// slot.
struct Ahead<'a, T, W> {
    slots: &'a Slots<T>,
    words: &'a W,
}

impl<'a, T, W: Words> Beside for Ahead<'a, T, W> {
    #[inline(always)]
    fn once_read(&self, index: usize, number: u64) -> u64 {
        let same = self.words.once_read(index, number);
        self.slots.once_read(index, same)
    }
}

// Whether the numbers of a configuration are in their ranges, and the words are as many as its slots.
fn is_config(config: &CoreConfig, rows: usize) -> bool {
    0 < config.capacity
        && config.capacity <= CAPACITY_LIMIT
        && 0 < config.last_stamp
        && config.last_stamp <= LAST_STAMP
        && rows == config.capacity
}

// The rows that a queue takes memory for: its wheel and its slots.
fn wheel_and_slots<T>(capacity: usize, last: u32) -> Result<(Wheel, Slots<T>), AllocError> {
    // requires 0 < capacity
    // requires capacity ≤ CAPACITY_LIMIT
    // requires 0 < last
    // requires last ≤ LAST_STAMP
    let Ok(wheel) = Wheel::new(capacity) else {
        return Err(AllocError);
    };
    let slots = Slots::new(capacity, last)?;
    Ok((wheel, slots))
}

// Where a deadline is filed at a tick.
#[inline]
pub(crate) fn filing_tick(tick: u64, deadline: u64) -> u64 {
    // requires tick ≤ LAST_TICK
    // requires deadline ≤ LAST_TICK
    deadline.min(tick + REACH)
}

// The stamp itself, once the wheel read what it will write where it unlinks the index. The word's step takes this
// stamp, so where it is a fence it waits for these reads together with its own, and not for each behind it.
#[inline(always)]
fn once_near<W: Words>(wheel: &Wheel, index: usize, stamp: u32) -> u32 {
    // requires index < length wheel.now.filing.filed
    // requires filed_at wheel.now.filing.filed index ≢ None
    if W::FENCED {
        wheel.once_near(index, stamp)
    } else {
        stamp
    }
}

impl<T, W: Words> DelayCore<T, W> {
    /// Makes a queue over fresh words, at tick 0, with nothing in it. It takes time and memory in proportion to the
    /// capacity.
    ///
    /// # Errors
    /// The words come back. In this order:
    /// - `BadConfig` if the capacity isn't 1 to [`CAPACITY_LIMIT`], the last stamp isn't 1 to [`LAST_STAMP`], or the
    ///   words aren't as many as the slots.
    /// - `NoMemory` if memory is refused.
    pub fn new(config: CoreConfig, words: W) -> Result<DelayCore<T, W>, (CoreError, W)> {
        // requires AreFresh (W.known words) (W.counts words)
        let mut words = words;
        assert!(
            are_fresh(&mut words),
            "the words of a queue that is made are in use already"
        );
        if !is_config(&config, words.rows()) {
            return Err((CoreError::BadConfig, words));
        }
        match wheel_and_slots(config.capacity, config.last_stamp) {
            Ok((wheel, slots)) => Ok(DelayCore {
                shard: config.shard,
                noted: 0,
                wheel,
                slots,
                words,
                inserted: 0,
                expired: 0,
                removed: 0,
            }),
            Err(AllocError) => Err((CoreError::NoMemory, words)),
        }
    }
}

impl<T, W: Words> DelayCore<T, W> {
    /// Returns the number of the queue, which its keys carry.
    pub fn shard(&self) -> u32 {
        self.shard
    }

    /// Returns the greatest tick of one millisecond that a poll accepted; at first 0.
    pub fn noted(&self) -> u64 {
        self.noted
    }

    /// Returns the queue's tick of one millisecond, up to which its wheel has gone. It isn't after the noted one.
    /// Nothing is scheduled before it.
    pub fn tick(&self) -> u64 {
        self.wheel.tick()
    }

    /// Puts `value` in, to come out at the tick `when` of one millisecond, and returns its key. If `when` is before
    /// the queue's tick, the entry is due at once. No value is dropped: one that waits for its drop in the slot that
    /// the entry takes comes out beside the key. Constant time, and no memory is taken.
    ///
    /// # Errors
    /// `value` comes back. In this order:
    /// - `TooFar` if `when` is beyond the last tick.
    /// - `Full` if no slot is free.
    #[inline(always)]
    pub fn insert_deferring(&mut self, value: T, when: u64) -> (Result<Key, (CoreError, T)>, Option<T>) {
        if when > LAST_TICK {
            return (Err((CoreError::TooFar { limit: LAST_TICK }, value)), None);
        }
        match self.slots.fill(value) {
            Ok((index, displaced)) => {
                let stamp = self.slots.stamp(index);
                let tick = self.wheel.tick();
                let base = when.max(tick);
                self.words.begin(index, stamp, base);
                self.wheel.link(index, filing_tick(tick, base));
                self.inserted += 1;
                let entry = EntryId::new(self.shard, index as u32, stamp);
                (Ok(Key::new(entry, stamp)), displaced)
            }
            Err(value) => {
                let full = CoreError::Full {
                    linked: self.slots.linked(),
                    worn: self.slots.worn(),
                };
                (Err((full, value)), None)
            }
        }
    }

    // Takes an index that is due, if one is, and does with it what its word says: its entry expires, is filed again
    // at a later tick, or is reaped. Of both kinds of poll this is the same step.
    #[inline(always)]
    pub(crate) fn settle_due(&mut self) -> Option<Progress<T>> {
        let tick = self.wheel.tick();
        let index = self.wheel.pop_due()?;
        let stamp = self.slots.stamp(index);
        match self.words.settle(index, stamp, tick) {
            Settled::SettledExpired => {
                let gone = self.slots.vacate(index);
                self.expired += 1;
                let entry = EntryId::new(self.shard, index as u32, gone.born);
                Some(Progress::Gave(Expired {
                    key: Key::new(entry, stamp),
                    deadline: tick,
                    noted: self.noted,
                    value: gone.value,
                }))
            }
            Settled::Later(deadline) => {
                self.wheel.link(index, filing_tick(tick, deadline));
                Some(Progress::Went)
            }
            Settled::SettledCancelled => {
                self.slots.defer(index);
                Some(Progress::Went)
            }
        }
    }

    // One step of a poll: settles an index that is due, or comes to a later tick at that pace.
    #[inline(always)]
    pub(crate) fn step(&mut self, pace: Pace) -> Progress<T> {
        if let Some(made) = self.settle_due() {
            return made;
        }
        let tick = self.wheel.tick();
        if tick < self.noted {
            return match pace {
                Pace::Whole => {
                    let ahead = Ahead {
                        slots: &self.slots,
                        words: &self.words,
                    };
                    self.wheel.advance_reading(self.noted, &ahead);
                    Progress::Went
                }
                Pace::InPieces => {
                    self.wheel.arrive(self.noted);
                    Progress::Went
                }
            };
        }
        Progress::Rests
    }

    /// Returns the tick, of one millisecond, at which the queue has something to do next. It returns none if the
    /// queue holds no entry. No live entry has a deadline before that tick; the least deadline may be later. Constant
    /// time.
    pub fn next_wake(&self) -> Option<u64> {
        self.wheel.next_wake()
    }

    // Notes a tick.
    pub(crate) fn note(&mut self, tick: u64) {
        // requires tick ≤ LAST_TICK
        self.noted = self.noted.max(tick);
    }

    /// Notes a tick of one millisecond, and takes out one entry whose deadline in force is reached by the greatest
    /// tick noted, or tells when to come again. No value is dropped: that of each cancelled entry which it reaps waits
    /// until it is taken out.
    ///
    /// # Errors
    /// TickTooLarge beyond the last tick, which is not noted then.
    #[inline(always)]
    pub fn poll_deferring(&mut self, tick: u64) -> Result<Turn<T>, CoreError> {
        if tick > LAST_TICK {
            return Err(CoreError::TickTooLarge { limit: LAST_TICK });
        }
        self.note(tick);
        'steps: loop {
            match self.step(Pace::Whole) {
                Progress::Gave(expired) => return Ok(Turn::Out(expired)),
                Progress::Went => {}
                Progress::Rests => break 'steps,
            }
        }
        match self.next_wake() {
            Some(next) => Ok(Turn::Waiting { next }),
            None => Ok(Turn::Idle),
        }
    }

    /// Returns the number of entries, live or cancelled and not yet freed.
    pub fn len(&self) -> usize {
        self.slots.linked()
    }

    /// Whether the queue holds no entry, live or cancelled and not yet freed.
    pub fn is_empty(&self) -> bool {
        self.slots.linked() == 0
    }

    /// Returns the number of slots.
    pub fn capacity(&self) -> usize {
        self.slots.capacity()
    }

    /// Returns the number of worn slots, which hold no entry and have no stamp left.
    pub fn worn(&self) -> usize {
        self.slots.worn()
    }

    /// Returns how many freed values wait for their drop. Constant time.
    #[inline(always)]
    pub fn deferred(&self) -> usize {
        self.slots.deferred()
    }

    /// Takes out a freed value that waits for its drop. It returns none if no value waits. Constant time.
    ///
    /// ```ignore
    /// for _ in 0..queue.deferred() {
    ///     drop(queue.take_deferred());
    /// }
    /// ```
    pub fn take_deferred(&mut self) -> Option<T> {
        self.slots.take_deferred()
    }

    /// Takes out the value that waits for its drop in the slot that the next insert takes, if one does: none while a
    /// slot is free. Constant time.
    #[inline(always)]
    pub fn take_displaced(&mut self) -> Option<T> {
        self.slots.take_displaced()
    }

    // Where an entry is held, none where it is missing.
    #[inline]
    pub(crate) fn find(&self, entry: &EntryId) -> Option<usize> {
        if entry.shard() != self.shard {
            return None;
        }
        let index = entry.index() as usize;
        if index >= self.slots.capacity() {
            return None;
        }
        let born = self.slots.born(index)?;
        if born != entry.born() {
            return None;
        }
        Some(index)
    }

    /// Returns the current deadline of a live entry, a tick of one millisecond. Constant time.
    ///
    /// # Errors
    /// In this order:
    /// - `Missing` if the entry isn't in the queue any more, or never was.
    /// - `WasCancelled` if the entry was cancelled.
    pub fn deadline(&mut self, entry: &EntryId) -> Result<u64, CoreError> {
        let Some(index) = self.find(entry) else {
            return Err(CoreError::Missing);
        };
        let word = self.words.look(index);
        let Mark::CancelledMark = word.mark else {
            return Ok(word.field);
        };
        Err(CoreError::WasCancelled)
    }

    /// Takes a live entry out, and returns its value with its key and its current deadline, a tick of one
    /// millisecond. Constant time, and no memory is taken.
    ///
    /// # Errors
    /// In this order:
    /// - `Missing` if the entry isn't in the queue any more, or never was.
    /// - `WasCancelled` if the entry was cancelled.
    #[inline(always)]
    pub fn remove(&mut self, entry: &EntryId) -> Result<Removed<T>, CoreError> {
        let Some(index) = self.find(entry) else {
            return Err(CoreError::Missing);
        };
        let stamp = once_near::<W>(&self.wheel, index, self.slots.stamp(index));
        let Some(deadline) = self.words.finish(index, stamp) else {
            return Err(CoreError::WasCancelled);
        };
        self.wheel.unlink(index);
        let held = self.slots.vacate(index);
        self.removed += 1;
        Ok(Removed {
            key: Key::new(*entry, stamp),
            deadline,
            value: held.value,
        })
    }

    /// Takes a live entry out if its current deadline isn't after `tick`, both of one millisecond, and returns its
    /// value with its key and that deadline. It returns none if the deadline is later: the entry stays as it is.
    /// Constant time, and no memory is taken.
    ///
    /// # Errors
    /// In this order:
    /// - `Missing` if the entry isn't in the queue any more, or never was.
    /// - `WasCancelled` if the entry was cancelled.
    pub fn remove_if_due(&mut self, entry: &EntryId, tick: u64) -> Result<Option<Removed<T>>, CoreError> {
        let Some(index) = self.find(entry) else {
            return Err(CoreError::Missing);
        };
        let stamp = once_near::<W>(&self.wheel, index, self.slots.stamp(index));
        let deadline = match self.words.finish_by(index, stamp, tick) {
            Look::LookRemoved(deadline) => deadline,
            Look::StillLive(_) => return Ok(None),
            Look::LookCancelled => return Err(CoreError::WasCancelled),
            Look::LookExpired(_) => unreachable!(),
        };
        self.wheel.unlink(index);
        let held = self.slots.vacate(index);
        self.removed += 1;
        Ok(Some(Removed {
            key: Key::new(*entry, stamp),
            deadline,
            value: held.value,
        }))
    }

    /// Gives a live entry the deadline `when`, a tick of one millisecond, sooner or later than the one that it has,
    /// and returns its new key. If `when` is before the queue's tick, the entry is due at once. Callers refuse the
    /// old key from then on. Constant time, and no memory is taken.
    ///
    /// # Errors
    /// In this order:
    /// - `TooFar` if `when` is beyond the last tick, 2^42 - 1.
    /// - `Missing` if the entry isn't in the queue any more, or never was.
    /// - `WasCancelled` if the entry was cancelled.
    /// - `Worn` if the entry's slot has no stamp left for another key.
    #[inline(always)]
    pub fn reset(&mut self, entry: &EntryId, when: u64) -> Result<Key, CoreError> {
        if when > LAST_TICK {
            return Err(CoreError::TooFar { limit: LAST_TICK });
        }
        let Some(index) = self.find(entry) else {
            return Err(CoreError::Missing);
        };
        let stamp = once_near::<W>(&self.wheel, index, self.slots.stamp(index));
        if stamp == self.slots.last() {
            self.deadline(entry)?;
            return Err(CoreError::Worn);
        }
        let tick = self.wheel.tick();
        let base = when.max(tick);
        let Some(_) = self.words.renew(index, stamp, base) else {
            return Err(CoreError::WasCancelled);
        };
        self.wheel.unlink(index);
        self.wheel.link(index, filing_tick(tick, base));
        self.slots.raise(index);
        Ok(Key::new(*entry, stamp + 1))
    }
}
