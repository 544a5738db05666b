//! An empty queue without its wheel and its slots, and the way back to a whole one.
//!
//! A queue that holds nothing still has memory for a full one. A fold gives back all but the words. Those stay, since a
//! caller may keep a key for as long as it likes, and the key's word is what refuses it. A word also has the last
//! stamp of its slot: where the queue is unfolded the slot goes on with the next one, so a key from before names no
//! entry that is put in later.

use crate::core::errors::CoreError;
use crate::core::outcomes::Tally;
use crate::core::queue::DelayCore;
use crate::core::slots::Slots;
use crate::core::words::Words;
use crate::memory::AllocError;
use crate::ticks::LAST_TICK;
use crate::wheels::Wheel;

/// An empty queue that gave its wheel and its slots back: its words, its ticks and its counts.
/// [`DelayCore::fold`] makes it, and [`Folded::unfold`] makes it a queue again.
pub struct Folded<W: Words> {
    shard: u32,
    noted: u64,
    tick: u64,
    moved: u64,
    last: u32,
    worn: usize,
    words: W,
    inserted: u64,
    expired: u64,
    removed: u64,
}

// A wheel at a tick with nothing in it, which counts its moves on from that many.
fn resting_wheel(capacity: usize, tick: u64, moved: u64) -> Result<Wheel, AllocError> {
    // requires 0 < capacity
    // requires capacity ≤ CAPACITY_LIMIT
    // requires tick ≤ LAST_TICK
    let Ok(mut wheel) = Wheel::new(capacity) else {
        return Err(AllocError);
    };
    wheel.advance(tick);
    wheel.count_from(moved);
    Ok(wheel)
}

// What an unfolded queue takes memory for: its wheel, and a slot for each word.
fn wheel_and_slots_over<T, W: Words>(
    tick: u64,
    moved: u64,
    last: u32,
    words: &mut W,
) -> Result<(Wheel, Slots<T>), AllocError> {
    // requires 0 < length (W.known words.old)
    // requires length (W.known words.old) ≤ CAPACITY_LIMIT
    // requires tick ≤ LAST_TICK
    // requires 0 < last
    // requires last ≤ LAST_STAMP
    // requires AreOver last (W.known words.old)
    let wheel = resting_wheel(words.rows(), tick, moved)?;
    let slots = Slots::over(last, words)?;
    Ok((wheel, slots))
}

impl<T, W: Words> DelayCore<T, W> {
    /// Gives the memory of an empty queue back, but for its words. Each key stays refused as before. Constant time, but
    /// for the allocator's.
    ///
    /// # Errors
    /// The queue comes back as it was, if it holds an entry, even a cancelled one, or if a freed value waits for its
    /// drop.
    ///
    /// ```
    /// use hontkhale::parts::owner::{CoreError, DelayCore};
    ///
    /// let mut queue = DelayCore::with_capacity(1_000)?;
    /// let first = queue.insert_or_drop("first", 100)?;
    /// let Err(mut queue) = queue.fold() else { panic!("an entry is in it") };
    /// queue.remove(&first.entry())?;
    ///
    /// let Ok(folded) = queue.fold() else { panic!("it is empty") };
    /// let Ok(mut queue) = folded.unfold() else { return Err(CoreError::NoMemory) };
    /// queue.insert_or_drop("second", 200)?;
    /// assert!(matches!(queue.remove(&first.entry()), Err(CoreError::Missing)));
    /// # Ok::<(), CoreError>(())
    /// ```
    #[allow(clippy::result_large_err)]
    pub fn fold(self) -> Result<Folded<W>, DelayCore<T, W>> {
        if self.slots.linked() > 0 || self.slots.deferred() > 0 {
            return Err(self);
        }
        let tick = self.wheel.tick();
        let moved = self.wheel.moved();
        let last = self.slots.last();
        let worn = self.slots.worn();
        Ok(Folded {
            shard: self.shard,
            noted: self.noted,
            tick,
            moved,
            last,
            worn,
            words: self.words,
            inserted: self.inserted,
            expired: self.expired,
            removed: self.removed,
        })
    }
}

impl<W: Words> Folded<W> {
    /// Returns the number of the queue, which its keys carry.
    pub fn shard(&self) -> u32 {
        self.shard
    }

    /// Returns the greatest tick of one millisecond that was noted.
    pub fn noted(&self) -> u64 {
        self.noted
    }

    /// Returns the number of slots that the queue has once it is unfolded.
    pub fn capacity(&self) -> usize {
        self.words.rows()
    }

    /// Returns the number of worn slots, which have no stamp left.
    pub fn worn(&self) -> usize {
        self.worn
    }

    /// Returns how many entries came and went.
    pub fn tally(&self) -> Tally {
        Tally {
            inserted: self.inserted,
            expired: self.expired,
            removed: self.removed,
            cancelled: self.inserted - self.expired - self.removed,
            linked: 0,
            moves: self.moved,
        }
    }

    /// Returns the words, which refuse each key of the queue as they did before.
    pub fn words(&self) -> &W {
        &self.words
    }

    /// Notes `tick`, of one millisecond, and goes to the greatest tick noted: the queue begins there once it is
    /// unfolded. Constant time.
    ///
    /// # Errors
    /// `TickTooLarge` if `tick` is beyond the last tick. It isn't noted then.
    pub fn come_to(&mut self, tick: u64) -> Result<(), CoreError> {
        if tick > LAST_TICK {
            return Err(CoreError::TickTooLarge { limit: LAST_TICK });
        }
        self.noted = self.noted.max(tick);
        self.tick = self.noted;
        Ok(())
    }

    /// Makes the queue whole again, with nothing in it. Each slot goes on with the stamp after its word's, and worn
    /// slots stay worn. It takes time and memory in proportion to the capacity.
    ///
    /// # Errors
    /// The folded queue comes back as it was, only if memory is refused.
    pub fn unfold<T>(mut self) -> Result<DelayCore<T, W>, Folded<W>> {
        let Ok((wheel, slots)) = wheel_and_slots_over(self.tick, self.moved, self.last, &mut self.words) else {
            return Err(self);
        };
        Ok(DelayCore {
            shard: self.shard,
            noted: self.noted,
            wheel,
            slots,
            words: self.words,
            inserted: self.inserted,
            expired: self.expired,
            removed: self.removed,
        })
    }
}
