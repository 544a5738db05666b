//! What every crate of the delay queue speaks of: ticks and their digits, the words that entries are kept in, keys,
//! lengths of time in ticks, and why a call is refused.
//!
//! A tick is one millisecond. The levels are those of a hierarchical timing wheel (Varghese and Lauck, SOSP 1987,
//! Scheme 7): an entry stands at the highest base-64 digit in which its tick differs from the wheel's, in the slot
//! that this digit names, and goes down level by level as its tick comes near.
//!
//! | Level | A slot spans | The level spans |
//! |---|---|---|
//! | 0 | 1 ms | 64 ms |
//! | 1 | 64 ms | 4 s |
//! | 2 | 4 s | 4 min |
//! | 3 | 4 min | 4.7 h |
//! | 4 | 4.7 h | 12 days |
//! | 5 | 12 days | 2.2 years; it goes round |
//!
//! A script of the first edition keeps an older, lesser last tick: docs/SCRIPT.md.

#[cfg(all(test, feature = "std", feature = "all-parts"))]
pub use digits::span;
pub use digits::{digit, level_of, slot_start};
#[cfg(feature = "all-parts")]
pub use keys::{is_same_entry, is_same_key};
pub use keys::{EntryId, Key};
#[cfg(feature = "std")]
pub use lengths::{rounded_up, whole};
pub use words::{field, is_live, live_at, pack, stamp, unpack, Mark, Parts};

/// The levels of a wheel, one for each base-64 digit of a lap.
pub const LEVELS: usize = 6;

/// The slots of a level, one for each value of a digit.
pub const SLOTS: usize = 64;

/// The greatest tick, `2^42 - 1` milliseconds: some 139 years.
pub const LAST_TICK: u64 = 4398046511103;

/// How far ahead of its tick a wheel files at the most: `2^36 - 1` ticks, one less than the top level spans.
pub const REACH: u64 = 68719476735;

/// The most slots that a queue may have, and indexes that a wheel may have.
pub const CAPACITY_LIMIT: usize = 65536;

/// The greatest field of a word: each tick fits.
pub const LAST_FIELD: u64 = LAST_TICK;

/// The greatest stamp of a word, `2^20 - 1`.
pub const LAST_STAMP: u32 = 1048575;

/// Base-64 digits of ticks, and the levels, slots and starts that they name.
mod digits {
    use crate::ticks::{LEVELS, REACH};

    const TOP_SPAN: u64 = 1073741824;

    const LAP: u64 = REACH + 1;
    fn without_lowest(t: u64, places: usize) -> u64 {
        // requires places < LEVELS
        t >> (6 * places as u64)
    }

    /// The base-64 digit of `t` at a place, the lowest place being 0.
    #[inline]
    pub fn digit(t: u64, level: usize) -> u64 {
        // requires level < LEVELS
        without_lowest(t, level) % 64
    }

    /// How many ticks of one millisecond a slot of a level spans.
    #[inline]
    pub fn span(level: usize) -> u64 {
        // requires level < LEVELS
        1 << (6 * level as u64)
    }

    /// The level at which `when` stands, seen from the tick `now`: the highest place in which their digits differ, or
    /// the top level 5 where that is higher. None where they are equal, and `when` is due.
    #[inline]
    pub fn level_of(now: u64, when: u64) -> Option<usize> {
        // requires now ≤ when
        // requires when ≤ LAST_TICK
        // The highest bit in which they differ lies in the highest digit in which they differ.
        let differing = now ^ when;
        if differing == 0 {
            return None;
        }
        Some((differing.ilog2() as usize / 6).min(LEVELS - 1))
    }

    /// The tick at which a slot of a level starts, seen from the tick `now`. Below the top level it is `now` with its
    /// digit at that level set to `slot` and all lower digits 0. The top level goes round: there it is the least
    /// multiple of `2^30` after `now` with that digit, so that the slot of `now` itself comes last.
    #[inline]
    pub fn slot_start(now: u64, level: usize, slot: u64) -> u64 {
        // requires now ≤ LAST_TICK
        // requires level < LEVELS
        // requires slot < SLOTS
        if level == LEVELS - 1 {
            lap_start(now, slot)
        } else {
            without_lowest(now, level + 1) * span(level + 1) + slot * span(level)
        }
    }
    fn lap_start(now: u64, slot: u64) -> u64 {
        // requires now ≤ LAST_TICK
        // requires slot < SLOTS
        if digit(now, LEVELS - 1) < slot {
            now / LAP * LAP + slot * TOP_SPAN
        } else {
            (now / LAP + 1) * LAP + slot * TOP_SPAN
        }
    }
}

/// Words: a stamp, a mark and a field, packed into one `u64` in that order.
mod words {
    use crate::ticks::LAST_FIELD;

    const MARK_UNIT: u64 = LAST_FIELD + 1;

    const STAMP_UNIT: u64 = 4 * MARK_UNIT;

    /// How an entry stands.
    #[derive(Clone, Copy, PartialEq, Eq, Debug)]
    pub enum Mark {
        /// Waits for its deadline.
        LiveMark,
        /// Was cancelled by a caller.
        CancelledMark,
        /// Came out at its deadline.
        ExpiredMark,
        /// Was removed by the keeper.
        RemovedMark,
    }

    /// The parts of a word.
    #[derive(Clone, Copy, PartialEq, Eq, Debug)]
    pub struct Parts {
        /// At most [`LAST_STAMP`](crate::parts::owner::LAST_STAMP) in a word.
        pub stamp: u32,
        pub mark: Mark,
        /// A tick of one millisecond, at most `LAST_FIELD` in a word.
        pub field: u64,
    }

    fn number_of(mark: Mark) -> u64 {
        match mark {
            Mark::LiveMark => 0,
            Mark::CancelledMark => 1,
            Mark::ExpiredMark => 2,
            Mark::RemovedMark => 3,
        }
    }

    fn mark_at(number: u64) -> Mark {
        // requires number < 4
        match number {
            0 => Mark::LiveMark,
            1 => Mark::CancelledMark,
            2 => Mark::ExpiredMark,
            _ => Mark::RemovedMark,
        }
    }

    /// The word of its parts: 20 bits of stamp, 2 of mark, 42 of field.
    #[inline]
    pub fn pack(parts: Parts) -> u64 {
        // requires parts.stamp ≤ LAST_STAMP
        // requires parts.field ≤ LAST_FIELD
        u64::from(parts.stamp) * STAMP_UNIT + number_of(parts.mark) * MARK_UNIT + parts.field
    }

    /// The parts of a word: every `u64` is the word of exactly one triple.
    #[inline]
    pub fn unpack(word: u64) -> Parts {
        Parts {
            stamp: (word / STAMP_UNIT) as u32,
            mark: mark_at(word / MARK_UNIT % 4),
            field: word % MARK_UNIT,
        }
    }

    /// The stamp of a word.
    #[inline]
    pub fn stamp(word: u64) -> u32 {
        (word / STAMP_UNIT) as u32
    }

    /// The field of a word: its deadline, where it is live.
    #[inline]
    pub fn field(word: u64) -> u64 {
        word % MARK_UNIT
    }

    /// Whether a word's mark is live.
    #[inline]
    pub fn is_live(word: u64) -> bool {
        word / MARK_UNIT % 4 == 0
    }

    /// The deadline of a word that is live at a stamp, and None of every other word. The words that are live at a stamp
    /// are one run of numbers, in the order of their deadlines: so it takes one subtraction and one comparison.
    #[inline]
    pub fn live_at(word: u64, stamp: u32) -> Option<u64> {
        // requires stamp ≤ LAST_STAMP
        let deadline = word.wrapping_sub(u64::from(stamp) * STAMP_UNIT);
        if deadline > LAST_FIELD {
            return None;
        }
        Some(deadline)
    }
}

/// The names of entries and of their lives. Making one checks nothing: the calls that take a key do.
mod keys {
    use core::fmt;
    use core::fmt::{Debug, Formatter};

    pub(crate) const HALF_UNIT: u64 = 4294967296;

    /// An entry: its shard, its index there, and the stamp of its birth. Calls of a queue take it from a [`Key`].
    ///
    /// ```
    /// use hontkhale::parts::owner::{DelayCore, EntryId};
    ///
    /// let mut queue = DelayCore::with_capacity(4)?;
    /// let key = queue.insert_or_drop("value", 10)?;
    /// assert_eq!(key.entry(), EntryId::new(0, 0, 1));
    /// assert_eq!(queue.get(&key.entry()), Some(&"value"));
    /// # Ok::<(), hontkhale::parts::owner::CoreError>(())
    /// ```
    #[derive(Clone, Copy, PartialEq, Eq, PartialOrd, Ord, Hash)]
    pub struct EntryId {
        // Shard and index share a number, so that an id fits two registers.
        place: u64,
        born: u64,
    }

    impl EntryId {
        /// The entry of that shard and index that was born at that stamp.
        #[inline]
        pub fn new(shard: u32, index: u32, born: u32) -> EntryId {
            EntryId {
                place: u64::from(shard) * HALF_UNIT + u64::from(index),
                born: u64::from(born),
            }
        }

        /// The shard in which the entry stands.
        #[inline]
        pub fn shard(&self) -> u32 {
            (self.place / HALF_UNIT) as u32
        }

        /// The entry's index in its shard.
        #[inline]
        pub fn index(&self) -> u32 {
            (self.place % HALF_UNIT) as u32
        }

        /// The stamp of the entry's birth, which tells it from earlier entries at its index.
        #[inline]
        pub fn born(&self) -> u32 {
            self.born as u32
        }
    }

    /// Whether two entries are one: the same shard, the same index there and the same birth. The derived `==` says the
    /// same.
    #[inline]
    #[cfg(feature = "all-parts")]
    pub fn is_same_entry(one: EntryId, other: EntryId) -> bool {
        one.place == other.place && one.born == other.born
    }

    impl Debug for EntryId {
        fn fmt(&self, f: &mut Formatter<'_>) -> fmt::Result {
            f.debug_struct("EntryId")
                .field("shard", &self.shard())
                .field("index", &self.index())
                .field("born", &self.born())
                .finish()
        }
    }

    /// A key: an entry, and the stamp at which it is meant. A reset gives the entry a new stamp, and its old keys are
    /// stale.
    ///
    /// ```
    /// use hontkhale::parts::owner::{CallError, DelayCore};
    ///
    /// let mut queue = DelayCore::with_capacity(4)?;
    /// let old = queue.insert_or_drop("value", 10)?;
    /// let new = queue.reset(&old.entry(), 5)?;
    /// assert_eq!(new.entry(), old.entry());
    /// assert_eq!(queue.extend(&old, 20), Err(CallError::Stale { seen: new.stamp() }));
    /// # Ok::<(), hontkhale::parts::owner::CoreError>(())
    /// ```
    #[derive(Clone, Copy, PartialEq, Eq, PartialOrd, Ord, Hash)]
    pub struct Key {
        // Shard and index share a number, and so do birth and stamp, so that a key fits two registers.
        place: u64,
        stamps: u64,
    }

    impl Key {
        /// The key of that entry at that stamp.
        #[inline]
        pub fn new(entry: EntryId, stamp: u32) -> Key {
            Key {
                place: entry.place,
                stamps: entry.born * HALF_UNIT + u64::from(stamp),
            }
        }

        /// The entry that is meant.
        #[inline]
        pub fn entry(&self) -> EntryId {
            EntryId {
                place: self.place,
                born: self.stamps / HALF_UNIT,
            }
        }

        /// The stamp at which the entry is meant.
        #[inline]
        pub fn stamp(&self) -> u32 {
            (self.stamps % HALF_UNIT) as u32
        }
    }

    /// Whether two keys are one: the same entry, meant at the same stamp. The derived `==` says the same.
    #[inline]
    #[cfg(feature = "all-parts")]
    pub fn is_same_key(one: Key, other: Key) -> bool {
        one.place == other.place && one.stamps == other.stamps
    }

    impl Debug for Key {
        fn fmt(&self, f: &mut Formatter<'_>) -> fmt::Result {
            f.debug_struct("Key")
                .field("entry", &self.entry())
                .field("stamp", &self.stamp())
                .finish()
        }
    }
}

/// The keys that a program has. Each names an entry of a whole queue, which has shards.
#[cfg(feature = "std")]
pub mod names {
    use crate::ticks::keys::HALF_UNIT;
    use crate::ticks::{keys, CAPACITY_LIMIT, LAST_STAMP};
    use core::cmp::Ordering;
    use core::fmt;
    use core::fmt::{Debug, Formatter};
    use core::hash::{Hash, Hasher};

    const STAMP_COUNT: u64 = LAST_STAMP as u64 + 1;

    const INDEX_COUNT: u64 = CAPACITY_LIMIT as u64;

    /// The name of an entry of a [`DelayQueue`](crate::DelayQueue), from its insert to its end.
    ///
    /// A key may be copied, kept in maps and sent to other threads. It stays good whatever is done to its entry: after
    /// a reset too it is equal to what it was. A key of another queue is refused as
    /// [`WrongQueue`](crate::delay_queue::KeyError::WrongQueue), and never taken for an entry of this one. (Queues are
    /// told apart by 32 bits, so that the queue which is made 2³² queues later has the number again.)
    ///
    /// Its order is a fixed one, and tells nothing of the deadline.
    ///
    /// ```
    /// use hontkhale::DelayQueue;
    /// use std::collections::HashMap;
    /// use std::time::Duration;
    ///
    /// let queue = DelayQueue::new();
    /// let mut users = HashMap::new();
    /// let key = queue.insert("session", Duration::from_secs(30))?;
    /// users.insert(key, "ann");
    /// queue.reset(&key, Duration::ZERO)?;
    /// let expired = queue.recv().expect("it is due");
    /// assert_eq!(users[&expired.key], "ann");
    /// # Ok::<(), Box<dyn std::error::Error>>(())
    /// ```
    #[derive(Clone, Copy)]
    pub struct Key {
        // The number of the queue, and that of the core.
        place: u64,
        // The shard, the index, the birth, and the stamp that the entry had when the key was made.
        entry: u64,
    }

    impl Key {
        /// The key of an entry that a shard of a queue names by a key of its own.
        #[inline]
        pub(crate) fn of(queue: u32, shard: usize, key: &keys::Key) -> Key {
            // requires shard < shard_count
            // requires key.now.entry.index < index_count
            // requires key.now.entry.born ≤ LAST_STAMP
            // requires key.now.stamp ≤ LAST_STAMP
            let entry = key.entry();
            let name = shard as u64 * INDEX_COUNT + u64::from(entry.index());
            let born = name * STAMP_COUNT + u64::from(entry.born());
            Key {
                place: u64::from(queue) * HALF_UNIT + u64::from(entry.shard()),
                entry: born * STAMP_COUNT + u64::from(key.stamp()),
            }
        }

        /// The queue's number.
        #[inline]
        pub(crate) fn queue(&self) -> u32 {
            (self.place / HALF_UNIT) as u32
        }

        /// The shard's place in the queue.
        #[inline]
        pub(crate) fn shard(&self) -> usize {
            (self.entry / STAMP_COUNT / STAMP_COUNT / INDEX_COUNT) as usize
        }

        /// The number of the entry's core.
        #[inline(always)]
        pub(crate) fn number(&self) -> u32 {
            (self.place % HALF_UNIT) as u32
        }

        /// The entry, as its shard names it.
        #[inline]
        pub(crate) fn entry(&self) -> keys::EntryId {
            let index = (self.entry / STAMP_COUNT / STAMP_COUNT % INDEX_COUNT) as u32;
            let born = (self.entry / STAMP_COUNT % STAMP_COUNT) as u32;
            keys::EntryId::new(self.number(), index, born)
        }

        /// The shard's own key.
        #[inline]
        pub(crate) fn inner(&self) -> keys::Key {
            keys::Key::new(self.entry(), (self.entry % STAMP_COUNT) as u32)
        }

        // What is the same in all keys of the entry.
        #[inline]
        fn name(&self) -> (u64, u64) {
            (self.place, self.entry / STAMP_COUNT)
        }
    }

    impl PartialEq for Key {
        fn eq(&self, other: &Key) -> bool {
            self.name() == other.name()
        }
    }

    impl Eq for Key {}

    impl PartialOrd for Key {
        fn partial_cmp(&self, other: &Key) -> Option<Ordering> {
            Some(self.cmp(other))
        }
    }

    impl Ord for Key {
        fn cmp(&self, other: &Key) -> Ordering {
            self.name().cmp(&other.name())
        }
    }

    impl Hash for Key {
        fn hash<H: Hasher>(&self, state: &mut H) {
            self.name().hash(state);
        }
    }

    impl Debug for Key {
        fn fmt(&self, f: &mut Formatter<'_>) -> fmt::Result {
            let entry = self.entry();
            f.debug_struct("Key")
                .field("queue", &self.queue())
                .field("shard", &self.shard())
                .field("core", &entry.shard())
                .field("index", &entry.index())
                .field("born", &entry.born())
                .finish()
        }
    }
}

/// Lengths of time in ticks.
#[cfg(feature = "std")]
mod lengths {
    use crate::ticks::LAST_TICK;
    use std::time::Duration;

    const TICK_NANOS: u32 = 1_000_000;

    const ALMOST_A_TICK: u32 = TICK_NANOS - 1;

    /// The whole milliseconds of a length, and [`LAST_TICK`] where they are more.
    #[inline]
    pub fn whole(length: Duration) -> u64 {
        // Longer ones come to no end, and their milliseconds to no more than a number holds.
        let seconds = length.as_secs().min(LAST_TICK / 1_000 + 1);
        LAST_TICK.min(seconds * 1_000 + u64::from(length.subsec_millis()))
    }

    /// The first tick that isn't before the end of a length, or one beyond the last, and how many nanoseconds that end
    /// is before it. Each insert asks.
    #[inline(always)]
    pub fn rounded_up(length: Duration) -> (u64, u32) {
        if length.as_secs() > LAST_TICK / 1_000 {
            return (u64::MAX, 0);
        }
        // `div_ceil` looks at the remainder too, which takes a few instructions more.
        let millis = (length.subsec_nanos() + ALMOST_A_TICK) / TICK_NANOS;
        let early = millis * TICK_NANOS - length.subsec_nanos();
        (length.as_secs() * 1_000 + u64::from(millis), early)
    }
}

/// Why a call of a `DelayQueue` is refused.
#[cfg(feature = "std")]
pub mod refusals {
    use core::fmt;

    /// Why a [`DelayQueue`](crate::DelayQueue) doesn't take a value, or makes no room.
    #[derive(Clone, Copy, Debug, PartialEq, Eq)]
    #[non_exhaustive]
    pub enum InsertErrorKind {
        /// The queue was closed.
        Closed,
        /// The deadline is more than 139 years after the queue was made.
        TooFar,
        /// As many entries wait as the queue may have.
        Full,
        /// Memory was refused.
        NoMemory,
    }

    impl fmt::Display for InsertErrorKind {
        fn fmt(&self, f: &mut fmt::Formatter<'_>) -> fmt::Result {
            match self {
                InsertErrorKind::Closed => f.write_str("the queue is closed"),
                InsertErrorKind::TooFar => f.write_str("the deadline is too far"),
                InsertErrorKind::Full => f.write_str("the queue has as many entries as it may have"),
                InsertErrorKind::NoMemory => f.write_str("out of memory"),
            }
        }
    }

    #[cfg(feature = "std")]
    impl std::error::Error for InsertErrorKind {}

    /// Why a call by a [`Key`](crate::delay_queue::Key) is refused. Nothing changes then.
    #[derive(Clone, Copy, Debug, PartialEq, Eq)]
    #[non_exhaustive]
    pub enum KeyError {
        /// The key is of another queue.
        WrongQueue,
        /// The queue was dropped: a [`Handle`](crate::delay_queue::Handle) alone outlives it.
        Closed,
        /// The entry came out, or was removed, cancelled, drained or cleared.
        Ended,
        /// The deadline is more than 139 years after the queue was made.
        TooFar,
        /// Memory was refused.
        NoMemory,
    }

    impl fmt::Display for KeyError {
        fn fmt(&self, f: &mut fmt::Formatter<'_>) -> fmt::Result {
            match self {
                KeyError::WrongQueue => f.write_str("the key is of another queue"),
                KeyError::Closed => f.write_str("the queue was dropped"),
                KeyError::Ended => f.write_str("the entry has ended"),
                KeyError::TooFar => f.write_str("the deadline is too far"),
                KeyError::NoMemory => f.write_str("out of memory"),
            }
        }
    }

    #[cfg(feature = "std")]
    impl std::error::Error for KeyError {}

    /// Why a [`DelayQueue`](crate::DelayQueue) gives no entry to who doesn't wait.
    #[derive(Clone, Copy, Debug, PartialEq, Eq)]
    pub enum TryRecvError {
        /// Nothing that is due by now was found.
        Empty,
        /// The queue is closed, and nothing is due: nothing comes out any more.
        Closed,
    }

    impl fmt::Display for TryRecvError {
        fn fmt(&self, f: &mut fmt::Formatter<'_>) -> fmt::Result {
            match self {
                TryRecvError::Empty => f.write_str("nothing is due"),
                TryRecvError::Closed => f.write_str("the queue is closed"),
            }
        }
    }

    #[cfg(feature = "std")]
    impl std::error::Error for TryRecvError {}

    /// Why a [`DelayQueue`](crate::DelayQueue) gives no entry to who waits for a time.
    #[derive(Clone, Copy, Debug, PartialEq, Eq)]
    pub enum RecvTimeoutError {
        /// Nothing that is due was found in time.
        Timeout,
        /// The queue is closed, and nothing is due: nothing comes out any more.
        Closed,
    }

    impl fmt::Display for RecvTimeoutError {
        fn fmt(&self, f: &mut fmt::Formatter<'_>) -> fmt::Result {
            match self {
                RecvTimeoutError::Timeout => f.write_str("nothing came due in time"),
                RecvTimeoutError::Closed => f.write_str("the queue is closed"),
            }
        }
    }

    #[cfg(feature = "std")]
    impl std::error::Error for RecvTimeoutError {}
}
