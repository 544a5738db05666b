//! One queue for any number of threads: values go in with a delay, and come out when it is over.
//!
//! [`DelayQueue`] is what most programs need of this crate. It grows and shrinks with its entries, and its receivers are woken in
//! time. The cores and the words that it stands over are proved, as the crate's front page tells; what is here, by which threads
//! share them, wait, and find their entries, is written by hand and tested.

mod builder;
mod dropping;
mod errors;
mod growth;
mod handle;
mod key;
mod receive;
mod receiver;
mod shard;
mod shared;
mod stats;
mod time;
mod waking;

pub use builder::Builder;
pub use errors::{InsertError, InsertErrorKind, KeyError, RecvTimeoutError, TryRecvError};
pub use handle::{Handle, Timeout};
pub use key::Key;
pub use receive::{Drain, Iter, TryIter};
pub use receiver::Receiver;
pub use stats::{Metrics, Stats};
pub use time::ManualClock;

use crate::bell::NEVER;
use crate::locks::with_lock;
use dropping::{go_on, lose};
use key::{refused, Lends, Step};
use shard::Way;
use shared::{Shared, REFUSES};
use std::mem;
use std::sync::atomic::Ordering::SeqCst;
use std::sync::{Arc, Weak};
use std::thread;
use std::time::{Duration, Instant};

/// Values with deadlines, for any number of threads: each value comes out when its deadline is over.
///
/// ```
/// use hontkhale::DelayQueue;
/// use std::thread;
/// use std::time::Duration;
///
/// let queue = DelayQueue::new();
/// let receiver = queue.clone();
/// let closes = thread::spawn(move || {
///     let mut closed = Vec::new();
///     while let Some(expired) = receiver.recv() {
///         closed.push(expired.value);
///     }
///     closed
/// });
///
/// let ann = queue.insert("ann's session", Duration::from_millis(10))?;
/// queue.insert("bob's session", Duration::from_millis(20))?;
/// queue.extend(&ann, Duration::from_secs(60))?;
/// thread::sleep(Duration::from_millis(100));
/// queue.close();
/// assert_eq!(closes.join().unwrap(), ["bob's session"]);
/// # Ok::<(), Box<dyn std::error::Error>>(())
/// ```
///
/// A clone is the same queue. Every call takes `&self`, and any thread may make it at any time.
///
/// # Deadlines
/// A deadline is rounded up to whole milliseconds from the queue's making, or from a [moment](Builder::ticks_from) that is
/// told, and nothing comes out before it. A deadline that is over is due at once. Of several entries that are due the order
/// is that of their deadlines, as far as they stand in one shard. A receive takes from the shard that is due first. Where another
/// thread holds its lock, this receive and at most 15 of its thread after it take from others that are due. A deadline may be up
/// to 139 years after the queue's making.
///
/// # Cost
/// [`extend`](DelayQueue::extend), [`cancel`](DelayQueue::cancel), [`deadline`](DelayQueue::deadline) and a
/// [`reset`](DelayQueue::reset) to a deadline that isn't sooner take no lock, no memory and constant time, whichever thread makes
/// them. [`insert`](DelayQueue::insert), a sooner reset and [`remove`](DelayQueue::remove) take the lock of one shard for constant
/// time. An insert or a removal may do a bounded part of what keeps the queue of the right size besides, and takes memory where
/// the queue grows.
///
/// # Memory
/// A queue takes room for twice what waits. It gives it back as that gets less, a part at most with each receive or removal: what
/// the last entries leave goes as a receiver looks again. But 8 bytes stay of each *slot*, which is the room for one entry. A slot
/// serves a million inserts and sooner resets, and its 8 bytes then stay as long as the queue.
///
/// # Odd input
/// | Input | What it comes to |
/// |---|---|
/// | a time of zero, or a moment that is over, of an insert, a guard or a reset | the entry is due at once |
/// | the same of an extend | a deadline that is later stays; an earlier one is raised to that moment, and the entry is due |
/// | [`Duration::MAX`], or any deadline of more than 139 years | `TooFar` |
/// | [`Duration::MAX`] of [`recv_timeout`](DelayQueue::recv_timeout) or [`wait_empty`](DelayQueue::wait_empty) | it waits for ever |
/// | a time of zero, or a moment that is over, of these and of [`recv_deadline`](DelayQueue::recv_deadline) | it doesn't wait |
/// | an insert, a guard or an [`insert_with`](DelayQueue::insert_with) after a close | `Closed`: the value comes back, or none is made |
/// | a call by key, [`len`](DelayQueue::len), [`stats`](DelayQueue::stats), [`drain`](DelayQueue::drain) or [`clear`](DelayQueue::clear) after a close | as before it |
/// | a receive after a close | what is due, then none, or `Closed` |
/// | a second close of either kind | [`close`](DelayQueue::close) counts |
/// | a bound of 0 entries | each insert is refused as `Full` |
///
/// # Who drops values
/// The values of entries that were cancelled are dropped by whoever receives, before an entry is in hand, by
/// [`drain`](DelayQueue::drain) and [`clear`](DelayQueue::clear), and with the last clone, as are those that are left then.
/// No insert drops a value, or waits for a drop, while its thread's shard has room: so its caller may hold a lock that a drop
/// takes. Where it has none an insert first frees cancelled entries and drops their values. So does a sooner reset of an entry
/// whose slot has served a million inserts and sooner resets.
///
/// # What a value's drop may do
/// The queue holds no lock while it drops a value, so a drop may call the queue. What these calls free in their turn is
/// dropped after it, so that the stack holds one drop of the queue at a time. If the drop calls another queue, that one's
/// values are dropped within that call. A drop that panics passes through the call that made it; no entry but the dropped one
/// is lost, though a value that was handed to [`insert`](DelayQueue::insert) is dropped with the call. A later call drops
/// what was to be dropped after the one that panicked.
///
/// # A suspended machine, and `fork`
/// The clock is [`Instant`], which stands while Linux is suspended (`CLOCK_MONOTONIC`, and not `CLOCK_BOOTTIME`): what is due
/// meanwhile comes out that much later. A child of `fork` may not use a queue that was made before it: a lock that another
/// thread held at that moment stays held there, and a call hangs. `exec` is fine.
///
/// # The end
/// [`close`](DelayQueue::close) ends the receivers, and [`close_when_empty`](DelayQueue::close_when_empty) does once nothing
/// waits. The drop of the last clone does that too, for the [`Receiver`]s that are left. The queue is dropped with its last
/// clone, receiver and [`Timeout`]; a [`Handle`] says [`Closed`](KeyError::Closed) then.
pub struct DelayQueue<T> {
    shared: Arc<Shared<T>>,
}

/// An entry that came out.
#[derive(Debug)]
#[non_exhaustive]
pub struct Expired<T> {
    /// The key that its insert returned.
    pub key: Key,
    /// Its deadline, rounded up to the queue's milliseconds. Where that was over when it was given, it is a moment between
    /// then and the giving.
    pub deadline: Instant,
    /// Its value.
    pub value: T,
}

impl<T> DelayQueue<T> {
    /// An empty queue without a bound. It takes memory as entries come.
    #[must_use]
    pub fn new() -> DelayQueue<T> {
        DelayQueue::builder().build()
    }

    /// For a queue with a bound, another number of shards, or a clock for tests.
    pub fn builder() -> Builder<T> {
        Builder::new()
    }

    /// Puts a value in, to come out after `after`, and returns its key. A receiver that waits for a later one is woken.
    ///
    /// It reads the clock, and takes the lock of one shard for constant time. While the shard of its thread has room it drops
    /// nobody's value and waits for nobody's drop. Where it has none it frees cancelled entries and drops their values, before its
    /// own entry is in, or takes memory for more.
    ///
    /// # Errors
    /// The value comes back. In this order:
    /// - `TooFar` if the deadline is more than 139 years after the queue was made.
    /// - `Closed` if the queue was closed.
    /// - `Full` if as many entries wait as the queue may have.
    /// - `NoMemory` if the queue has to grow and memory is refused.
    ///
    /// ```
    /// use hontkhale::DelayQueue;
    /// use std::time::Duration;
    ///
    /// let queue = DelayQueue::new();
    /// let key = queue.insert("session", Duration::from_secs(30))?;
    /// assert_eq!(queue.remove(&key)?, "session");
    /// # Ok::<(), Box<dyn std::error::Error>>(())
    /// ```
    #[inline]
    pub fn insert(&self, value: T, after: Duration) -> Result<Key, InsertError<T>> {
        self.shared.insert(value, self.shared.common.time.tick_in(after))
    }

    /// Puts a value in, to come out at `when`, or at once if that is over, and returns its key. A receiver that waits for a
    /// later one is woken, and else no clock is read. It takes the lock of one shard for constant time. Of others' values it drops
    /// what [`insert`](DelayQueue::insert) does.
    ///
    /// # Errors
    /// The value comes back. In this order:
    /// - `TooFar` if the deadline is more than 139 years after the queue was made.
    /// - `Closed` if the queue was closed.
    /// - `Full` if as many entries wait as the queue may have.
    /// - `NoMemory` if the queue has to grow and memory is refused.
    #[inline]
    pub fn insert_at(&self, value: T, when: Instant) -> Result<Key, InsertError<T>> {
        self.shared.insert(value, self.shared.common.time.tick_at(when))
    }

    /// Puts in the value that `make` makes of its key, to come out after `after`, and returns the key: for a value that knows its
    /// key, such as a table's record. It reads the clock, and takes the lock of one shard.
    ///
    /// `make` is called at most once, and not where the insert is refused before there is room. It is called while the shard's
    /// lock is held, so it is to be short, and nobody else has the key before it returns. Where it panics nothing was put in. Two
    /// threads whose closures call queues may wait for each other for ever, as with any two locks.
    ///
    /// # Errors
    /// In this order:
    /// - `TooFar` if the deadline is more than 139 years after the queue was made.
    /// - `Closed` if the queue was closed. If it was while the value was made, that is dropped.
    /// - `Full` if as many entries wait as the queue may have.
    /// - `NoMemory` if the queue has to grow and memory is refused.
    ///
    /// # Panics
    /// If `make` makes a call of this queue that wants the lock which is held: any call that inserts, receives, takes out or tells
    /// of entries may. It never waits for itself.
    ///
    /// ```
    /// use hontkhale::{DelayQueue, Key};
    /// use std::time::Duration;
    ///
    /// struct Session {
    ///     key: Key,
    ///     name: &'static str,
    /// }
    ///
    /// let queue = DelayQueue::new();
    /// let key = queue.insert_with(|key| Session { key, name: "ann" }, Duration::from_secs(30))?;
    /// let session = queue.remove(&key)?;
    /// assert_eq!((session.key, session.name), (key, "ann"));
    /// # Ok::<(), Box<dyn std::error::Error>>(())
    /// ```
    pub fn insert_with(&self, make: impl FnOnce(Key) -> T, after: Duration) -> Result<Key, InsertErrorKind> {
        let shared = &*self.shared;
        let tick = shared.common.time.tick_in(after);
        let _lends = Lends(shared);
        let (counted, mut shard) = shared.room_for_one(tick)?;
        let next = shard.next_key();
        let value = with_lock(&mut *shard, shared.common.id as usize, |_| make(next));
        let inserted = shard.entries.insert(value, tick).0;
        let key = shard.came_in(inserted);
        // The contracts say that an insert may give that key. Which one it gives of several is the order of the free slots,
        // of which no contract speaks.
        assert!(next == key, "an insert takes the slot that is told as the next");
        mem::forget(counted);
        shared.is_in(shard, key).map_err(|value| {
            shared.deferred.drop_value(value);
            InsertErrorKind::Closed
        })
    }

    /// Returns what `read` makes of an entry's value, where the value is: the entry stays. An entry that is due and hasn't come out
    /// yet is read too. It takes the lock of the entry's shard.
    ///
    /// `read` is called at most once, while the shard's lock is held, so it is to be short. Two threads whose closures call queues
    /// may wait for each other for ever, as with any two locks.
    ///
    /// # Errors
    /// In this order:
    /// - `WrongQueue` if the key is another queue's.
    /// - `Ended` if the entry came out, or was removed, cancelled, drained or cleared.
    ///
    /// # Panics
    /// If `read` panics, which changes nothing, or makes a call of this queue that wants the lock which is held. So may the waker
    /// of a receiver that it wakes, as by a close.
    ///
    /// ```
    /// use hontkhale::DelayQueue;
    /// use std::time::Duration;
    ///
    /// let queue = DelayQueue::new();
    /// let key = queue.insert("session".to_string(), Duration::from_secs(30))?;
    /// queue.get_mut(&key, |name| name.push_str(" 7"))?;
    /// assert_eq!(queue.get(&key, |name| name.len())?, 9);
    /// # Ok::<(), Box<dyn std::error::Error>>(())
    /// ```
    pub fn get<R>(&self, key: &Key, read: impl FnOnce(&T) -> R) -> Result<R, KeyError> {
        self.get_mut(key, |value| read(value))
    }

    /// Returns what `change` makes of an entry's value, which it may change where it is: the entry stays. It takes the lock of the
    /// entry's shard.
    ///
    /// `change` is called at most once, while the shard's lock is held, so it is to be short. What it drops is dropped under the
    /// lock, and whom it wakes, as by a close, is woken there. Two threads whose closures call queues may wait for each other for
    /// ever, as with any two locks.
    ///
    /// # Errors
    /// In this order:
    /// - `WrongQueue` if the key is another queue's.
    /// - `Ended` if the entry came out, or was removed, cancelled, drained or cleared.
    ///
    /// # Panics
    /// If `change` panics, and the value stays as it left it; or if it makes a call of this queue that wants the lock which is
    /// held.
    pub fn get_mut<R>(&self, key: &Key, change: impl FnOnce(&mut T) -> R) -> Result<R, KeyError> {
        let _lends = Lends(&self.shared);
        let (mut shard, entry) = (self.shared.lock_of(key)?, key.entry());
        shard.entries.deadline(&entry).map_err(refused)?;
        let made = with_lock(&mut *shard, key.queue() as usize, |shard| {
            shard.entries.with_value(&entry, change)
        });
        Ok(made.expect("a live entry"))
    }

    /// Puts a value in, to come out after `after`, and returns a guard. If the guard is dropped before the value came out,
    /// the value is taken out and dropped. It reads the clock, and takes the lock of one shard for constant time. Of others'
    /// values it drops what [`insert`](DelayQueue::insert) does.
    ///
    /// # Errors
    /// The value comes back. In this order:
    /// - `TooFar` if the deadline is more than 139 years after the queue was made.
    /// - `Closed` if the queue was closed.
    /// - `Full` if as many entries wait as the queue may have.
    /// - `NoMemory` if the queue has to grow and memory is refused.
    ///
    /// ```
    /// use hontkhale::DelayQueue;
    /// use std::time::Duration;
    ///
    /// let queue = DelayQueue::new();
    /// let timeout = queue.guard("request 7", Duration::from_secs(5))?;
    /// // The request is answered here.
    /// assert_eq!(timeout.cancel(), Some("request 7"));
    /// assert!(queue.is_empty());
    /// # Ok::<(), Box<dyn std::error::Error>>(())
    /// ```
    pub fn guard(&self, value: T, after: Duration) -> Result<Timeout<T>, InsertError<T>> {
        self.insert(value, after).map(|key| Timeout::new(&self.shared, key))
    }

    /// Puts a value in, to come out at `when`, or at once if that is over, and returns a guard, as
    /// [`guard`](DelayQueue::guard) does. It reads no clock, unless it wakes a receiver.
    ///
    /// # Errors
    /// The value comes back. In this order:
    /// - `TooFar` if the deadline is more than 139 years after the queue was made.
    /// - `Closed` if the queue was closed.
    /// - `Full` if as many entries wait as the queue may have.
    /// - `NoMemory` if the queue has to grow and memory is refused.
    pub fn guard_at(&self, value: T, when: Instant) -> Result<Timeout<T>, InsertError<T>> {
        self.insert_at(value, when).map(|key| Timeout::new(&self.shared, key))
    }

    /// Gives an entry the deadline `after` from now, sooner or later than the one that it has. It reads the clock. Where the
    /// deadline isn't sooner it takes no lock, and the key stays as it is. Else it takes the lock of the entry's shard for constant
    /// time, and returns the entry's key, which is equal to the old one; the old one serves as well, but an
    /// [`extend`](DelayQueue::extend) by it takes a lock from then on. It puts off an entry that is due, as an extend does.
    ///
    /// # Errors
    /// Nothing changes then. In this order:
    /// - `WrongQueue` if the key is another queue's.
    /// - `TooFar` if the deadline is more than 139 years after the queue was made.
    /// - `Ended` if the entry came out, or was removed, cancelled, drained or cleared.
    /// - `NoMemory` if the entry's slot is worn, the shard has no room, and memory is refused.
    #[inline]
    pub fn reset(&self, key: &Key, after: Duration) -> Result<Key, KeyError> {
        self.shared.reset(key, self.shared.common.time.tick_in(after))
    }

    /// Gives an entry the deadline `when`, sooner or later than the one that it has. Where the deadline isn't sooner it reads no
    /// clock and takes no lock, and the key stays as it is. Else it takes the lock of the entry's shard for constant time, and
    /// returns the entry's key, which is equal to the old one; the old one serves as well, but an
    /// [`extend`](DelayQueue::extend) by it takes a lock from then on. It puts off an entry that is due, as an extend does.
    ///
    /// # Errors
    /// Nothing changes then. In this order:
    /// - `WrongQueue` if the key is another queue's.
    /// - `TooFar` if the deadline is more than 139 years after the queue was made.
    /// - `Ended` if the entry came out, or was removed, cancelled, drained or cleared.
    /// - `NoMemory` if the entry's slot is worn, the shard has no room, and memory is refused.
    #[inline]
    pub fn reset_at(&self, key: &Key, when: Instant) -> Result<Key, KeyError> {
        self.shared.reset(key, self.shared.common.time.tick_at(when))
    }

    /// Raises the deadline of an entry to `after` from now, and returns the deadline that is then in force: that one, or a
    /// later one that it had. It reads the clock. It takes constant time and no lock, but by a key from before a sooner reset, or
    /// of an entry that the queue has moved.
    ///
    /// An entry that is due and hasn't come out yet is put off, too. Whoever wants to refuse that calls
    /// [`remove_if_due`](DelayQueue::remove_if_due) first. The moment of that call counts: an entry that comes due between the two
    /// calls is put off. An extend is accepted after a close, too.
    ///
    /// # Errors
    /// In this order:
    /// - `WrongQueue` if the key is another queue's.
    /// - `TooFar` if the deadline is more than 139 years after the queue was made.
    /// - `Ended` if the entry came out, or was removed, cancelled, drained or cleared.
    ///
    /// ```
    /// use hontkhale::DelayQueue;
    /// use std::time::Duration;
    ///
    /// let queue = DelayQueue::new();
    /// let key = queue.insert("session", Duration::from_millis(1))?;
    /// let deadline = queue.extend(&key, Duration::from_secs(60))?;
    /// assert_eq!(queue.extend(&key, Duration::ZERO)?, deadline);
    /// assert_eq!(queue.deadline(&key)?, deadline);
    /// # Ok::<(), Box<dyn std::error::Error>>(())
    /// ```
    #[inline]
    pub fn extend(&self, key: &Key, after: Duration) -> Result<Instant, KeyError> {
        self.shared.extend(key, after)
    }

    /// Raises the deadline of an entry to `when`, and returns the deadline that is then in force: that one, or a later one
    /// that it had. It reads no clock. It takes constant time and no lock, but by a key from before a sooner reset, or of an entry
    /// that the queue has moved. It puts off an entry that is due, as [`extend`](DelayQueue::extend) does.
    ///
    /// # Errors
    /// In this order:
    /// - `WrongQueue` if the key is another queue's.
    /// - `TooFar` if the deadline is more than 139 years after the queue was made.
    /// - `Ended` if the entry came out, or was removed, cancelled, drained or cleared.
    #[inline]
    pub fn extend_at(&self, key: &Key, when: Instant) -> Result<Instant, KeyError> {
        self.shared.extend_at(key, when)
    }

    /// Cancels an entry, so that it won't come out, and returns the deadline that it gave up. Its value is dropped later: by
    /// a receiver in a quiet moment or when the entry would have been due, by [`drain`](DelayQueue::drain) or
    /// [`clear`](DelayQueue::clear), by an insert for which no slot is free, or with the queue.
    /// [`remove`](DelayQueue::remove) returns the value at once, and takes a lock.
    ///
    /// # Errors
    /// In this order:
    /// - `WrongQueue` if the key is another queue's.
    /// - `Ended` if the entry came out, or was removed, cancelled, drained or cleared.
    pub fn cancel(&self, key: &Key) -> Result<Instant, KeyError> {
        self.shared.step_to_moment(key, Step::Cancel)
    }

    /// Takes an entry out, and returns its value. It takes the lock of the entry's shard for constant time.
    ///
    /// # Errors
    /// In this order:
    /// - `WrongQueue` if the key is another queue's.
    /// - `Ended` if the entry came out, or was removed, cancelled, drained or cleared.
    pub fn remove(&self, key: &Key) -> Result<T, KeyError> {
        self.shared.remove(key)
    }

    /// Takes an entry out if its deadline is over by now, and returns its value. It returns none where the entry isn't due,
    /// which then stays as it is. So a reader ends what is over before a receiver comes to it: of those who want the entry
    /// one gets it. An [`extend`](DelayQueue::extend) that was accepted counts: the entry isn't taken out before the deadline
    /// that it returned.
    ///
    /// Where the entry isn't due it takes a lock only as [`deadline`](DelayQueue::deadline) does.
    ///
    /// # Errors
    /// In this order:
    /// - `WrongQueue` if the key is another queue's.
    /// - `Ended` if the entry came out, or was removed, cancelled, drained or cleared.
    ///
    /// ```
    /// use hontkhale::{DelayQueue, KeyError, ManualClock};
    /// use std::time::Duration;
    ///
    /// let clock = ManualClock::new();
    /// let cache = DelayQueue::builder().clock(&clock).build();
    /// let key = cache.insert("page", Duration::from_secs(30))?;
    /// assert_eq!(cache.remove_if_due(&key)?, None);
    /// clock.advance(Duration::from_secs(30));
    /// assert_eq!(cache.remove_if_due(&key)?, Some("page"));
    /// assert_eq!(cache.remove_if_due(&key), Err(KeyError::Ended));
    /// # Ok::<(), Box<dyn std::error::Error>>(())
    /// ```
    pub fn remove_if_due(&self, key: &Key) -> Result<Option<T>, KeyError> {
        let shared = &*self.shared;
        let now = shared.common.time.tick();
        if shared.step(key, Step::Look)? > now {
            return Ok(None);
        }
        let mut shard = shared.lock_of(key)?;
        let due = shard.entries.remove_if_due(&key.entry(), now);
        let Some(removed) = due.map_err(refused)? else {
            return Ok(None);
        };
        shard.counts.left -= 1;
        let left = shard.counts.left;
        shard.entries.note_left(left);
        shared.leave(shard, 1);
        Ok(Some(removed.value))
    }

    /// The deadline of an entry. It takes constant time and no lock, but by a key from before a sooner reset, or of an entry that
    /// the queue has moved.
    ///
    /// # Errors
    /// In this order:
    /// - `WrongQueue` if the key is another queue's.
    /// - `Ended` if the entry came out, or was removed, cancelled, drained or cleared.
    pub fn deadline(&self, key: &Key) -> Result<Instant, KeyError> {
        self.shared.step_to_moment(key, Step::Look)
    }

    /// Takes an entry out that is due, and waits until one is. It returns none once the queue is closed and nothing is due.
    ///
    /// Any number of threads may receive. One of them sleeps until the next deadline, the others until they are next. The
    /// values of cancelled entries are dropped here, before an entry is in hand.
    ///
    /// ```
    /// use hontkhale::DelayQueue;
    /// use std::time::Duration;
    ///
    /// let queue = DelayQueue::new();
    /// queue.insert("late", Duration::from_millis(20))?;
    /// queue.insert("early", Duration::from_millis(10))?;
    /// assert_eq!(queue.recv().map(|expired| expired.value), Some("early"));
    /// assert_eq!(queue.recv().map(|expired| expired.value), Some("late"));
    /// queue.close();
    /// assert!(queue.recv().is_none());
    /// # Ok::<(), Box<dyn std::error::Error>>(())
    /// ```
    pub fn recv(&self) -> Option<Expired<T>> {
        self.shared.receive(None).ok()
    }

    /// Takes an entry out that is due, and waits at most that long until one is: for ever where no clock reaches that moment,
    /// as with [`Duration::MAX`]. With a time of zero it doesn't wait, and looks no further than a
    /// [`try_recv`](DelayQueue::try_recv). The time is counted by the queue's clock: with a
    /// [`ManualClock`] it passes by [`advance`](ManualClock::advance) alone, which wakes whoever waits.
    ///
    /// # Errors
    /// - `Timeout` if none was found in time.
    /// - `Closed` if the queue is closed and nothing is due.
    ///
    /// ```
    /// use hontkhale::{DelayQueue, RecvTimeoutError};
    /// use std::time::Duration;
    ///
    /// let queue = DelayQueue::new();
    /// queue.insert("session", Duration::from_secs(30))?;
    /// let soon = Duration::from_millis(1);
    /// assert_eq!(queue.recv_timeout(soon).unwrap_err(), RecvTimeoutError::Timeout);
    /// queue.close();
    /// assert_eq!(queue.recv_timeout(soon).unwrap_err(), RecvTimeoutError::Closed);
    /// # Ok::<(), Box<dyn std::error::Error>>(())
    /// ```
    pub fn recv_timeout(&self, timeout: Duration) -> Result<Expired<T>, RecvTimeoutError> {
        self.shared.receive_within(timeout)
    }

    /// Takes an entry out that is due, and waits until `when` at most, by the queue's clock. Where that is over it doesn't wait,
    /// and looks no further than a [`try_recv`](DelayQueue::try_recv).
    ///
    /// # Errors
    /// - `Timeout` if none was found in time.
    /// - `Closed` if the queue is closed and nothing is due.
    pub fn recv_deadline(&self, when: Instant) -> Result<Expired<T>, RecvTimeoutError> {
        self.shared.receive(Some(when))
    }

    /// Takes an entry out that is due now. It takes the locks of those shards alone in which something may be due.
    ///
    /// A call ends though something may be due behind many entries that don't come out: it goes over 2,048 cancelled ones at most,
    /// or drops as many values, and over some thousands that have a later deadline. Then it returns `Empty`, and the next call goes
    /// on there. [`try_iter`](DelayQueue::try_iter) goes on until nothing is due.
    ///
    /// # Errors
    /// - `Empty` if nothing that is due by now was found.
    /// - `Closed` if the queue is closed and nothing is due.
    ///
    /// ```
    /// use hontkhale::{DelayQueue, TryRecvError};
    /// use std::time::Duration;
    ///
    /// let queue = DelayQueue::new();
    /// queue.insert("session", Duration::from_secs(30))?;
    /// assert_eq!(queue.try_recv().unwrap_err(), TryRecvError::Empty);
    /// queue.close();
    /// assert_eq!(queue.try_recv().unwrap_err(), TryRecvError::Closed);
    /// # Ok::<(), Box<dyn std::error::Error>>(())
    /// ```
    pub fn try_recv(&self) -> Result<Expired<T>, TryRecvError> {
        self.shared.try_receive()
    }

    /// Appends entries that are due to a row, at most so many, and returns how many. It waits until there is one, and takes
    /// several under one lock. It returns 0 where `most` is 0, or once the queue is closed and nothing is due.
    ///
    /// ```
    /// use hontkhale::DelayQueue;
    /// use std::time::Duration;
    ///
    /// let queue = DelayQueue::new();
    /// for number in 0..100 {
    ///     queue.insert(number, Duration::ZERO)?;
    /// }
    /// let mut row = Vec::new();
    /// while row.len() < 100 {
    ///     queue.recv_many(&mut row, 64);
    /// }
    /// assert_eq!(row.iter().map(|expired| expired.value).sum::<u64>(), 4_950);
    /// # Ok::<(), Box<dyn std::error::Error>>(())
    /// ```
    pub fn recv_many(&self, row: &mut Vec<Expired<T>>, most: usize) -> usize {
        self.shared.receive_many(row, most)
    }

    /// Appends entries that are due now to a row, at most so many, and returns how many. It takes several under one lock. It
    /// returns 0 only where `most` is 0. As a [`try_recv`](DelayQueue::try_recv) it leaves a rest to the next call, so it may
    /// return fewer than are due.
    ///
    /// # Errors
    /// - `Empty` if nothing that is due by now was found.
    /// - `Closed` if the queue is closed and nothing is due.
    pub fn try_recv_many(&self, row: &mut Vec<Expired<T>>, most: usize) -> Result<usize, TryRecvError> {
        self.shared.try_receive_many(row, most)
    }

    /// What comes out, one entry after the other, until the queue is closed: each step is a [`recv`](DelayQueue::recv).
    pub fn iter(&self) -> Iter<'_, T> {
        Iter { shared: &self.shared }
    }

    /// What is due now, one entry after the other, until nothing is due. A step may take longer than a
    /// [`try_recv`](DelayQueue::try_recv).
    pub fn try_iter(&self) -> TryIter<'_, T> {
        TryIter { shared: &self.shared }
    }

    /// What receives in the place of a clone, in a thread or a task, and ends once nothing is inserted any more and nothing
    /// waits: see [`Receiver`].
    pub fn receiver(&self) -> Receiver<T> {
        Receiver::new(&self.shared)
    }

    /// The number of entries that wait, or are due and didn't come out yet.
    ///
    /// While other threads change the queue it is about that number, and never too small: each entry that stays there during
    /// the call is counted. One that comes or ends meanwhile may be counted too.
    pub fn len(&self) -> usize {
        self.shared.common.waiting()
    }

    /// Whether no entry waits. While other threads change the queue it tells that about as [`len`](DelayQueue::len) does: it may
    /// be false though none is left, and is never true while an entry stays there.
    pub fn is_empty(&self) -> bool {
        self.len() == 0
    }

    /// A moment that isn't after any deadline, none where no entry is there. It is the first deadline, or an earlier one that
    /// was extended, reset or cancelled since; where all deadlines are more than two years away it is an earlier moment too. It
    /// takes the lock of the shards that may have it, and may look at each of their entries.
    pub fn next_deadline(&self) -> Option<Instant> {
        let first = self.shared.first_filed_before(NEVER)?;
        Some(self.shared.common.time.moment(first))
    }

    /// What a server watches: how much came and went, how much waits, how late it is, and what is held. It takes the lock of each
    /// shard in turn.
    ///
    /// ```
    /// use hontkhale::{DelayQueue, ManualClock};
    /// use std::time::Duration;
    ///
    /// let clock = ManualClock::new();
    /// let queue = DelayQueue::builder().clock(&clock).build();
    /// queue.insert("session", Duration::from_secs(1))?;
    /// clock.advance(Duration::from_secs(3));
    /// let stats = queue.stats();
    /// assert_eq!((stats.waiting, stats.late), (1, Duration::from_secs(2)));
    /// # Ok::<(), Box<dyn std::error::Error>>(())
    /// ```
    pub fn stats(&self) -> Stats {
        self.shared.stats()
    }

    /// Begins `latest` and `lateness` of the [`stats`](DelayQueue::stats) anew. It takes the lock of each shard in turn.
    pub fn reset_lateness(&self) {
        self.shared
            .locked()
            .for_each(|mut shard| shard.counts.begin_late_anew());
    }

    /// Takes memory for so many entries in all, those that wait among them, and keeps it for good. While fewer wait, no
    /// insert takes memory or is refused as NoMemory, and none waits until the queue has grown, but for two cases. Entries
    /// that were cancelled hold their slots until their values are dropped. And slots that have served a million inserts and
    /// sooner resets each are replaced by others. A larger number counts from then on, and a smaller one changes nothing.
    ///
    /// # Errors
    /// - Full beyond the queue's bound, or beyond the 4 million entries a shard that a queue may grow to.
    /// - NoMemory where memory is refused. The queue goes on as before.
    ///
    /// ```
    /// use hontkhale::{DelayQueue, InsertErrorKind};
    ///
    /// let queue: DelayQueue<u64> = DelayQueue::builder().max_entries(100_000).build();
    /// queue.reserve(100_000)?;
    /// assert_eq!(queue.reserve(100_001), Err(InsertErrorKind::Full));
    /// # Ok::<(), Box<dyn std::error::Error>>(())
    /// ```
    pub fn reserve(&self, entries: usize) -> Result<(), InsertErrorKind> {
        self.shared.reserve(entries)
    }

    /// Takes out all that waits, and drops it, with the values of cancelled entries. It returns how many entries waited. Within
    /// the drop of another value of the queue these are dropped after it.
    pub fn clear(&self) -> usize {
        self.drain()
            .map(|(.., value)| self.shared.deferred.drop_value(value))
            .count()
    }

    /// Takes out what waits, one entry after the other, in no promised order: its key, its deadline and its value, for a
    /// shutdown that saves it. What isn't taken stays in the queue. What is inserted meanwhile may be among them.
    ///
    /// ```
    /// use hontkhale::DelayQueue;
    /// use std::time::Duration;
    ///
    /// let queue = DelayQueue::new();
    /// let key = queue.insert("session", Duration::from_secs(30))?;
    /// queue.close();
    /// let saved: Vec<_> = queue.drain().map(|(key, _, value)| (key, value)).collect();
    /// assert_eq!(saved, [(key, "session")]);
    /// # Ok::<(), Box<dyn std::error::Error>>(())
    /// ```
    pub fn drain(&self) -> Drain<'_, T> {
        Drain {
            shared: &self.shared,
            at: 0,
            way: Way::BEGIN,
            moved: None,
        }
    }

    /// Closes the queue: from now on it takes no values, and its receivers get what is due and then none. What waits stays
    /// there, for [`drain`](DelayQueue::drain). An insert that another thread makes meanwhile is refused, or its entry is there,
    /// too.
    ///
    /// # Panics
    /// If a task's waker panics. All receivers are woken before.
    pub fn close(&self) {
        let common = &self.shared.common;
        common.state.fetch_or(REFUSES, SeqCst);
        go_on(common.end());
    }

    /// Closes the queue for inserts: from now on it takes no values. Its receivers get what waits as it comes due, and then none:
    /// they end once nothing waits, be it received, removed or cancelled. An insert that another thread makes meanwhile is
    /// refused, or its entry comes out too. Extends and resets are still accepted, so an entry that is extended again and again
    /// keeps the receivers; [`close`](DelayQueue::close) ends them all the same.
    ///
    /// # Panics
    /// If a task's waker panics. All receivers are woken before.
    ///
    /// ```
    /// use hontkhale::DelayQueue;
    /// use std::time::Duration;
    ///
    /// let queue = DelayQueue::new();
    /// queue.insert("late", Duration::from_millis(20))?;
    /// queue.insert("early", Duration::from_millis(10))?;
    /// queue.close_when_empty();
    /// assert!(queue.insert("another", Duration::ZERO).is_err());
    /// let values: Vec<_> = queue.iter().map(|expired| expired.value).collect();
    /// assert_eq!(values, ["early", "late"]);
    /// # Ok::<(), Box<dyn std::error::Error>>(())
    /// ```
    pub fn close_when_empty(&self) {
        go_on(self.shared.close_when_empty());
    }

    /// Waits until no entry waits, at most for `timeout`, and returns whether that came: each came out, or was removed or
    /// cancelled. Whoever received the last of them may be at work on it yet. It waits for ever where no clock reaches that
    /// moment, as with [`Duration::MAX`], and with a time of zero it only looks. The time is counted by the queue's clock: with a
    /// [`ManualClock`] it passes by
    /// [`advance`](ManualClock::advance) alone, which wakes whoever waits. It takes the lock of each shard in turn.
    ///
    /// Others may insert again before it returns: after [`close_when_empty`](DelayQueue::close_when_empty) nobody does.
    ///
    /// ```
    /// use hontkhale::DelayQueue;
    /// use std::thread;
    /// use std::time::Duration;
    ///
    /// let queue = DelayQueue::new();
    /// let request = queue.insert("request 7", Duration::from_secs(60))?;
    /// queue.close_when_empty();
    /// assert!(!queue.wait_empty(Duration::from_millis(1)));
    /// let handle = queue.handle();
    /// let answers = thread::spawn(move || handle.cancel(&request));
    /// assert!(queue.wait_empty(Duration::MAX));
    /// # answers.join().unwrap()?;
    /// # Ok::<(), Box<dyn std::error::Error>>(())
    /// ```
    pub fn wait_empty(&self, timeout: Duration) -> bool {
        let time = &self.shared.common.time;
        // A moment that no clock reaches is waited for without end.
        let until = time.now().checked_add(timeout);
        // Whoever ends the last entry after a look finds this thread in the list, and wakes it.
        let _asks = self.shared.common.ask();
        loop {
            let is_over = until.is_some_and(|until| until <= time.now());
            if self.shared.is_surely_empty() {
                return true;
            }
            if is_over {
                return false;
            }
            time.park(until);
        }
    }

    /// Whether inserts are refused, since the queue was closed, at once or for when it is empty.
    pub fn is_closed(&self) -> bool {
        self.shared.common.is(REFUSES)
    }

    /// One clone more, which may insert.
    pub(crate) fn of(shared: &Arc<Shared<T>>) -> DelayQueue<T> {
        shared.common.inserters.fetch_add(1, SeqCst);
        let shared = Arc::clone(shared);
        DelayQueue { shared }
    }
}

impl<T: Send + 'static> DelayQueue<T> {
    /// What extends and cancels entries of this queue elsewhere, without its type. Any number of handles may be made.
    ///
    /// ```
    /// use hontkhale::{DelayQueue, KeyError};
    /// use std::time::Duration;
    ///
    /// let queue = DelayQueue::new();
    /// let key = queue.insert("session", Duration::from_secs(30))?;
    /// let handle = queue.handle();
    /// handle.extend(&key, Duration::from_secs(60))?;
    /// drop(queue);
    /// assert_eq!(handle.extend(&key, Duration::from_secs(90)), Err(KeyError::Closed));
    /// # Ok::<(), Box<dyn std::error::Error>>(())
    /// ```
    pub fn handle(&self) -> Handle {
        let queue: Weak<Shared<T>> = Arc::downgrade(&self.shared);
        let common = Arc::clone(&self.shared.common);
        Handle { common, queue }
    }
}

impl<T> Clone for DelayQueue<T> {
    fn clone(&self) -> DelayQueue<T> {
        DelayQueue::of(&self.shared)
    }
}

impl<T> Drop for DelayQueue<T> {
    /// With the last clone nobody inserts any more.
    fn drop(&mut self) {
        if self.shared.common.inserters.fetch_sub(1, SeqCst) == 1 {
            let ended = self.shared.close_when_empty();
            let then = if thread::panicking() { lose } else { go_on };
            then(ended);
        }
    }
}

impl<T> Default for DelayQueue<T> {
    fn default() -> DelayQueue<T> {
        DelayQueue::new()
    }
}

impl<'q, T> IntoIterator for &'q DelayQueue<T> {
    type Item = Expired<T>;
    type IntoIter = Iter<'q, T>;

    fn into_iter(self) -> Iter<'q, T> {
        self.iter()
    }
}
