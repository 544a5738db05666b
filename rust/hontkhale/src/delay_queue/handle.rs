//! What reaches entries from elsewhere: a handle, which knows nothing of the values, and a guard of one entry.

use crate::delay_queue::errors::KeyError;
use crate::delay_queue::key::{Key, Step, Steps};
use crate::delay_queue::shared::{Common, Shared, IS_OVER};
use std::fmt;
use std::sync::{Arc, Weak};
use std::time::{Duration, Instant};

/// Extends and cancels entries of a [`DelayQueue`](crate::DelayQueue), and tells their deadlines, without its type and without a
/// lifetime.
///
/// It may be cloned and sent to any thread, and doesn't keep its queue: once that was dropped, each call returns
/// [`Closed`](KeyError::Closed). It keeps what it needs to make its calls without a lock, which is 8 bytes of the room for each
/// entry that the queue had.
#[derive(Clone)]
pub struct Handle {
    pub(crate) common: Arc<Common>,
    pub(crate) queue: Weak<dyn Steps>,
}

impl Handle {
    #[inline]
    fn tick_of(&self, key: &Key, step: Step) -> Result<u64, KeyError> {
        if self.common.is(IS_OVER) {
            return Err(KeyError::Closed);
        }
        let slowly = || self.queue()?.slow_step(key, step);
        let note_end = || self.queue().iter().for_each(|queue| queue.note_end());
        self.common.step(key, step, slowly, note_end)
    }

    fn queue(&self) -> Result<Arc<dyn Steps>, KeyError> {
        self.queue.upgrade().ok_or(KeyError::Closed)
    }

    fn step(&self, key: &Key, step: Step) -> Result<Instant, KeyError> {
        Ok(self.common.time.moment(self.tick_of(key, step)?))
    }

    /// Raises the deadline of an entry to `after` from now, and returns the deadline that is then in force: that one, or a
    /// later one that it had. It takes no lock and constant time; after a sooner reset of the entry it may take one. It puts off an
    /// entry that is due and hasn't come out yet, as [`DelayQueue::extend`](crate::DelayQueue::extend) does.
    ///
    /// # Errors
    /// In this order:
    /// - `Closed` if the queue was dropped.
    /// - `WrongQueue` if the key is another queue's.
    /// - `TooFar` if the deadline is more than 139 years after the queue was made.
    /// - `Ended` if the entry came out, or was removed, cancelled, drained or cleared.
    pub fn extend(&self, key: &Key, after: Duration) -> Result<Instant, KeyError> {
        self.step(key, Step::Extend(self.common.time.tick_in(after)))
    }

    /// Raises the deadline of an entry to `when`, and returns the deadline that is then in force: that one, or a later one
    /// that it had. It reads no clock. It takes no lock and constant time; after a sooner reset of the entry it may take one.
    ///
    /// # Errors
    /// In this order:
    /// - `Closed` if the queue was dropped.
    /// - `WrongQueue` if the key is another queue's.
    /// - `TooFar` if the deadline is more than 139 years after the queue was made.
    /// - `Ended` if the entry came out, or was removed, cancelled, drained or cleared.
    pub fn extend_at(&self, key: &Key, when: Instant) -> Result<Instant, KeyError> {
        let rounded = self.common.time.rounded(when);
        let deadline = self.tick_of(key, Step::Extend(rounded.0))?;
        Ok(self.common.time.moment_beside(deadline, rounded))
    }

    /// Cancels an entry, so that it won't come out, and returns the deadline that it gave up. Its value is dropped later, by
    /// the queue.
    ///
    /// # Errors
    /// In this order:
    /// - `Closed` if the queue was dropped.
    /// - `WrongQueue` if the key is another queue's.
    /// - `Ended` if the entry came out, or was removed, cancelled, drained or cleared.
    pub fn cancel(&self, key: &Key) -> Result<Instant, KeyError> {
        self.step(key, Step::Cancel)
    }

    /// Takes an entry out, and returns its value, of the type that the queue has. It takes the lock of the entry's shard for
    /// constant time, where [`cancel`](Handle::cancel) takes none and leaves the value to the queue.
    ///
    /// # Errors
    /// In this order:
    /// - `Closed` if the queue was dropped.
    /// - `WrongQueue` if the key is another queue's, or the queue's values are of another type.
    /// - `Ended` if the entry came out, or was removed, cancelled, drained or cleared.
    ///
    /// ```
    /// use hontkhale::{DelayQueue, KeyError};
    /// use std::time::Duration;
    ///
    /// let queue = DelayQueue::new();
    /// let key = queue.insert("request 7".to_string(), Duration::from_secs(5))?;
    /// let handle = queue.handle();
    /// assert_eq!(handle.take::<u64>(&key), Err(KeyError::WrongQueue));
    /// assert_eq!(handle.take::<String>(&key)?, "request 7");
    /// # Ok::<(), Box<dyn std::error::Error>>(())
    /// ```
    pub fn take<T: 'static>(&self, key: &Key) -> Result<T, KeyError> {
        let queue = self.queue()?;
        let shared = queue.as_any().downcast_ref::<Shared<T>>();
        shared.ok_or(KeyError::WrongQueue)?.remove(key)
    }

    /// The deadline of an entry.
    ///
    /// # Errors
    /// In this order:
    /// - `Closed` if the queue was dropped.
    /// - `WrongQueue` if the key is another queue's.
    /// - `Ended` if the entry came out, or was removed, cancelled, drained or cleared.
    pub fn deadline(&self, key: &Key) -> Result<Instant, KeyError> {
        self.step(key, Step::Look)
    }
}

impl fmt::Debug for Handle {
    fn fmt(&self, f: &mut fmt::Formatter<'_>) -> fmt::Result {
        f.debug_struct("Handle")
            .field("queue", &self.common.id)
            .finish_non_exhaustive()
    }
}

/// An entry that is taken out where this is dropped, with its value, as [`DelayQueue::guard`](crate::DelayQueue::guard) makes it:
/// the deadline of a request, of a connection, of a lease. Within the drop of another value of the same queue the value is
/// dropped after that.
///
/// ```
/// use hontkhale::DelayQueue;
/// use std::time::Duration;
///
/// let queue = DelayQueue::new();
/// {
///     let timeout = queue.guard("request 7", Duration::from_secs(5))?;
///     timeout.extend(Duration::from_secs(10))?;
/// }
/// assert!(queue.is_empty());
/// # Ok::<(), Box<dyn std::error::Error>>(())
/// ```
#[must_use = "the entry is taken out where this is dropped"]
pub struct Timeout<T> {
    shared: Option<Arc<Shared<T>>>,
    key: Key,
}

impl<T> Timeout<T> {
    pub(crate) fn new(shared: &Arc<Shared<T>>, key: Key) -> Timeout<T> {
        let shared = Some(Arc::clone(shared));
        Timeout { shared, key }
    }

    /// The entry's key.
    pub fn key(&self) -> Key {
        self.key
    }

    /// Raises the deadline to `after` from now, and returns the deadline that is then in force: that one, or a later one that
    /// it had. It takes no lock. Like a reset it puts off a value that is due and hasn't come out yet.
    ///
    /// # Errors
    /// In this order:
    /// - `TooFar` if the deadline is more than 139 years after the queue was made.
    /// - `Ended` if the value came out, or the entry was removed, cancelled, drained or cleared.
    pub fn extend(&self, after: Duration) -> Result<Instant, KeyError> {
        self.shared()?.extend(&self.key, after)
    }

    /// Raises the deadline to `when`, and returns the deadline that is then in force: that one, or a later one that it had. It
    /// reads no clock, and takes no lock.
    ///
    /// # Errors
    /// In this order:
    /// - `TooFar` if the deadline is more than 139 years after the queue was made.
    /// - `Ended` if the value came out, or the entry was removed, cancelled, drained or cleared.
    pub fn extend_at(&self, when: Instant) -> Result<Instant, KeyError> {
        self.shared()?.extend_at(&self.key, when)
    }

    /// Gives the deadline `after` from now, sooner or later than the one that it has. It takes the lock of one shard.
    ///
    /// # Errors
    /// Nothing changes then. In this order:
    /// - `TooFar` if the deadline is more than 139 years after the queue was made.
    /// - `Ended` if the value came out, or the entry was removed, cancelled, drained or cleared.
    /// - `NoMemory` if the entry's slot is worn, the shard has no room, and memory is refused.
    ///
    /// ```
    /// use hontkhale::DelayQueue;
    /// use std::time::Duration;
    ///
    /// let queue = DelayQueue::new();
    /// let mut timeout = queue.guard("request 7", Duration::from_secs(60))?;
    /// timeout.reset(Duration::ZERO)?;
    /// assert_eq!(queue.recv().map(|late| late.value), Some("request 7"));
    /// # Ok::<(), Box<dyn std::error::Error>>(())
    /// ```
    pub fn reset(&mut self, after: Duration) -> Result<(), KeyError> {
        let shared = self.shared()?;
        self.key = shared.reset(&self.key, shared.common.time.tick_in(after))?;
        Ok(())
    }

    /// Gives the deadline `when`, sooner or later than the one that it has. It reads no clock, unless it wakes a receiver, and
    /// takes the lock of one shard.
    ///
    /// # Errors
    /// Nothing changes then. In this order:
    /// - `TooFar` if the deadline is more than 139 years after the queue was made.
    /// - `Ended` if the value came out, or the entry was removed, cancelled, drained or cleared.
    /// - `NoMemory` if the entry's slot is worn, the shard has no room, and memory is refused.
    pub fn reset_at(&mut self, when: Instant) -> Result<(), KeyError> {
        let shared = self.shared()?;
        self.key = shared.reset(&self.key, shared.common.time.tick_at(when))?;
        Ok(())
    }

    /// The deadline.
    ///
    /// # Errors
    /// In this order:
    /// - `Ended` if the value came out, or the entry was removed, cancelled, drained or cleared.
    pub fn deadline(&self) -> Result<Instant, KeyError> {
        self.shared()?.step_to_moment(&self.key, Step::Look)
    }

    fn shared(&self) -> Result<&Shared<T>, KeyError> {
        self.shared.as_deref().ok_or(KeyError::Ended)
    }

    /// Takes the value back, none if it came out, or the entry was removed, cancelled, drained or cleared.
    pub fn cancel(mut self) -> Option<T> {
        self.shared.take()?.remove(&self.key).ok()
    }

    /// Leaves the entry in the queue, and returns its key.
    pub fn forget(mut self) -> Key {
        self.shared = None;
        self.key
    }
}

impl<T> Drop for Timeout<T> {
    fn drop(&mut self) {
        // The value is dropped here: what it holds, such as a socket, is wanted no longer.
        if let Some(shared) = &self.shared {
            let removed = shared.remove(&self.key);
            let _ = removed.map(|value| shared.deferred.drop_value(value));
        }
    }
}
