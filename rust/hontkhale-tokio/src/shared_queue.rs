//! The queue of the crate hontkhale with tokio's clock and moments.

pub use crate::key_sleep::KeySleep;
pub use crate::stream::QueueStream;
use hontkhale::{Builder, DelayQueue};
#[doc(inline)]
pub use hontkhale::{InsertError, InsertErrorKind, Key, KeyError};
use std::fmt;
use std::time::Duration;
use tokio::time::Instant;

/// A [`hontkhale::DelayQueue`] whose clock and moments are tokio's: any number of tasks and threads insert, extend and receive.
///
/// Each call does what the call of the same name does there, whose errors and costs are told there. A clone is the same queue.
/// tokio's clock is the system's but where a test pauses it; then tasks see the pause, and a thread that waits doesn't.
///
/// ```
/// # #[tokio::main(flavor = "current_thread", start_paused = true)]
/// # async fn main() -> Result<(), Box<dyn std::error::Error>> {
/// use hontkhale_tokio::SharedQueue;
/// use tokio::time::{Duration, Instant};
///
/// let (leases, start) = (SharedQueue::new(), Instant::now());
/// let lease = leases.insert("lease", Duration::from_secs(30))?;
/// assert_eq!(leases.extend(&lease, Duration::from_secs(60))?, start + Duration::from_secs(60));
/// let expired = leases.stream().next().await.expect("the queue is open");
/// assert_eq!((expired.value, expired.deadline), ("lease", Instant::now()));
/// # Ok(()) }
/// ```
pub struct SharedQueue<T> {
    queue: DelayQueue<T>,
}

/// An entry that came out of a [`SharedQueue`].
#[derive(Debug)]
#[non_exhaustive]
pub struct Expired<T> {
    /// The key that its insert returned.
    pub key: Key,
    /// Its deadline, rounded up to the queue's milliseconds. Where that was over when it was given, it is a moment between
    /// then and the giving.
    pub deadline: Instant,
    /// Its value.
    pub value: T,
}

impl<T> SharedQueue<T> {
    /// An empty queue without a bound. It takes memory as entries come.
    #[must_use]
    pub fn new() -> SharedQueue<T> {
        SharedQueue::builder().build().into()
    }

    /// For a queue with a bound or another number of shards, of tokio's clock.
    ///
    /// ```
    /// use hontkhale_tokio::SharedQueue;
    ///
    /// let queue: SharedQueue<String> = SharedQueue::builder().max_entries(1_000).build().into();
    /// assert!(queue.is_empty());
    /// ```
    pub fn builder() -> Builder<T> {
        DelayQueue::builder().read_clock(|| Instant::now().into_std())
    }

    /// The queue with std's moments, which is the same queue: for its other calls, and for threads.
    pub fn get_ref(&self) -> &DelayQueue<T> {
        &self.queue
    }

    /// Puts a value in, to come out after `after`, and returns its key.
    ///
    /// # Errors
    /// Those of [`DelayQueue::insert`].
    pub fn insert(&self, value: T, after: Duration) -> Result<Key, InsertError<T>> {
        self.queue.insert(value, after)
    }

    /// Puts a value in, to come out at `when`, or at once if that is over, and returns its key.
    ///
    /// # Errors
    /// Those of [`DelayQueue::insert_at`].
    pub fn insert_at(&self, value: T, when: Instant) -> Result<Key, InsertError<T>> {
        self.queue.insert_at(value, when.into_std())
    }

    /// Puts in the value that `make` makes of its key, to come out after `after`, and returns the key.
    ///
    /// # Errors
    /// Those of [`DelayQueue::insert_with`].
    ///
    /// # Panics
    /// As [`DelayQueue::insert_with`].
    pub fn insert_with(&self, make: impl FnOnce(Key) -> T, after: Duration) -> Result<Key, InsertErrorKind> {
        self.queue.insert_with(make, after)
    }

    /// Returns what `read` makes of an entry's value, where the value is: the entry stays.
    ///
    /// # Errors
    /// Those of [`DelayQueue::get`].
    ///
    /// # Panics
    /// As [`DelayQueue::get`].
    pub fn get<R>(&self, key: &Key, read: impl FnOnce(&T) -> R) -> Result<R, KeyError> {
        self.queue.get(key, read)
    }

    /// Returns what `change` makes of an entry's value, which it may change where it is: the entry stays.
    ///
    /// # Errors
    /// Those of [`DelayQueue::get_mut`].
    ///
    /// # Panics
    /// As [`DelayQueue::get_mut`].
    pub fn get_mut<R>(&self, key: &Key, change: impl FnOnce(&mut T) -> R) -> Result<R, KeyError> {
        self.queue.get_mut(key, change)
    }

    /// Gives an entry the deadline `after` from now, sooner or later than the one that it has, and returns its key.
    ///
    /// # Errors
    /// Those of [`DelayQueue::reset`].
    pub fn reset(&self, key: &Key, after: Duration) -> Result<Key, KeyError> {
        self.queue.reset(key, after)
    }

    /// Gives an entry the deadline `when`, sooner or later than the one that it has, and returns its key.
    ///
    /// # Errors
    /// Those of [`DelayQueue::reset_at`].
    pub fn reset_at(&self, key: &Key, when: Instant) -> Result<Key, KeyError> {
        self.queue.reset_at(key, when.into_std())
    }

    /// Raises the deadline of an entry to `after` from now, without a lock, and returns the deadline that is then in force. An
    /// entry that is due and hasn't come out yet is put off, too: whoever wants to refuse that calls
    /// [`remove_if_due`](SharedQueue::remove_if_due) first. The moment of that call counts: an entry that comes due between the two
    /// calls is put off. So it is with a reset.
    ///
    /// # Errors
    /// Those of [`DelayQueue::extend`].
    pub fn extend(&self, key: &Key, after: Duration) -> Result<Instant, KeyError> {
        self.queue.extend(key, after).map(Instant::from_std)
    }

    /// Raises the deadline of an entry to `when`, without a lock, and returns the deadline that is then in force.
    ///
    /// # Errors
    /// Those of [`DelayQueue::extend_at`].
    pub fn extend_at(&self, key: &Key, when: Instant) -> Result<Instant, KeyError> {
        self.queue.extend_at(key, when.into_std()).map(Instant::from_std)
    }

    /// Cancels an entry, so that it won't come out, and returns the deadline that it gave up. Its value is dropped later.
    ///
    /// # Errors
    /// Those of [`DelayQueue::cancel`].
    pub fn cancel(&self, key: &Key) -> Result<Instant, KeyError> {
        self.queue.cancel(key).map(Instant::from_std)
    }

    /// Takes an entry out, and returns its value.
    ///
    /// # Errors
    /// Those of [`DelayQueue::remove`].
    pub fn remove(&self, key: &Key) -> Result<T, KeyError> {
        self.queue.remove(key)
    }

    /// Takes an entry out if its deadline is over by now, and returns its value.
    ///
    /// # Errors
    /// Those of [`DelayQueue::remove_if_due`].
    pub fn remove_if_due(&self, key: &Key) -> Result<Option<T>, KeyError> {
        self.queue.remove_if_due(key)
    }

    /// The deadline of an entry.
    ///
    /// # Errors
    /// Those of [`DelayQueue::deadline`].
    pub fn deadline(&self, key: &Key) -> Result<Instant, KeyError> {
        self.queue.deadline(key).map(Instant::from_std)
    }

    /// A moment that isn't after any deadline, none where no entry is there.
    pub fn next_deadline(&self) -> Option<Instant> {
        self.queue.next_deadline().map(Instant::from_std)
    }

    /// Takes out what waits, one entry after the other, in no promised order: each with its key, its deadline and its value, for
    /// a shutdown that saves it. What isn't taken stays in the queue.
    pub fn drain(&self) -> impl Iterator<Item = Expired<T>> + '_ {
        self.queue.drain().map(|(key, deadline, value)| Expired { key, deadline: Instant::from_std(deadline), value })
    }

    /// The number of entries that wait, or are due and didn't come out yet.
    pub fn len(&self) -> usize {
        self.queue.len()
    }

    /// Whether no entry waits.
    pub fn is_empty(&self) -> bool {
        self.queue.is_empty()
    }

    /// Closes the queue: from now on it takes no values, and its streams get what is due and then none.
    pub fn close(&self) {
        self.queue.close();
    }

    /// Closes the queue for inserts: its streams get what waits as it comes due, and then none.
    ///
    /// # Panics
    /// As [`DelayQueue::close_when_empty`].
    pub fn close_when_empty(&self) {
        self.queue.close_when_empty();
    }

    /// Whether the queue is closed.
    pub fn is_closed(&self) -> bool {
        self.queue.is_closed()
    }

    /// What expires, as a stream: see [`QueueStream`].
    pub fn stream(&self) -> QueueStream<T> {
        QueueStream::of(self)
    }

    /// Waits until an entry is due: see [`KeySleep`].
    pub fn sleep(&self, key: &Key) -> KeySleep<T> {
        KeySleep::of(self, key)
    }
}

impl<T: Send + 'static> SharedQueue<T> {
    /// What extends and cancels entries of this queue elsewhere, without its type.
    pub fn handle(&self) -> Handle {
        Handle { handle: self.queue.handle() }
    }
}

impl<T> From<DelayQueue<T>> for SharedQueue<T> {
    /// The same queue. Its clock has to be tokio's, or else the system's where nobody pauses tokio's: by any other its streams
    /// are polled on and on.
    fn from(queue: DelayQueue<T>) -> SharedQueue<T> {
        SharedQueue { queue }
    }
}

impl<T> From<hontkhale::Expired<T>> for Expired<T> {
    fn from(out: hontkhale::Expired<T>) -> Expired<T> {
        Expired { key: out.key, deadline: Instant::from_std(out.deadline), value: out.value }
    }
}

impl<T> Clone for SharedQueue<T> {
    fn clone(&self) -> SharedQueue<T> {
        SharedQueue { queue: self.queue.clone() }
    }
}

impl<T> Default for SharedQueue<T> {
    fn default() -> SharedQueue<T> {
        SharedQueue::new()
    }
}

impl<T> fmt::Debug for SharedQueue<T> {
    fn fmt(&self, f: &mut fmt::Formatter<'_>) -> fmt::Result {
        f.debug_tuple("SharedQueue").field(&self.queue).finish()
    }
}

/// Extends and cancels entries of a [`SharedQueue`], and tells their deadlines, without its type: a
/// [`hontkhale::Handle`] with tokio's moments. It doesn't keep its queue.
#[derive(Clone, Debug)]
pub struct Handle {
    handle: hontkhale::Handle,
}

impl Handle {
    /// Raises the deadline of an entry to `after` from now, without a lock, and returns the deadline that is then in force.
    ///
    /// # Errors
    /// Those of [`hontkhale::Handle::extend`].
    pub fn extend(&self, key: &Key, after: Duration) -> Result<Instant, KeyError> {
        self.handle.extend(key, after).map(Instant::from_std)
    }

    /// Raises the deadline of an entry to `when`, without a lock, and returns the deadline that is then in force.
    ///
    /// # Errors
    /// Those of [`hontkhale::Handle::extend_at`].
    pub fn extend_at(&self, key: &Key, when: Instant) -> Result<Instant, KeyError> {
        self.handle.extend_at(key, when.into_std()).map(Instant::from_std)
    }

    /// Cancels an entry, so that it won't come out, and returns the deadline that it gave up.
    ///
    /// # Errors
    /// Those of [`hontkhale::Handle::cancel`].
    pub fn cancel(&self, key: &Key) -> Result<Instant, KeyError> {
        self.handle.cancel(key).map(Instant::from_std)
    }

    /// The deadline of an entry.
    ///
    /// # Errors
    /// Those of [`hontkhale::Handle::deadline`].
    pub fn deadline(&self, key: &Key) -> Result<Instant, KeyError> {
        self.handle.deadline(key).map(Instant::from_std)
    }
}
