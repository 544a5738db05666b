use crate::key::Key;
use crate::shared::Shared;
use hontkhale::parts::owner::{OpenWords, LAST_TICK};
use std::error::Error;
use std::fmt;
use std::sync::Arc;
use std::time::Duration;
use tokio::time::Instant;

/// Extends and cancels the entries of one [`DelayQueue`](crate::DelayQueue) from any thread, while its owner inserts,
/// polls, or waits. It serves entries that came after it, too, and may outlive its queue, whose entries have ended then.
///
/// A call is a load and one atomic step. A lock is taken for an entry that was reset before the queue's first handle was made, or
/// to a sooner deadline since, or that was moved: [`compact`](crate::DelayQueue::compact) and a worn slot move entries. The owner
/// holds that lock for the moment of such a call.
///
/// A handle that outlives its queue holds on to 8 bytes for each slot that the queue had.
///
/// Nobody is woken: the owner comes upon an extended entry when it would have been due, and files it anew. No value is
/// dropped by a handle's call.
///
/// ```
/// # #[tokio::main(flavor = "current_thread")]
/// # async fn main() {
/// use hontkhale_tokio::DelayQueue;
/// use std::time::Duration;
/// let mut sessions = DelayQueue::new();
/// let handle = sessions.handle();
/// let key = sessions.insert("ann", Duration::from_secs(30));
/// std::thread::spawn(move || handle.extend(&key, Duration::from_secs(60))).join().unwrap().unwrap();
/// # }
/// ```
#[derive(Clone)]
pub struct Handle {
    pub(crate) shared: Arc<Shared>,
}

/// Why a call on an entry is refused.
#[derive(Clone, Copy, Debug, PartialEq, Eq)]
#[non_exhaustive]
pub enum EntryError {
    /// The deadline is too far ahead: some 139 years after the queue was made.
    TooFar,
    /// The entry came out, was removed or cancelled, or the queue isn't there any more.
    Ended,
}

impl Handle {
    /// Raises the deadline of an entry to `timeout` from now, and returns the deadline that is then in force: that one, or
    /// a later one that it had. No extend that was accepted is lost. An entry that is due and hasn't come out yet is put off,
    /// too. It reads the clock, and makes one atomic step.
    ///
    /// # Errors
    /// In this order:
    /// - `TooFar` if the deadline would be more than 139 years after the queue's making.
    /// - `Ended` if the entry came out, was removed or cancelled, or its queue has gone.
    #[inline]
    pub fn extend(&self, key: &Key, timeout: Duration) -> Result<Instant, EntryError> {
        self.extend_to(key, self.shared.clock.tick_after(timeout))
    }

    /// Raises the deadline of an entry to `when`, and returns the deadline that is then in force: `when`, or a later one
    /// that it had. No extend that was accepted is lost. It makes one atomic step, and reads no clock: a moment that was read once
    /// serves for many entries.
    ///
    /// # Errors
    /// In this order:
    /// - `TooFar` if `when` is more than 139 years after the queue's making.
    /// - `Ended` if the entry came out, was removed or cancelled, or its queue has gone.
    #[inline]
    pub fn extend_at(&self, key: &Key, when: Instant) -> Result<Instant, EntryError> {
        self.extend_to(key, self.shared.clock.tick_at(when))
    }

    #[inline]
    fn extend_to(&self, key: &Key, tick: u64) -> Result<Instant, EntryError> {
        if tick > LAST_TICK {
            return Err(EntryError::TooFar);
        }
        let extended = self.shared.step(key, |words, key| words.extend(key, tick));
        let deadline = extended.ok_or(EntryError::Ended)?;
        Ok(self.shared.clock.moment(deadline))
    }

    /// Cancels an entry, and returns the deadline that it gave up. It never comes out; the queue's next poll drops its value
    /// and frees its place, and until then it counts in [`len`](crate::DelayQueue::len).
    ///
    /// # Errors
    /// `Ended` if the entry came out, was removed or cancelled, or its queue has gone.
    ///
    /// ```
    /// # #[tokio::main(flavor = "current_thread")]
    /// # async fn main() {
    /// # use hontkhale_tokio::{DelayQueue, EntryError};
    /// let mut requests = DelayQueue::new();
    /// let handle = requests.handle();
    /// let key = requests.insert("a request", std::time::Duration::from_secs(2));
    /// assert!(handle.cancel(&key).is_ok());
    /// assert_eq!(handle.cancel(&key), Err(EntryError::Ended));
    /// assert!(requests.try_remove(&key).is_none());
    /// # }
    /// ```
    pub fn cancel(&self, key: &Key) -> Result<Instant, EntryError> {
        let deadline = self.shared.step(key, OpenWords::cancel).ok_or(EntryError::Ended)?;
        self.shared.tell_cancel(key);
        Ok(self.shared.clock.moment(deadline))
    }
}

impl fmt::Debug for Handle {
    fn fmt(&self, f: &mut fmt::Formatter<'_>) -> fmt::Result {
        f.debug_struct("Handle").finish_non_exhaustive()
    }
}

impl fmt::Display for EntryError {
    fn fmt(&self, f: &mut fmt::Formatter<'_>) -> fmt::Result {
        match self {
            EntryError::TooFar => write!(f, "the deadline is too far ahead"),
            EntryError::Ended => write!(f, "the entry has ended"),
        }
    }
}

impl Error for EntryError {}
