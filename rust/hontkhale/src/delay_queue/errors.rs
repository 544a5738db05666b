//! Why a call is refused.

use std::error::Error;
use std::fmt;

pub use crate::ticks::refusals::{InsertErrorKind, KeyError, RecvTimeoutError, TryRecvError};

/// An insert that was refused, with the value.
///
/// It is an [`Error`] whatever the value is, so `?` makes a `Box<dyn Error>` of it. As with std's
/// [`SendError`](std::sync::mpsc::SendError), a `Box<dyn Error + Send + Sync>` takes a value that is `Send + Sync`.
///
/// ```
/// use hontkhale::{DelayQueue, InsertErrorKind};
/// use std::time::Duration;
///
/// let queue = DelayQueue::builder().max_entries(1).build();
/// queue.insert("first", Duration::from_secs(1))?;
/// let refused = queue.insert("second", Duration::from_secs(1)).unwrap_err();
/// assert_eq!(refused.kind(), InsertErrorKind::Full);
/// assert_eq!(refused.into_inner(), "second");
/// # Ok::<(), Box<dyn std::error::Error>>(())
/// ```
#[derive(Clone, Copy, PartialEq, Eq)]
pub struct InsertError<T> {
    kind: InsertErrorKind,
    value: T,
}

impl<T> InsertError<T> {
    pub(crate) fn new(kind: InsertErrorKind, value: T) -> InsertError<T> {
        InsertError { kind, value }
    }

    /// Why the value was refused.
    pub fn kind(&self) -> InsertErrorKind {
        self.kind
    }

    /// The value.
    pub fn into_inner(self) -> T {
        self.value
    }
}

impl<T> fmt::Display for InsertError<T> {
    fn fmt(&self, f: &mut fmt::Formatter<'_>) -> fmt::Result {
        self.kind.fmt(f)
    }
}

impl<T> Error for InsertError<T> {}
