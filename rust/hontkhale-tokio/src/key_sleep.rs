use crate::shared_queue::SharedQueue;
use crate::timer::Timer;
use futures_core::ready;
use hontkhale::{Key, KeyError};
use std::fmt;
use std::future::Future;
use std::pin::Pin;
use std::task::{Context, Poll};
use tokio::time::Instant;

/// Waits until an entry of a [`SharedQueue`] is due or gone, made by [`SharedQueue::sleep`].
///
/// It returns the entry's deadline once that is over: the entry is still there, and
/// [`remove_if_due`](SharedQueue::remove_if_due) takes it out. It takes nothing itself, so one that is dropped, in a `select!` or
/// a `timeout`, changes nothing, and another one waits as well. Any number of tasks may wait for one entry. It keeps its queue.
///
/// An entry that is extended or reset to a later deadline is waited for until then. A cancel, a removal and a reset to a sooner
/// deadline wake nobody: they are seen where the task polls for another reason, or at the deadline that was known before.
///
/// # Errors
/// In this order:
/// - `WrongQueue` if the key is another queue's.
/// - `Ended` if the entry came out, or was removed, cancelled, drained or cleared.
///
/// ```
/// # #[tokio::main(flavor = "current_thread", start_paused = true)]
/// # async fn main() -> Result<(), Box<dyn std::error::Error>> {
/// use hontkhale::KeyError;
/// use hontkhale_tokio::SharedQueue;
/// use tokio::time::{Duration, Instant};
///
/// let (leases, start) = (SharedQueue::new(), Instant::now());
/// let lease = leases.insert("lease", Duration::from_secs(30))?;
/// leases.extend(&lease, Duration::from_secs(60))?;
/// assert_eq!(leases.sleep(&lease).await?, start + Duration::from_secs(60));
/// assert_eq!(leases.remove_if_due(&lease)?, Some("lease"));
/// assert_eq!(leases.sleep(&lease).await, Err(KeyError::Ended));
/// # Ok(()) }
/// ```
#[must_use = "a future does nothing until it is awaited"]
pub struct KeySleep<T> {
    queue: SharedQueue<T>,
    key: Key,
    timer: Timer,
}

// No value is ever pinned.
impl<T> Unpin for KeySleep<T> {}

impl<T> KeySleep<T> {
    pub(crate) fn of(queue: &SharedQueue<T>, key: &Key) -> KeySleep<T> {
        KeySleep { queue: queue.clone(), key: *key, timer: Timer::default() }
    }

    /// The key of the entry.
    pub fn key(&self) -> Key {
        self.key
    }
}

impl<T> Future for KeySleep<T> {
    type Output = Result<Instant, KeyError>;

    fn poll(self: Pin<&mut Self>, cx: &mut Context<'_>) -> Poll<Result<Instant, KeyError>> {
        let sleep = self.get_mut();
        sleep.timer.note_task(cx.waker());
        loop {
            let deadline = sleep.queue.deadline(&sleep.key)?;
            if deadline <= Instant::now() {
                return Poll::Ready(Ok(deadline));
            }
            ready!(sleep.timer.poll_until(deadline, cx));
        }
    }
}

impl<T> fmt::Debug for KeySleep<T> {
    fn fmt(&self, f: &mut fmt::Formatter<'_>) -> fmt::Result {
        f.debug_struct("KeySleep").field("key", &self.key).finish_non_exhaustive()
    }
}
