use crate::budget::Streak;
use crate::shared_queue::{Expired, SharedQueue};
use crate::timer::Timer;
use futures_core::{ready, Stream};
use hontkhale::Receiver;
use std::fmt;
use std::future::poll_fn;
use std::pin::Pin;
use std::task::{Context, Poll};
use tokio::time::Instant;

/// What expires in a [`SharedQueue`], given to a task.
///
/// It is woken by tokio's timer, by a close, and by an insert or a reset that comes sooner, from any thread. Once
/// [`close_when_empty`](SharedQueue::close_when_empty) was called or every clone of the queue is dropped, whatever ends the last
/// entry wakes it, a cancel too. Any other cancel wakes nobody, and no extend does. Of several receivers one may also be woken as
/// another takes an entry or is dropped.
///
/// An entry is taken out as it is given, once: a stream, or a `next()` in a `select!`, that is dropped leaves all others in the
/// queue. Any number of streams and of threads may receive from one queue. It gives none once the queue is
/// [closed](SharedQueue::close) and nothing is due, or nothing waits and either `close_when_empty` was called or every clone of the
/// queue is dropped.
///
/// After 128 entries in a row, with no pending poll between them, a poll is pending and wakes its task at once, so that other
/// tasks have their turn.
///
/// The values of entries that were cancelled are dropped in its polls, while no lock is held and before an entry is in hand: a
/// drop may call the queue, and one that panics is lost alone. Wakers are called, cloned and dropped so, too.
///
/// ```
/// # #[tokio::main(flavor = "current_thread")]
/// # async fn main() -> Result<(), Box<dyn std::error::Error>> {
/// use hontkhale_tokio::SharedQueue;
/// use std::time::Duration;
///
/// let queue = SharedQueue::new();
/// let mut expired = queue.stream();
/// queue.insert("session", Duration::from_millis(5))?;
/// assert_eq!(expired.next().await.map(|out| out.value), Some("session"));
/// # Ok(()) }
/// ```
#[must_use = "a stream does nothing until it is polled"]
pub struct QueueStream<T> {
    receiver: Receiver<T>,
    timer: Timer,
    streak: Streak,
}

// No value is ever pinned.
impl<T> Unpin for QueueStream<T> {}

impl<T> QueueStream<T> {
    pub(crate) fn of(queue: &SharedQueue<T>) -> QueueStream<T> {
        let receiver = queue.get_ref().receiver();
        QueueStream { receiver, timer: Timer::default(), streak: Streak::default() }
    }

    /// The next entry that expires; none once the queue is [closed](SharedQueue::close) and nothing is due, or nothing waits and
    /// either [`close_when_empty`](SharedQueue::close_when_empty) was called or every clone of the queue is dropped.
    pub async fn next(&mut self) -> Option<Expired<T>> {
        poll_fn(|cx| Pin::new(&mut *self).poll_next(cx)).await
    }

    /// The queue that it receives from.
    pub fn queue(&self) -> SharedQueue<T> {
        self.receiver.queue().into()
    }

    fn poll_received(&mut self, cx: &mut Context<'_>) -> Poll<Option<Expired<T>>> {
        for _ in 0..2 {
            if let Poll::Ready(received) = self.receiver.poll_recv(cx) {
                self.timer.leave();
                return Poll::Ready(received.map(Expired::from));
            }
            match self.receiver.wake_at() {
                Some(when) => ready!(self.timer.poll_until(Instant::from_std(when), cx)),
                None => return Poll::Pending,
            }
        }
        // The queue's clock isn't tokio's, and is behind it: whoever advances it may be a task of this thread.
        give_way(cx)
    }
}

impl<T> Stream for QueueStream<T> {
    type Item = Expired<T>;

    fn poll_next(self: Pin<&mut Self>, cx: &mut Context<'_>) -> Poll<Option<Expired<T>>> {
        let stream = self.get_mut();
        stream.timer.note_task(cx.waker());
        let answer = if stream.streak.is_over() { give_way(cx) } else { stream.poll_received(cx) };
        match answer {
            Poll::Ready(Some(_)) => stream.streak.count(),
            Poll::Ready(None) => {}
            Poll::Pending => stream.streak.end(),
        }
        answer
    }
}

/// Wakes the task at once: other tasks run before it comes again.
fn give_way<E>(cx: &mut Context<'_>) -> Poll<E> {
    cx.waker().wake_by_ref();
    Poll::Pending
}

impl<T> fmt::Debug for QueueStream<T> {
    fn fmt(&self, f: &mut fmt::Formatter<'_>) -> fmt::Result {
        f.debug_struct("QueueStream").field("receiver", &self.receiver).finish_non_exhaustive()
    }
}
