//! Connections that time out while no byte moves, with one queue and one task for all of them.

use crate::shared_queue::{QueueStream, SharedQueue};
use hontkhale::{InsertErrorKind, Key};
use std::io::{self, ErrorKind, IoSlice};
use std::mem;
use std::panic::{catch_unwind, AssertUnwindSafe};
use std::pin::Pin;
use std::sync::atomic::{AtomicBool, Ordering::SeqCst};
use std::sync::{Arc, Mutex, MutexGuard, PoisonError};
use std::task::{Context, Poll, Waker};
use std::time::Duration;
use tokio::io::{AsyncRead, AsyncWrite, ReadBuf};
use tokio::time::Instant;

/// The idle timeouts of any number of connections: one queue, and one task that ends those on which no byte moved for a while.
///
/// ```
/// # #[tokio::main(flavor = "current_thread", start_paused = true)]
/// # async fn main() -> std::io::Result<()> {
/// use hontkhale_tokio::IdleTimeouts;
/// use std::io::ErrorKind;
/// use std::time::Duration;
/// use tokio::io::{duplex, AsyncReadExt, AsyncWriteExt};
///
/// let timeouts = IdleTimeouts::new();
/// let (mut client, server) = duplex(64);
/// let mut server = timeouts.wrap(server, Duration::from_secs(30));
/// client.write_all(b"ping").await?;
/// server.read_exact(&mut [0; 4]).await?;
/// let refused = server.read_u8().await.unwrap_err();
/// assert_eq!(refused.kind(), ErrorKind::TimedOut);
/// # Ok(()) }
/// ```
///
/// A clone is the same owner. The task is spawned by the first [`wrap`](IdleTimeouts::wrap), in its runtime, and ends once the
/// owner, its clones and all connections are gone. If its runtime ends before, the next `wrap` spawns the task anew; until then
/// nothing times out. A connection may be used in any runtime.
#[derive(Clone, Debug, Default)]
pub struct IdleTimeouts {
    /// The connections have clones of it and the task has none, so the task ends with them.
    queue: SharedQueue<Arc<Waits>>,
    has_task: Arc<AtomicBool>,
}

/// Whether there is a task, which has this.
struct Runs(Arc<AtomicBool>);

impl IdleTimeouts {
    /// An owner without connections.
    #[must_use]
    pub fn new() -> IdleTimeouts {
        IdleTimeouts::default()
    }

    /// Gives a connection, or any other reader and writer, an idle timeout: see [`IdleTimeout`]. It reads the clock, takes the
    /// lock of one shard of the queue for constant time, and takes memory for the connection's entry.
    ///
    /// - `after` is rounded up to milliseconds. Each connection may have another one.
    /// - A zero timeout is over at once: what is called before the task comes to it is made, and all else errs.
    /// - A timeout that ends more than 139 years after the owner's making, such as [`Duration::MAX`], never ends.
    ///
    /// # Panics
    /// If it is called outside of a runtime and no task runs, if memory is refused, or if 3 million connections a processor, of
    /// up to 16 processors, are there already.
    pub fn wrap<IO>(&self, io: IO, after: Duration) -> IdleTimeout<IO> {
        if !self.has_task.load(SeqCst) && !self.has_task.swap(true, SeqCst) {
            let runs = Runs(Arc::clone(&self.has_task));
            tokio::spawn(end_idle_ones(self.queue.stream(), runs));
        }
        let (timeouts, waits) = (self.clone(), Arc::<Waits>::default());
        let place = timeouts.place(&waits, after);
        IdleTimeout { io, entry: Entry { timeouts, place, after, waits } }
    }

    /// A connection's key and deadline, none where that is too far.
    fn place(&self, waits: &Arc<Waits>, after: Duration) -> Option<(Key, Instant)> {
        let deadline = Instant::now().checked_add(after)?;
        match self.queue.insert_at(Arc::clone(waits), deadline) {
            Ok(key) => Some((key, deadline)),
            Err(refused) if refused.kind() == InsertErrorKind::TooFar => None,
            Err(refused) => panic!("an idle timeout has no place: {refused}"),
        }
    }
}

impl Drop for Runs {
    fn drop(&mut self) {
        self.0.store(false, SeqCst);
    }
}

async fn end_idle_ones(mut idle: QueueStream<Arc<Waits>>, _runs: Runs) {
    while let Some(expired) = idle.next().await {
        expired.value.end();
        // A thread may have left a waker there meanwhile.
        caught(|| drop(expired));
    }
}

/// Makes a call of the program's code. A panic ends here, so that the other connections go on.
fn caught(call: impl FnOnce()) {
    if let Err(panic) = catch_unwind(AssertUnwindSafe(call)) {
        // Its value may panic as it is dropped.
        let _ = catch_unwind(AssertUnwindSafe(|| drop(panic))).map_err(mem::forget);
    }
}

/// What a connection and the task share.
#[derive(Debug, Default)]
struct Waits {
    is_over: AtomicBool,
    reader: WakerCell,
    writer: WakerCell,
}

impl Waits {
    /// Makes a call while time isn't over. One that is pending errs as soon as it is.
    fn poll<R>(
        &self,
        cell: &WakerCell,
        cx: &mut Context<'_>,
        call: impl FnOnce(&mut Context<'_>) -> Poll<io::Result<R>>,
    ) -> Poll<io::Result<R>> {
        self.check()?;
        let answer = call(cx);
        if answer.is_pending() {
            cell.listen(cx.waker());
            // The task says first that time is over and then takes the wakers, so one of the two sees the other.
            self.check()?;
        }
        answer
    }

    fn check(&self) -> io::Result<()> {
        if self.is_over.load(SeqCst) {
            return Err(ErrorKind::TimedOut.into());
        }
        Ok(())
    }

    fn end(&self) {
        self.is_over.store(true, SeqCst);
        self.reader.wake();
        self.writer.wake();
    }
}

/// Whom to wake. Wakers are the program's code: they are called, cloned and dropped while no lock is held.
#[derive(Debug, Default)]
struct WakerCell(Mutex<Option<Waker>>);

impl WakerCell {
    fn waker(&self) -> MutexGuard<'_, Option<Waker>> {
        self.0.lock().unwrap_or_else(PoisonError::into_inner)
    }

    fn listen(&self, waker: &Waker) {
        if matches!(&*self.waker(), Some(known) if known.will_wake(waker)) {
            return;
        }
        let waker = waker.clone();
        let before = self.waker().replace(waker);
        drop(before);
    }

    fn wake(&self) {
        let waker = self.waker().take();
        if let Some(waker) = waker {
            caught(|| waker.wake());
        }
    }
}

/// A reader and writer whose calls err with [`TimedOut`](ErrorKind::TimedOut) once no byte has moved for a while, made by
/// [`IdleTimeouts::wrap`].
///
/// # What counts
/// Each read and each write that moved a byte gives it the whole time anew. That takes no lock, but for a thread's first calls;
/// it reads the clock, and of several within a millisecond one makes the two atomic steps. A flush, a shutdown, an empty read or
/// write and the end of the other side's bytes move none. So a connection whose other side has ended goes on as long as it writes.
/// While the other side waits for an answer no byte moves either: [`set_timeout`](IdleTimeout::set_timeout) gives it another time.
///
/// # The timeout
/// The task ends the connection at its deadline or after it, and never before. A read and a write that are pending then are both
/// woken, and err; so do a flush and a shutdown. From then on each call errs, and nothing is read or written any more. Bytes that
/// moved are told of before that. The socket stays open until this is dropped or [`into_inner`](IdleTimeout::into_inner) gives
/// it back. If memory is refused to a thread's first call, the deadline stays as it is.
///
/// # Its drop
/// takes constant time and the lock of one shard, and drops the wakers of pending calls while no lock is held.
///
/// The reader and writer has to be `Unpin`, as sockets and TLS streams are; `Box::pin` makes others so.
#[derive(Debug)]
pub struct IdleTimeout<IO> {
    io: IO,
    entry: Entry,
}

#[derive(Debug)]
struct Entry {
    timeouts: IdleTimeouts,
    /// The connection's key in the queue and a deadline that it has or had, nothing where it never times out.
    place: Option<(Key, Instant)>,
    after: Duration,
    waits: Arc<Waits>,
}

impl Entry {
    fn extend(&mut self) {
        if let Some((key, deadline)) = &mut self.place {
            let when = Instant::now() + self.after;
            // Deadlines are whole milliseconds, so that one of several calls within a millisecond extends it.
            if when > *deadline {
                // Where it has ended, the next call errs.
                *deadline = self.timeouts.queue.extend_at(key, when).unwrap_or(*deadline);
            }
        }
    }

    /// A write of some kind.
    fn poll_write(
        &mut self,
        cx: &mut Context<'_>,
        write: impl FnOnce(&mut Context<'_>) -> Poll<io::Result<usize>>,
    ) -> Poll<io::Result<usize>> {
        let answer = self.waits.poll(&self.waits.writer, cx, write);
        if matches!(answer, Poll::Ready(Ok(1..))) {
            self.extend();
        }
        answer
    }
}

impl Drop for Entry {
    fn drop(&mut self) {
        if let Some((key, _)) = &self.place {
            let _ = self.timeouts.queue.remove(key);
        }
    }
}

impl<IO> IdleTimeout<IO> {
    /// The reader and writer.
    pub fn get_ref(&self) -> &IO {
        &self.io
    }

    /// The reader and writer. What is read and written by it doesn't count.
    pub fn get_mut(&mut self) -> &mut IO {
        &mut self.io
    }

    /// Gives another idle timeout, which begins now: [`Duration::MAX`], which never ends, while the client waits for the server,
    /// and a shorter one before the server waits for the client again. A connection that has timed out stays so.
    ///
    /// `after` is taken as [`wrap`](IdleTimeouts::wrap) takes it. It reads the clock, and takes the locks of two shards of the
    /// queue at most, one after the other, each for constant time.
    ///
    /// # Panics
    /// If memory is refused, or as many connections are there as `wrap` takes. The connection has no timeout then.
    ///
    /// ```
    /// # #[tokio::main(flavor = "current_thread", start_paused = true)]
    /// # async fn main() -> std::io::Result<()> {
    /// # use hontkhale_tokio::IdleTimeouts;
    /// # use std::time::Duration;
    /// # use tokio::io::{duplex, AsyncReadExt, AsyncWriteExt};
    /// # let (timeouts, idle) = (IdleTimeouts::new(), Duration::from_secs(30));
    /// # let (mut client, server) = duplex(64);
    /// # let work = || tokio::time::sleep(2 * idle);
    /// let mut connection = timeouts.wrap(server, idle);
    /// connection.set_timeout(Duration::MAX);
    /// work().await;
    /// connection.set_timeout(idle);
    /// connection.write_all(b"done").await?;
    /// # client.read_exact(&mut [0; 4]).await?;
    /// # assert!(connection.read_u8().await.is_err());
    /// # Ok(()) }
    /// ```
    pub fn set_timeout(&mut self, after: Duration) {
        let entry = &mut self.entry;
        // Where the task has taken the entry out, it ends the connection.
        let is_out = entry.place.take().is_some_and(|(key, _)| entry.timeouts.queue.remove(&key).is_err());
        if !is_out {
            entry.after = after;
            entry.place = entry.timeouts.place(&entry.waits, after);
        }
    }

    /// The reader and writer, without a timeout.
    pub fn into_inner(self) -> IO {
        self.io
    }
}

impl<IO: AsyncRead + Unpin> AsyncRead for IdleTimeout<IO> {
    fn poll_read(self: Pin<&mut Self>, cx: &mut Context<'_>, buf: &mut ReadBuf<'_>) -> Poll<io::Result<()>> {
        let IdleTimeout { io, entry } = self.get_mut();
        let before = buf.filled().len();
        let answer = entry.waits.poll(&entry.waits.reader, cx, |cx| Pin::new(io).poll_read(cx, buf));
        if buf.filled().len() > before {
            entry.extend();
        }
        answer
    }
}

impl<IO: AsyncWrite + Unpin> AsyncWrite for IdleTimeout<IO> {
    fn poll_write(self: Pin<&mut Self>, cx: &mut Context<'_>, buf: &[u8]) -> Poll<io::Result<usize>> {
        let IdleTimeout { io, entry } = self.get_mut();
        entry.poll_write(cx, |cx| Pin::new(io).poll_write(cx, buf))
    }

    fn poll_write_vectored(
        self: Pin<&mut Self>,
        cx: &mut Context<'_>,
        bufs: &[IoSlice<'_>],
    ) -> Poll<io::Result<usize>> {
        let IdleTimeout { io, entry } = self.get_mut();
        entry.poll_write(cx, |cx| Pin::new(io).poll_write_vectored(cx, bufs))
    }

    fn is_write_vectored(&self) -> bool {
        self.io.is_write_vectored()
    }

    fn poll_flush(self: Pin<&mut Self>, cx: &mut Context<'_>) -> Poll<io::Result<()>> {
        let IdleTimeout { io, entry } = self.get_mut();
        entry.waits.poll(&entry.waits.writer, cx, |cx| Pin::new(io).poll_flush(cx))
    }

    fn poll_shutdown(self: Pin<&mut Self>, cx: &mut Context<'_>) -> Poll<io::Result<()>> {
        let IdleTimeout { io, entry } = self.get_mut();
        entry.waits.poll(&entry.waits.writer, cx, |cx| Pin::new(io).poll_shutdown(cx))
    }
}

#[cfg(test)]
mod tests {
    use super::{IdleTimeout, IdleTimeouts, SharedQueue, Waits, WakerCell};
    use std::io::ErrorKind;
    use std::panic::{catch_unwind, AssertUnwindSafe};
    use std::sync::atomic::{AtomicUsize, Ordering::SeqCst};
    use std::sync::{mpsc, Arc, Mutex};
    use std::task::{Context, Poll, Wake, Waker};
    use std::thread;
    use std::time::Duration;
    use tokio::io::{duplex, AsyncWriteExt, DuplexStream};
    use tokio::task::yield_now;
    use tokio::time::sleep;

    #[tokio::test(start_paused = true)]
    async fn the_task_ends_once_the_owner_and_all_connections_are_gone() {
        let timeouts = IdleTimeouts::new();
        let has_task = Arc::clone(&timeouts.has_task);
        let connections =
            [Duration::from_secs(30), Duration::MAX].map(|after| timeouts.clone().wrap(duplex(8).0, after));
        drop(timeouts);
        for connection in connections {
            yield_now().await;
            assert!(has_task.load(SeqCst), "a connection is there");
            drop(connection);
        }
        yield_now().await;
        assert!(!has_task.load(SeqCst));
        assert_eq!(Arc::strong_count(&has_task), 1);
    }

    #[tokio::test(start_paused = true)]
    async fn what_a_connection_shared_is_freed_with_it() {
        let timeouts = IdleTimeouts::new();
        let [dropped, over, unwrapped] =
            [30, 10, 30].map(|after| timeouts.wrap(duplex(8).0, Duration::from_secs(after)));
        let shared = [&dropped, &over, &unwrapped].map(|connection| Arc::downgrade(&connection.entry.waits));
        sleep(Duration::from_secs(20)).await;
        drop((dropped, over, unwrapped.into_inner()));
        assert!(shared.iter().all(|waits| waits.upgrade().is_none()));
    }

    /// A waker that asks, as it is called and as it is dropped, whether the lock of its cell is free.
    struct Asks {
        cell: Arc<WakerCell>,
        was_free: Arc<AtomicUsize>,
    }

    impl Asks {
        fn ask(&self) {
            self.was_free.fetch_add(self.cell.0.try_lock().is_ok().into(), SeqCst);
        }
    }

    impl Wake for Asks {
        fn wake(self: Arc<Self>) {
            self.ask();
        }
    }

    impl Drop for Asks {
        fn drop(&mut self) {
            self.ask();
        }
    }

    #[test]
    fn a_waker_is_called_and_dropped_while_its_cell_is_free() {
        let (cell, was_free) = (Arc::<WakerCell>::default(), Arc::<AtomicUsize>::default());
        for _ in 0..2 {
            cell.listen(&Arc::new(Asks { cell: cell.clone(), was_free: was_free.clone() }).into());
        }
        assert_eq!(was_free.load(SeqCst), 1, "the first is dropped");
        cell.wake();
        assert_eq!(was_free.load(SeqCst), 3, "the second is called and dropped");
    }

    /// The holder of the lock waits until the byte has moved, but not for ever.
    #[tokio::test(start_paused = true)]
    async fn a_byte_extends_while_the_lock_of_its_shard_is_held() {
        let timeouts = IdleTimeouts::new();
        let (_client, server) = duplex(8);
        let mut server = timeouts.wrap(server, Duration::from_secs(30));
        sleep(Duration::from_millis(2)).await;
        server.write_u8(1).await.expect("a thread's first extend takes the lock");
        sleep(Duration::from_millis(2)).await;
        let (key, before) = server.entry.place.expect("it has a timeout");
        let queue = timeouts.queue.clone();
        let ((holds, is_held), (moved, has_moved)) = (mpsc::channel(), mpsc::channel());
        let holder = thread::spawn(move || {
            let holding = |_: &Arc<Waits>| {
                holds.send(()).expect("a test that goes on");
                has_moved.recv_timeout(Duration::from_secs(20))
            };
            queue.get_ref().get(&key, holding)
        });
        is_held.recv().expect("a holder");
        server.write_u8(2).await.expect("it isn't idle");
        moved.send(()).expect("a holder");
        assert_eq!(holder.join().expect("no panic"), Ok(Ok(())));
        assert!(before < server.entry.place.expect("it has a timeout").1);
    }

    /// A waker that ends the time as another one takes its place.
    struct Ends(Arc<Waits>);

    impl Wake for Ends {
        fn wake(self: Arc<Self>) {}
    }

    impl Drop for Ends {
        fn drop(&mut self) {
            self.0.end();
        }
    }

    #[test]
    fn a_call_amid_which_time_ends_errs() {
        let waits = Arc::<Waits>::default();
        waits.reader.listen(&Arc::new(Ends(waits.clone())).into());
        let waker = Waker::from(Arc::new(Sees::default()));
        let pending = |_: &mut Context<'_>| Poll::<std::io::Result<()>>::Pending;
        let answer = waits.poll(&waits.reader, &mut Context::from_waker(&waker), pending);
        assert!(matches!(answer, Poll::Ready(Err(refused)) if refused.kind() == ErrorKind::TimedOut));
    }

    #[test]
    fn bytes_that_moved_as_time_ended_are_told_of() {
        let waits = Waits::default();
        let waker = Waker::from(Arc::new(Sees::default()));
        let moves = |_: &mut Context<'_>| {
            waits.end();
            Poll::Ready(Ok(7))
        };
        let answer = waits.poll(&waits.writer, &mut Context::from_waker(&waker), moves);
        assert!(matches!(answer, Poll::Ready(Ok(7))));
    }

    #[tokio::test(start_paused = true)]
    async fn a_connection_for_which_there_is_no_place_is_refused() {
        let queue = SharedQueue::builder().max_entries(1).build().into();
        let timeouts = IdleTimeouts { queue, ..IdleTimeouts::default() };
        let wrap = || timeouts.wrap(duplex(8).0, Duration::from_secs(30));
        let first = wrap();
        assert!(catch_unwind(AssertUnwindSafe(wrap)).is_err());
        drop(first);
        drop(wrap());
    }

    /// A waker that leaves another one in its place, whose drop panics, as a thread may that polls meanwhile; and drops its
    /// connection.
    struct Leaves(Mutex<Option<IdleTimeout<DuplexStream>>>);

    struct Fragile;

    impl Wake for Leaves {
        fn wake(self: Arc<Self>) {
            let connection = self.0.lock().unwrap().take().expect("it is woken once");
            connection.entry.waits.reader.listen(&Arc::new(Fragile).into());
        }
    }

    impl Wake for Fragile {
        fn wake(self: Arc<Self>) {}
    }

    impl Drop for Fragile {
        fn drop(&mut self) {
            panic!("a waker that is dropped");
        }
    }

    #[tokio::test(start_paused = true)]
    async fn a_waker_that_panics_as_it_is_dropped_ends_no_task() {
        let timeouts = IdleTimeouts::new();
        let [first, mut second] = [10, 20].map(|after| timeouts.wrap(duplex(8).0, Duration::from_secs(after)));
        let leaves = Arc::new(Leaves(Mutex::default()));
        first.entry.waits.reader.listen(&leaves.clone().into());
        *leaves.0.lock().unwrap() = Some(first);
        sleep(Duration::from_secs(30)).await;
        assert!(leaves.0.lock().unwrap().is_none());
        assert_eq!(second.write_u8(1).await.unwrap_err().kind(), ErrorKind::TimedOut);
    }

    /// A waker that asks, as it is called, whether time is over.
    #[derive(Default)]
    struct Sees {
        waits: Arc<Waits>,
        over: AtomicUsize,
    }

    impl Wake for Sees {
        fn wake(self: Arc<Self>) {
            self.over.fetch_add(self.waits.check().is_err().into(), SeqCst);
        }
    }

    #[test]
    fn time_is_over_for_whom_it_wakes() {
        let sees = Arc::new(Sees::default());
        let waker = Waker::from(sees.clone());
        sees.waits.reader.listen(&waker);
        sees.waits.writer.listen(&waker);
        sees.waits.end();
        assert_eq!(sees.over.load(SeqCst), 2);
    }
}
