//! Idle timeouts: what extends them, when they end, what they end, and what they leave behind.

mod common;

use common::{ends, ms, paused, threaded, Dice, Wakes};
use hontkhale_tokio::{IdleTimeout, IdleTimeouts};
use std::io::{self, ErrorKind, IoSlice};
use std::pin::{pin, Pin};
use std::sync::Arc;
use std::task::{Context, Poll, Wake, Waker};
use std::time::Duration;
use tokio::io::{duplex, split, AsyncRead, AsyncReadExt, AsyncWrite, AsyncWriteExt, DuplexStream, ReadBuf};
use tokio::time::{sleep, timeout, timeout_at, Instant};

const IDLE: Duration = Duration::from_secs(30);

fn is_over<T>(answer: io::Result<T>) -> bool {
    matches!(answer, Err(refused) if refused.kind() == ErrorKind::TimedOut)
}

/// A client, and a server's end of it that times out.
fn connected(timeouts: &IdleTimeouts, after: Duration) -> (DuplexStream, IdleTimeout<DuplexStream>) {
    let (client, server) = duplex(8);
    (client, timeouts.wrap(server, after))
}

fn poll_read<IO: AsyncRead + Unpin>(io: &mut IO, waker: &Waker) -> Poll<io::Result<()>> {
    let mut bytes = [0; 8];
    Pin::new(io).poll_read(&mut Context::from_waker(waker), &mut ReadBuf::new(&mut bytes))
}

fn poll_write<IO: AsyncWrite + Unpin>(io: &mut IO, waker: &Waker) -> Poll<io::Result<usize>> {
    Pin::new(io).poll_write(&mut Context::from_waker(waker), &[0; 8])
}

#[test]
fn the_types_go_between_threads() {
    fn sent<T: Send + Sync + Unpin>() {}
    sent::<IdleTimeouts>();
    sent::<IdleTimeout<DuplexStream>>();
}

#[test]
fn a_read_that_waits_for_too_long_times_out() {
    ends(|| {
        paused().block_on(async {
            let (_client, mut server) = connected(&IdleTimeouts::new(), IDLE);
            let start = Instant::now();
            assert!(is_over(server.read_u8().await));
            assert_eq!(start.elapsed(), IDLE);
        });
    });
}

#[test]
fn each_read_and_each_write_that_moves_a_byte_extends() {
    ends(|| {
        paused().block_on(async {
            let (mut client, mut server) = connected(&IdleTimeouts::new(), IDLE);
            for round in 0..9 {
                sleep(IDLE - ms(1)).await;
                match round % 3 {
                    0 => {
                        client.write_u8(1).await.unwrap();
                        server.read_u8().await.unwrap();
                    }
                    1 => server.write_u8(1).await.unwrap(),
                    _ => assert_eq!(server.write_vectored(&[IoSlice::new(&[1]), IoSlice::new(&[2])]).await.unwrap(), 1),
                }
            }
            let last = Instant::now();
            assert!(is_over(server.read_u8().await));
            assert_eq!(last.elapsed(), IDLE);
        });
    });
}

#[test]
fn what_moves_no_byte_extends_nothing() {
    ends(|| {
        paused().block_on(async {
            let start = Instant::now();
            let (mut client, mut server) = connected(&IdleTimeouts::new(), IDLE);
            client.shutdown().await.unwrap();
            while start.elapsed() < IDLE - ms(1_000) {
                sleep(ms(1_000)).await;
                server.flush().await.unwrap();
                assert_eq!(server.write(&[]).await.unwrap(), 0);
                assert_eq!(server.read(&mut []).await.unwrap(), 0);
                assert_eq!(server.read(&mut [0]).await.unwrap(), 0, "the other side has ended");
            }
            server.shutdown().await.unwrap();
            sleep(ms(1_001)).await;
            assert!(is_over(server.write(&[1]).await));
        });
    });
}

/// A `read_exact` that has some of its bytes is polled again and again, as in a `select!`.
#[test]
fn a_read_that_has_some_of_its_bytes_extends_only_by_more() {
    ends(|| {
        paused().block_on(async {
            let (mut client, mut server) = connected(&IdleTimeouts::new(), IDLE);
            client.write_u8(1).await.unwrap();
            let (start, mut bytes) = (Instant::now(), [0; 2]);
            let mut read = pin!(server.read_exact(&mut bytes));
            for _ in 0..4 {
                assert!(timeout(ms(7_000), &mut read).await.is_err());
            }
            assert!(is_over(timeout(ms(7_000), read).await.expect("it is idle")));
            assert_eq!(start.elapsed(), IDLE);
        });
    });
}

#[test]
fn a_connection_whose_other_side_has_ended_goes_on_as_long_as_it_writes() {
    ends(|| {
        paused().block_on(async {
            let (mut client, mut server) = connected(&IdleTimeouts::new(), IDLE);
            client.shutdown().await.unwrap();
            for _ in 0..5 {
                sleep(IDLE - ms(1)).await;
                assert_eq!(server.read(&mut [0]).await.unwrap(), 0);
                server.write_u8(1).await.unwrap();
            }
        });
    });
}

/// A client that takes a byte now and then keeps a connection that only writes, until it takes none.
#[test]
fn a_writer_goes_on_while_its_client_reads_slowly() {
    ends(|| {
        paused().block_on(async {
            let (mut client, mut server) = connected(&IdleTimeouts::new(), IDLE);
            let written = tokio::spawn(async move { is_over(server.write_all(&[7; 64]).await) });
            for _ in 0..9 {
                sleep(IDLE - ms(1)).await;
                assert_eq!(client.read_u8().await.unwrap(), 7);
            }
            let last = Instant::now();
            assert!(written.await.unwrap());
            assert_eq!(last.elapsed(), IDLE);
        });
    });
}

#[test]
fn a_read_and_a_write_that_wait_are_both_woken() {
    ends(|| {
        paused().block_on(async {
            let (_client, server) = connected(&IdleTimeouts::new(), IDLE);
            let (mut reads, mut writes) = split(server);
            let reads = tokio::spawn(async move { is_over(reads.read_u8().await) });
            let writes = tokio::spawn(async move { is_over(writes.write_all(&[0; 64]).await) });
            assert!(reads.await.unwrap() && writes.await.unwrap());
        });
    });
}

#[test]
fn the_task_that_waited_last_is_woken() {
    ends(|| {
        paused().block_on(async {
            let wakes = [Arc::<Wakes>::default(), Arc::default()];
            let (_client, mut server) = connected(&IdleTimeouts::new(), IDLE);
            while poll_write(&mut server, &wakes[0].clone().into()).is_ready() {}
            for waits in &wakes {
                assert!(poll_read(&mut server, &waits.clone().into()).is_pending());
                assert!(poll_write(&mut server, &waits.clone().into()).is_pending());
            }
            sleep(IDLE + ms(1)).await;
            assert_eq!(wakes.map(|woken| woken.take()), [0, 2]);
        });
    });
}

/// A stream on which nothing comes to its end.
struct Stuck;

impl AsyncRead for Stuck {
    fn poll_read(self: Pin<&mut Self>, _: &mut Context<'_>, _: &mut ReadBuf<'_>) -> Poll<io::Result<()>> {
        Poll::Pending
    }
}

impl AsyncWrite for Stuck {
    fn poll_write(self: Pin<&mut Self>, _: &mut Context<'_>, _: &[u8]) -> Poll<io::Result<usize>> {
        Poll::Pending
    }

    fn poll_flush(self: Pin<&mut Self>, _: &mut Context<'_>) -> Poll<io::Result<()>> {
        Poll::Pending
    }

    fn poll_shutdown(self: Pin<&mut Self>, _: &mut Context<'_>) -> Poll<io::Result<()>> {
        Poll::Pending
    }
}

#[test]
fn a_read_that_waits_beside_a_flush_or_a_shutdown_is_woken() {
    ends(|| {
        paused().block_on(async {
            for shuts_down in [false, true] {
                let [reads, writes] = [Arc::<Wakes>::default(), Arc::default()];
                let mut server = IdleTimeouts::new().wrap(Stuck, IDLE);
                assert!(poll_read(&mut server, &reads.clone().into()).is_pending());
                let waker = writes.clone().into();
                let (io, mut cx) = (Pin::new(&mut server), Context::from_waker(&waker));
                assert!(if shuts_down { io.poll_shutdown(&mut cx) } else { io.poll_flush(&mut cx) }.is_pending());
                sleep(IDLE + ms(1)).await;
                assert_eq!((reads.take(), writes.take()), (1, 1));
            }
        });
    });
}

/// A stream that writes all of its slices at once.
struct Vectored(DuplexStream);

impl AsyncWrite for Vectored {
    fn poll_write(mut self: Pin<&mut Self>, cx: &mut Context<'_>, buf: &[u8]) -> Poll<io::Result<usize>> {
        Pin::new(&mut self.0).poll_write(cx, buf)
    }

    fn poll_write_vectored(
        mut self: Pin<&mut Self>,
        cx: &mut Context<'_>,
        bufs: &[IoSlice<'_>],
    ) -> Poll<io::Result<usize>> {
        let bytes: Vec<u8> = bufs.iter().flat_map(|buf| buf.iter().copied()).collect();
        Pin::new(&mut self.0).poll_write(cx, &bytes)
    }

    fn is_write_vectored(&self) -> bool {
        true
    }

    fn poll_flush(mut self: Pin<&mut Self>, cx: &mut Context<'_>) -> Poll<io::Result<()>> {
        Pin::new(&mut self.0).poll_flush(cx)
    }

    fn poll_shutdown(mut self: Pin<&mut Self>, cx: &mut Context<'_>) -> Poll<io::Result<()>> {
        Pin::new(&mut self.0).poll_shutdown(cx)
    }
}

#[test]
fn slices_are_written_as_the_stream_within_writes_them() {
    ends(|| {
        paused().block_on(async {
            let (mut client, server) = duplex(8);
            let mut server = IdleTimeouts::new().wrap(Vectored(server), IDLE);
            assert!(server.get_ref().is_write_vectored() && server.is_write_vectored());
            assert!(!IdleTimeouts::new().wrap(duplex(8).0, IDLE).is_write_vectored());
            assert_eq!(server.write_vectored(&[IoSlice::new(b"pi"), IoSlice::new(b"ng")]).await.unwrap(), 4);
            let mut heard = [0; 4];
            client.read_exact(&mut heard).await.unwrap();
            assert_eq!(&heard, b"ping");
        });
    });
}

#[test]
fn after_the_timeout_each_call_errs_and_moves_nothing() {
    ends(|| {
        paused().block_on(async {
            let (mut client, mut server) = connected(&IdleTimeouts::new(), IDLE);
            client.write_all(b"here").await.unwrap();
            sleep(IDLE + ms(1)).await;
            for _ in 0..2 {
                assert!(is_over(server.read(&mut [0; 4]).await));
                assert!(is_over(server.write(b"there").await));
                assert!(is_over(server.write_vectored(&[IoSlice::new(b"there")]).await));
                assert!(is_over(server.flush().await));
                assert!(is_over(server.shutdown().await));
            }
            server.get_mut().write_u8(7).await.unwrap();
            assert_eq!(client.read_u8().await.unwrap(), 7);
            let (mut server, mut heard) = (server.into_inner(), [0; 4]);
            server.read_exact(&mut heard).await.unwrap();
            assert_eq!(&heard, b"here");
            drop(server);
            assert_eq!(client.read(&mut [0]).await.unwrap(), 0);
        });
    });
}

#[test]
fn a_zero_timeout_is_over_at_once_and_the_longest_never() {
    ends(|| {
        paused().block_on(async {
            let timeouts = IdleTimeouts::new();
            let start = Instant::now();
            let (_zero, mut at_once) = connected(&timeouts, Duration::ZERO);
            assert!(is_over(at_once.read_u8().await));
            assert_eq!(start.elapsed(), Duration::ZERO);
            let (_nano, mut soon) = connected(&timeouts, Duration::from_nanos(1));
            assert!(is_over(soon.read_u8().await));
            let year = Duration::from_secs(365 * 86_400);
            let mut longest = [140 * year, Duration::MAX].map(|after| connected(&timeouts, after));
            sleep(year).await;
            for (client, never) in &mut longest {
                client.write_u8(1).await.unwrap();
                never.read_u8().await.unwrap();
            }
        });
    });
}

#[test]
fn a_timeout_is_rounded_up_to_milliseconds() {
    ends(|| {
        paused().block_on(async {
            let (_client, mut server) = connected(&IdleTimeouts::new(), Duration::from_micros(10_500));
            let start = Instant::now();
            sleep(ms(5)).await;
            server.write_u8(1).await.unwrap();
            assert!(is_over(server.read_u8().await));
            assert_eq!(start.elapsed(), ms(16));
            let (_client, mut server) = connected(&IdleTimeouts::new(), Duration::from_micros(10_500));
            let start = Instant::now();
            assert!(is_over(server.read_u8().await));
            assert_eq!(start.elapsed(), ms(11));
        });
    });
}

#[test]
fn another_timeout_takes_the_place_of_the_one_before() {
    ends(|| {
        paused().block_on(async {
            let (timeouts, start) = (IdleTimeouts::new(), Instant::now());
            let (mut client, mut server) = connected(&timeouts, IDLE);
            let mut passed = Duration::ZERO;
            for after in [4 * IDLE, Duration::MAX, Duration::MAX, IDLE, 3 * IDLE, IDLE] {
                server.set_timeout(after);
                let works = after.min(5 * IDLE) - ms(1);
                sleep(works).await;
                passed += works;
                client.write_u8(1).await.unwrap();
                server.read_u8().await.unwrap();
            }
            server.set_timeout(IDLE / 2);
            assert!(is_over(server.read_u8().await));
            assert_eq!(start.elapsed(), passed + IDLE / 2);
            for after in [IDLE, Duration::MAX] {
                server.set_timeout(after);
                assert!(is_over(server.read_u8().await) && is_over(server.write_u8(1).await));
            }
        });
    });
}

#[test]
fn a_byte_gives_the_whole_of_the_timeout_that_was_set_last() {
    ends(|| {
        paused().block_on(async {
            let (_client, mut server) = connected(&IdleTimeouts::new(), 9 * IDLE);
            server.set_timeout(IDLE);
            sleep(IDLE / 2).await;
            server.write_u8(1).await.unwrap();
            let start = Instant::now();
            assert!(is_over(server.read_u8().await));
            assert_eq!(start.elapsed(), IDLE);
        });
    });
}

/// Plays a drawn connection against a model: it times out a while after the last byte, and not before.
async fn play(timeouts: IdleTimeouts, seed: u64) {
    let mut dice = Dice(seed);
    let after = 20 + dice.below(500);
    let (mut client, mut server) = connected(&timeouts, ms(after));
    let mut last = Instant::now();
    loop {
        let over = last + ms(after);
        let next = Instant::now() + ms(1 + dice.below(after + 10));
        let heard = timeout_at(next.min(over + ms(1)), server.read_u8()).await;
        if let Ok(refused) = heard {
            assert!(is_over(refused), "connection {seed}: nothing was sent");
            assert_eq!(Instant::now(), over, "connection {seed}");
            return;
        }
        // Which of the two comes first in the millisecond of the deadline isn't said.
        assert!(next <= over, "connection {seed} has to be over");
        let moved = match dice.below(5) {
            0 => client.write_u8(1).await.is_ok() && server.read_u8().await.is_ok(),
            1 => server.write_u8(1).await.is_ok() && client.read_u8().await.is_ok(),
            2 => server.write_vectored(&[IoSlice::new(&[1])]).await.is_ok() && client.read_u8().await.is_ok(),
            _ => false,
        };
        let _ = server.flush().await;
        if moved {
            last = Instant::now();
        }
    }
}

#[test]
fn a_thousand_drawn_connections_time_out_as_a_model_says() {
    ends(|| {
        paused().block_on(async {
            let timeouts = IdleTimeouts::new();
            let played: Vec<_> = (1..=1_000).map(|seed| tokio::spawn(play(timeouts.clone(), seed * 7_919))).collect();
            for one in played {
                one.await.unwrap();
            }
        });
    });
}

/// A waker owns memory that a connection which isn't wholly gone would keep.
#[test]
fn a_connection_that_is_dropped_while_it_waits_leaves_nothing() {
    ends(|| {
        paused().block_on(async {
            let (timeouts, wakes) = (IdleTimeouts::new(), Arc::<Wakes>::default());
            let waker = Waker::from(wakes.clone());
            for _ in 0..1_000 {
                let (_client, mut server) = connected(&timeouts, IDLE);
                while poll_write(&mut server, &waker).is_ready() {}
                assert!(poll_read(&mut server, &waker).is_pending());
            }
            drop(waker);
            assert_eq!(Arc::strong_count(&wakes), 1);
            // A stream that is dropped wakes who waits for it.
            wakes.take();
            sleep(2 * IDLE).await;
            assert_eq!(wakes.take(), 0, "nobody is there to be woken");
        });
    });
}

#[test]
fn a_connection_that_timed_out_leaves_nothing() {
    ends(|| {
        paused().block_on(async {
            let (timeouts, wakes) = (IdleTimeouts::new(), Arc::<Wakes>::default());
            let waker = Waker::from(wakes.clone());
            let mut connections: Vec<_> = (0..1_000).map(|_| connected(&timeouts, IDLE)).collect();
            for (_, server) in &mut connections {
                assert!(poll_read(server, &waker).is_pending());
            }
            sleep(2 * IDLE).await;
            assert_eq!(wakes.take(), 1_000);
            for (_, server) in &mut connections {
                assert!(matches!(poll_read(server, &waker), Poll::Ready(Err(_))));
                assert!(matches!(poll_write(server, &waker), Poll::Ready(Err(_))));
            }
            drop((connections, waker));
            assert_eq!(Arc::strong_count(&wakes), 1);
        });
    });
}

/// A waker that panics, with a value that panics as it is dropped, with another one.
struct Panics;

struct PanicsInDrop;

impl Wake for Panics {
    fn wake(self: Arc<Self>) {
        std::panic::panic_any(PanicsInDrop);
    }
}

impl Drop for PanicsInDrop {
    fn drop(&mut self) {
        std::panic::panic_any(PanicsInDrop);
    }
}

#[test]
fn a_waker_that_panics_keeps_no_other_connection_waiting() {
    ends(|| {
        paused().block_on(async {
            let (timeouts, wakes, panics) =
                (IdleTimeouts::new(), Arc::<Wakes>::default(), Waker::from(Arc::new(Panics)));
            let waker = Waker::from(wakes.clone());
            let mut connections: Vec<_> = (0..10).map(|_| connected(&timeouts, IDLE)).collect();
            for (at, (_, server)) in connections.iter_mut().enumerate() {
                assert!(poll_read(server, if at % 2 == 0 { &panics } else { &waker }).is_pending());
                // The stream within would call its own waker as it is dropped.
                assert!(poll_read(server.get_mut(), &waker).is_pending());
                while poll_write(server, &waker).is_ready() {}
            }
            sleep(IDLE + ms(1)).await;
            assert_eq!(wakes.take(), 15, "ten that write, and five that read");
            let (_client, mut later) = connected(&timeouts, IDLE);
            assert!(is_over(later.read_u8().await));
        });
    });
}

/// A waker that takes a connection back and makes another, as a task does that is polled where it is woken.
struct Reconnects {
    timeouts: IdleTimeouts,
    connection: std::sync::Mutex<Option<IdleTimeout<DuplexStream>>>,
}

impl Wake for Reconnects {
    fn wake(self: Arc<Self>) {
        let before = self.connection.try_lock().expect("no connection is polled").take();
        drop(before);
        drop(connected(&self.timeouts, IDLE));
    }
}

#[test]
fn a_waker_may_drop_its_own_connection_and_make_another() {
    ends(|| {
        paused().block_on(async {
            let timeouts = IdleTimeouts::new();
            let (_client, server) = connected(&timeouts, IDLE);
            let reconnects = Arc::new(Reconnects { timeouts, connection: Some(server).into() });
            let waker = Waker::from(reconnects.clone());
            assert!(poll_read(reconnects.connection.lock().unwrap().as_mut().unwrap(), &waker).is_pending());
            sleep(IDLE + ms(1)).await;
            assert!(reconnects.connection.lock().unwrap().is_none());
        });
    });
}

#[test]
fn a_second_runtime_goes_on_where_the_first_one_has_ended() {
    ends(|| {
        let timeouts = IdleTimeouts::new();
        for _ in 0..3 {
            paused().block_on(async {
                let (_client, mut server) = connected(&timeouts, IDLE);
                assert!(is_over(server.read_u8().await));
            });
        }
    });
}

#[test]
fn the_task_is_spawned_anew_that_never_ran_in_its_runtime() {
    ends(|| {
        let timeouts = IdleTimeouts::new();
        drop(paused().block_on(async { connected(&timeouts, IDLE) }));
        paused().block_on(async {
            let (_client, mut server) = connected(&timeouts, IDLE);
            assert!(is_over(timeout(2 * IDLE, server.read_u8()).await.expect("a task runs")));
        });
    });
}

/// Threads that extend race the task that times out: a byte that moved in time gives the whole time from then on.
#[test]
fn no_connection_of_four_threads_is_over_before_its_time() {
    ends(|| {
        threaded(4).block_on(async {
            let timeouts = IdleTimeouts::new();
            let talks = |seed| {
                let timeouts = timeouts.clone();
                async move {
                    let (mut dice, after, mut last) = (Dice(seed), ms(5), Instant::now());
                    let (mut client, mut server) = connected(&timeouts, after);
                    loop {
                        let before = Instant::now();
                        let moved = match client.write_u8(1).await {
                            Ok(()) => server.read_u8().await,
                            Err(refused) => panic!("the server is there: {refused}"),
                        };
                        match moved {
                            Err(refused) => return assert_eq!(refused.kind(), ErrorKind::TimedOut),
                            // Where a thread waited, the byte may have moved after the deadline.
                            Ok(_) if dice.below(50) > 0 || last.elapsed() >= after => sleep(ms(dice.below(4))).await,
                            Ok(_) => {
                                assert!(is_over(server.read_u8().await));
                                return assert!(before.elapsed() >= after);
                            }
                        }
                        last = before;
                    }
                }
            };
            let talking: Vec<_> = (1..=400).map(|seed| tokio::spawn(talks(seed * 104_729))).collect();
            for one in talking {
                one.await.unwrap();
            }
        });
    });
}
