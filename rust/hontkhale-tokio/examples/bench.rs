//! This queue beside tokio_util's in one run: nanoseconds a call, the least of some rounds taken in turns, and the ratio.
//!
//!   cargo run --release --example bench [entries...] [row=NAME] [side=peer|ours] [rounds=N]
//!
//! The clock stands but where it is moved, and moving it isn't timed. Keys are drawn at random. On a machine with other work
//! only the ratios tell something. What is executed doesn't hang on the machine: `./count` counts the instructions of a call,
//! which are those within `Stopwatch::time`.

use std::hint::black_box;
use std::sync::atomic::{AtomicBool, AtomicUsize, Ordering::Relaxed, Ordering::SeqCst};
use std::sync::{Arc, Mutex, MutexGuard};
use std::task::{Context, Poll, Wake, Waker};
use std::time::Duration;
use tokio::time::Instant;

const ROUNDS: usize = 31;
/// The calls of a round, at least.
const CALLS: usize = 20_000;

/// Marsaglia's xorshift.
struct Dice(u64);

impl Dice {
    fn below(&mut self, limit: usize) -> usize {
        self.0 ^= self.0 << 13;
        self.0 ^= self.0 >> 7;
        self.0 ^= self.0 << 17;
        (self.0 % limit as u64) as usize
    }
}

/// What is timed: `std`'s clock, since tokio's stands.
struct Stopwatch {
    nanos: f64,
    calls: usize,
}

impl Stopwatch {
    #[inline(never)]
    fn time(&mut self, calls: usize, work: impl FnOnce()) {
        let start = std::time::Instant::now();
        work();
        self.nanos += start.elapsed().as_nanos() as f64;
        self.calls += calls;
    }
}

struct Clock(tokio::runtime::Runtime);

impl Clock {
    fn pass(&self, millis: u64) {
        self.0.block_on(tokio::time::advance(Duration::from_millis(millis)));
    }
}

/// A task that is polled by hand: whether it was woken.
struct Task {
    is_woken: AtomicBool,
}

impl Wake for Task {
    fn wake(self: Arc<Self>) {
        self.wake_by_ref();
    }

    fn wake_by_ref(self: &Arc<Self>) {
        self.is_woken.store(true, Relaxed);
    }
}

impl Task {
    fn new() -> Arc<Task> {
        Arc::new(Task { is_woken: AtomicBool::new(false) })
    }

    /// Polls as a runtime does: again where the poll itself woke the task, so that no work is left to a later one.
    fn run(self: &Arc<Self>, mut poll: impl FnMut(&mut Context<'_>)) {
        let waker = Waker::from(self.clone());
        loop {
            self.is_woken.store(false, Relaxed);
            poll(&mut Context::from_waker(&waker));
            if !self.is_woken.load(Relaxed) {
                return;
            }
        }
    }
}

macro_rules! rows {
    ($name:ident, $module:path) => {
        mod $name {
            use super::*;
            use $module as side;
            type Queue = side::DelayQueue<u64>;

            /// A queue of so many entries that are due within the next 30 s, and their keys at random.
            pub fn filled(entries: usize, dice: &mut Dice) -> (Queue, Vec<side::Key>) {
                let mut queue = Queue::with_capacity(entries);
                let now = Instant::now();
                let mut keys: Vec<_> = (0..entries)
                    .map(|value| {
                        queue.insert_at(value as u64, now + Duration::from_millis(1 + dice.below(30_000) as u64))
                    })
                    .collect();
                for at in (1..keys.len()).rev() {
                    keys.swap(at, dice.below(at + 1));
                }
                (queue, keys)
            }

            pub fn insert(entries: usize, _clock: &Clock, dice: &mut Dice, watch: &mut Stopwatch) {
                let now = Instant::now();
                let whens: Vec<_> =
                    (0..entries).map(|_| now + Duration::from_millis(1 + dice.below(30_000) as u64)).collect();
                while watch.calls < CALLS {
                    let mut queue = Queue::with_capacity(entries);
                    watch.time(entries, || {
                        for when in &whens {
                            black_box(queue.insert_at(1, *when));
                        }
                    });
                }
            }

            pub fn reset(entries: usize, _clock: &Clock, dice: &mut Dice, watch: &mut Stopwatch) {
                let (mut queue, keys) = filled(entries, dice);
                let now = Instant::now();
                while watch.calls < CALLS {
                    let ahead = Duration::from_millis(30_000 + dice.below(30_000) as u64);
                    watch.time(entries, || {
                        for key in &keys {
                            queue.reset_at(key, now + ahead);
                        }
                    });
                }
            }

            pub fn remove(entries: usize, _clock: &Clock, dice: &mut Dice, watch: &mut Stopwatch) {
                while watch.calls < CALLS {
                    let (mut queue, keys) = filled(entries, dice);
                    watch.time(entries, || {
                        for key in &keys {
                            black_box(queue.remove(key));
                        }
                    });
                }
            }

            pub fn poll(entries: usize, clock: &Clock, dice: &mut Dice, watch: &mut Stopwatch) {
                let task = Task::new();
                while watch.calls < CALLS {
                    let (mut queue, _) = filled(entries, dice);
                    drain(&mut queue, &task, clock, watch);
                }
            }

            /// Takes out what is due every 50 ms, until nothing is left.
            pub fn drain(queue: &mut Queue, task: &Arc<Task>, clock: &Clock, watch: &mut Stopwatch) {
                while !queue.is_empty() {
                    clock.pass(50);
                    let before = queue.len();
                    watch.time(0, || {
                        task.run(|cx| {
                            while let Poll::Ready(Some(out)) = queue.poll_expired(cx) {
                                black_box(out.into_inner());
                            }
                        })
                    });
                    watch.calls += before - queue.len();
                }
            }

            /// Polls of a task that waits where nothing is due and nothing was changed, as in each turn of a `select!`.
            pub fn poll_waiting(entries: usize, _clock: &Clock, dice: &mut Dice, watch: &mut Stopwatch) {
                let (mut queue, _) = filled(entries, dice);
                let waker = Waker::from(Task::new());
                let mut cx = Context::from_waker(&waker);
                assert!(queue.poll_expired(&mut cx).is_pending());
                watch.time(CALLS, || {
                    for _ in 0..CALLS {
                        assert!(black_box(queue.poll_expired(&mut cx)).is_pending());
                    }
                });
            }

            /// Connections with 30 s of idle time: each second a part of them is heard of, and the queue is polled.
            pub fn idle(entries: usize, clock: &Clock, dice: &mut Dice, watch: &mut Stopwatch) {
                let (mut queue, keys) = filled(entries, dice);
                let task = Task::new();
                keys.iter().for_each(|key| queue.reset(key, Duration::from_secs(30)));
                let mut at = 0;
                while watch.calls < CALLS.max(2 * entries) {
                    clock.pass(1_000);
                    let part = entries / 20;
                    watch.time(part, || {
                        for _ in 0..part {
                            at = (at + 1) % keys.len();
                            queue.reset(&keys[at], Duration::from_secs(30));
                        }
                        task.run(|cx| assert!(queue.poll_expired(cx).is_pending()));
                    });
                }
            }
        }
    };
}

rows!(ours, hontkhale_tokio::delay_queue);
rows!(peers, tokio_util::time::delay_queue);

/// The row of the polls, where a poll makes all of its steps.
fn poll_whole(entries: usize, clock: &Clock, dice: &mut Dice, watch: &mut Stopwatch) {
    let task = Task::new();
    while watch.calls < CALLS {
        let (mut queue, _) = ours::filled(entries, dice);
        queue.set_budget(u32::MAX);
        ours::drain(&mut queue, &task, clock, watch);
    }
}

fn extend(entries: usize, _clock: &Clock, dice: &mut Dice, watch: &mut Stopwatch) {
    let (mut queue, keys) = ours::filled(entries, dice);
    let handle = queue.handle();
    let now = Instant::now();
    while watch.calls < CALLS {
        let ahead = Duration::from_millis(30_000 + dice.below(30_000) as u64);
        watch.time(entries, || {
            for key in &keys {
                black_box(handle.extend_at(key, now + ahead).is_ok());
            }
        });
    }
}

/// Until when a connection that was heard of may be silent.
#[derive(Clone, Copy)]
enum Until {
    /// For that long: each touch reads the clock.
    After(Duration),
    /// Until a moment that was reckoned once for all touches of a second.
    At(Instant),
}

/// The same as `peers::idle` where any thread may touch the entries: what the peer wants a `Mutex` for. The clock is read before
/// it is locked.
fn idle_by_mutex<const THREADS: usize, const READS_ONCE: bool>(
    entries: usize,
    clock: &Clock,
    dice: &mut Dice,
    watch: &mut Stopwatch,
) {
    let (queue, keys) = peers::filled(entries, dice);
    let queue = Mutex::new(queue);
    let touch = |at: usize, until: Until| {
        let when = match until {
            Until::After(idle) => Instant::now() + idle,
            Until::At(when) => when,
        };
        locked(&queue).reset_at(&keys[at], when);
    };
    let poll = |cx: &mut Context<'_>| assert!(locked(&queue).poll_expired(cx).is_pending());
    Idle::new(entries, THREADS, READS_ONCE).run(clock, touch, poll, watch);
}

fn locked<T>(it: &Mutex<T>) -> MutexGuard<'_, T> {
    it.lock().expect("nobody panics under the lock")
}

fn idle_by_handle<const THREADS: usize, const READS_ONCE: bool>(
    entries: usize,
    clock: &Clock,
    dice: &mut Dice,
    watch: &mut Stopwatch,
) {
    let (mut queue, keys) = ours::filled(entries, dice);
    let handle = queue.handle();
    let touch = |at: usize, until: Until| {
        let extended = match until {
            Until::After(idle) => handle.extend(&keys[at], idle),
            Until::At(when) => handle.extend_at(&keys[at], when),
        };
        black_box(extended.is_ok());
    };
    let poll = |cx: &mut Context<'_>| assert!(queue.poll_expired(cx).is_pending());
    Idle::new(entries, THREADS, READS_ONCE).run(clock, touch, poll, watch);
}

/// Connections with 30 s of idle time, of which each of some threads has its own. Each second the threads hear of a twentieth of
/// theirs at once, and then the first polls the queue. They touch outside of the runtime, and so read the clock that servers have.
struct Idle {
    start: Instant,
    threads: usize,
    reads_once: bool,
    /// The connections of a thread, and of how many it hears between two meetings, and how often in a second.
    own: usize,
    piece: usize,
    pieces: usize,
    meeting: Meeting,
    spans: Mutex<Vec<Span>>,
}

/// What a thread did between two meetings.
struct Span {
    start: std::time::Instant,
    nanos: f64,
    /// Whether it lost its processor meanwhile.
    is_cut: bool,
}

/// How far apart threads begin at most that are at work at once.
const AT_ONCE: Duration = Duration::from_micros(5);

impl Idle {
    const TIME: Duration = Duration::from_secs(30);

    fn new(entries: usize, threads: usize, reads_once: bool) -> Idle {
        let own = entries / threads;
        let pieces = (own / 20 / 50).max(1);
        let meeting = Meeting { threads, came: AtomicUsize::new(0) };
        let (start, piece, spans) = (Instant::now(), own / 20 / pieces, Mutex::default());
        Idle { start, threads, reads_once, own, piece, pieces, meeting, spans }
    }

    /// A call costs the median of what touches did that were at work at once, and its part of all polls.
    fn run<Touch, Poll>(&self, clock: &Clock, touch: Touch, mut poll: Poll, watch: &mut Stopwatch)
    where
        Touch: Fn(usize, Until) + Sync,
        Poll: FnMut(&mut Context<'_>) + Send,
    {
        (0..self.threads * self.own).for_each(|at| touch(at, Until::At(self.start + Idle::TIME)));
        let heard = self.threads * self.pieces * self.piece;
        let seconds = 1..=CALLS.max(2 * self.threads * self.own) / heard;
        let (task, touch) = (Task::new(), &touch);
        std::thread::scope(|scope| {
            for thread in 1..self.threads {
                let seconds = seconds.clone();
                scope.spawn(move || seconds.for_each(|second| self.hear(thread, second, touch)));
            }
            scope.spawn(|| {
                for second in seconds {
                    clock.pass(1_000);
                    self.hear(0, second, touch);
                    let _context = clock.0.enter();
                    watch.time(heard, || task.run(&mut poll));
                }
            });
        });
        watch.nanos += watch.calls as f64 * self.median();
    }

    /// A thread hears of connections in a second.
    fn hear(&self, thread: usize, second: usize, touch: &impl Fn(usize, Until)) {
        let when = self.start + Duration::from_secs(second as u64) + Idle::TIME;
        for piece in second * self.pieces..(second + 1) * self.pieces {
            let until = if self.reads_once { Until::At(when) } else { Until::After(when - Instant::now()) };
            let ats = piece * self.piece..(piece + 1) * self.piece;
            let (lost, mut watch) = (processors_lost(), Stopwatch { nanos: 0.0, calls: 0 });
            self.meeting.meet();
            let start = std::time::Instant::now();
            watch.time(self.piece, || ats.for_each(|at| touch(thread * self.own + at % self.own, until)));
            let is_cut = processors_lost() > lost;
            locked(&self.spans).push(Span { start, nanos: watch.nanos, is_cut });
        }
        self.meeting.meet();
    }

    /// The nanoseconds of a touch, where all threads were at work at once.
    fn median(&self) -> f64 {
        let spans = locked(&self.spans);
        let at_once = |spans: &&[Span]| {
            let starts = || spans.iter().map(|span| span.start);
            let is_apart = starts().max() > starts().min().map(|first| first + AT_ONCE);
            !is_apart && !spans.iter().any(|span| span.is_cut)
        };
        let touches = (self.threads * self.piece) as f64;
        let nanos = |spans: &[Span]| spans.iter().map(|span| span.nanos).sum::<f64>() / touches;
        let mut all: Vec<f64> = spans.chunks(self.threads).filter(at_once).map(nanos).collect();
        all.sort_by(f64::total_cmp);
        all.get(all.len() / 2).copied().unwrap_or(f64::INFINITY)
    }
}

/// How often this thread lost its processor to another, and not since it slept.
fn processors_lost() -> u64 {
    let status = std::fs::read_to_string("/proc/thread-self/status").expect("Linux tells it");
    let told = status.lines().find_map(|line| line.strip_prefix("nonvoluntary_ctxt_switches:"));
    told.and_then(|count| count.trim().parse().ok()).expect("a count")
}

/// Where threads wait for each other, without sleep, so that they go on at once.
struct Meeting {
    threads: usize,
    came: AtomicUsize,
}

impl Meeting {
    fn meet(&self) {
        let nth = self.came.fetch_add(1, SeqCst) / self.threads + 1;
        for turn in 1_u64.. {
            if self.came.load(SeqCst) >= nth * self.threads {
                return;
            }
            // Another may need the processor to come here.
            if turn % 1_000 == 0 {
                std::thread::yield_now();
            }
            std::hint::spin_loop();
        }
    }
}

type Row = fn(usize, &Clock, &mut Dice, &mut Stopwatch);

/// What is asked for.
struct Asked {
    sizes: Vec<usize>,
    row: String,
    side: String,
    rounds: usize,
}

impl Asked {
    fn read() -> Asked {
        let mut asked = Asked { sizes: Vec::new(), row: String::new(), side: String::new(), rounds: ROUNDS };
        for word in std::env::args().skip(1) {
            match word.split_once('=') {
                Some(("row", name)) => asked.row = name.into(),
                Some(("side", side)) => asked.side = side.into(),
                Some(("rounds", rounds)) => asked.rounds = rounds.parse().expect("a number of rounds"),
                _ => asked.sizes.push(word.parse().expect("a number of entries")),
            }
        }
        if asked.sizes.is_empty() {
            asked.sizes = vec![1_000, 10_000, 60_000];
        }
        asked
    }

    /// The least nanoseconds a call of each side, taken in turns, and all calls that were timed. A side that isn't asked for
    /// has none.
    fn least(&self, entries: usize, sides: [(&str, Row); 2]) -> ([f64; 2], usize) {
        let (mut least, mut calls) = ([f64::INFINITY; 2], 0);
        for round in 0..self.rounds {
            for (at, (side, row)) in sides.into_iter().enumerate() {
                if self.side.is_empty() || self.side == side {
                    let watch = timed(row, entries, round);
                    least[at] = least[at].min(watch.nanos / watch.calls as f64);
                    calls += watch.calls;
                }
            }
        }
        (least, calls)
    }
}

fn timed(row: Row, entries: usize, round: usize) -> Stopwatch {
    let builder = &mut tokio::runtime::Builder::new_current_thread();
    let clock = Clock(builder.enable_time().start_paused(true).build().expect("a runtime"));
    let _context = clock.0.enter();
    let mut watch = Stopwatch { nanos: 0.0, calls: 0 };
    row(entries, &clock, &mut Dice(0x9e37_79b9 + round as u64), &mut watch);
    watch
}

fn main() {
    let asked = Asked::read();
    let rows: [(&str, Row, Row); 14] = [
        ("insert_at", peers::insert, ours::insert),
        ("reset_at", peers::reset, ours::reset),
        ("remove", peers::remove, ours::remove),
        ("poll_expired", peers::poll, ours::poll),
        ("poll_expired, no limit", peers::poll, poll_whole),
        ("poll_expired, nothing due", peers::poll_waiting, ours::poll_waiting),
        ("reset_at / handle.extend_at", peers::reset, extend),
        ("idle timeouts by reset", peers::idle, ours::idle),
        ("idle timeouts by handle", idle_by_mutex::<1, false>, idle_by_handle::<1, false>),
        ("idle timeouts by handle, one moment", idle_by_mutex::<1, true>, idle_by_handle::<1, true>),
        ("idle timeouts by handle, 2 threads", idle_by_mutex::<2, false>, idle_by_handle::<2, false>),
        ("idle timeouts by handle, 2 threads, one moment", idle_by_mutex::<2, true>, idle_by_handle::<2, true>),
        ("idle timeouts by handle, 4 threads", idle_by_mutex::<4, false>, idle_by_handle::<4, false>),
        ("idle timeouts by handle, 4 threads, one moment", idle_by_mutex::<4, true>, idle_by_handle::<4, true>),
    ];
    println!("{:46} {:>8} {:>8} {:>8} {:>6} {:>9}", "row", "entries", "peer ns", "ours ns", "ratio", "calls");
    let is_asked = |name: &str| asked.row.is_empty() || asked.row == name;
    for (name, peer, own) in rows.into_iter().filter(|row| is_asked(row.0)) {
        for &entries in &asked.sizes {
            let ([peer, own], calls) = asked.least(entries, [("peer", peer), ("ours", own)]);
            println!("{name:46} {entries:>8} {peer:>8.1} {own:>8.1} {:>6.1} {calls:>9}", peer / own);
        }
    }
}
