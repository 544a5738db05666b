//! From where a queue has the time.

use crate::delay_queue::dropping::{first_panic, go_on};
use crate::delay_queue::shared::Common;
use crate::locks::hold;
use crate::ticks::{rounded_up, whole, LAST_TICK};
use std::fmt;
use std::hash::{Hash, Hasher};
use std::sync::atomic::{AtomicU64, Ordering::SeqCst};
use std::sync::{Arc, Mutex, Weak};
use std::thread;
use std::time::{Duration, Instant};

/// A clock that stands still until it is advanced, for tests. A clone is the same clock.
///
/// The moment after which a task that nobody polls is passed over counts by it, too: while it stands, such a task keeps what is
/// due from the receivers that wait behind it.
///
/// ```
/// use hontkhale::{DelayQueue, ManualClock};
/// use std::time::Duration;
///
/// let clock = ManualClock::new();
/// let queue = DelayQueue::builder().clock(&clock).build();
/// queue.insert("lease", Duration::from_secs(3_600))?;
/// clock.advance(Duration::from_secs(3_599));
/// assert!(queue.try_recv().is_err());
/// clock.advance(Duration::from_secs(1));
/// assert_eq!(queue.recv().map(|expired| expired.value), Some("lease"));
/// # Ok::<(), Box<dyn std::error::Error>>(())
/// ```
#[derive(Clone)]
pub struct ManualClock(Arc<Manual>);

struct Manual {
    start: Instant,
    passed: AtomicU64,
    queues: Mutex<Vec<Weak<Common>>>,
}

impl ManualClock {
    /// A clock that stands at the present moment.
    pub fn new() -> ManualClock {
        ManualClock(Arc::new(Manual {
            start: Instant::now(),
            passed: AtomicU64::new(0),
            queues: Mutex::default(),
        }))
    }

    /// The moment at which it stands.
    pub fn now(&self) -> Instant {
        self.0.start + Duration::from_nanos(self.0.passed.load(SeqCst))
    }

    /// Goes on by that much, at most to 584 years after its start, and wakes the receivers that wait for it, and whoever is in
    /// [`wait_empty`](crate::DelayQueue::wait_empty).
    ///
    /// # Panics
    /// If a task's waker panics. The receivers of all queues are woken before, and of several panics the first goes on.
    pub fn advance(&self, by: Duration) {
        let by = u64::try_from(by.as_nanos()).unwrap_or(u64::MAX);
        let passed = &self.0.passed;
        let _ = passed.fetch_update(SeqCst, SeqCst, |passed| Some(passed.saturating_add(by)));
        let queues = hold(&self.0.queues).clone();
        let left = queues.iter().filter_map(Weak::upgrade);
        let woken = first_panic(left.map(|queue| queue.receivers.wake_all(queue.time.tick())));
        hold(&self.0.queues).retain(|queue| queue.strong_count() > 0);
        go_on(woken);
    }

    /// From now on an advance wakes whoever waits for the time of that queue.
    pub(crate) fn wakes(&self, queue: &Arc<Common>) {
        hold(&self.0.queues).push(Arc::downgrade(queue));
    }
}

impl Default for ManualClock {
    fn default() -> ManualClock {
        ManualClock::new()
    }
}

impl fmt::Debug for ManualClock {
    fn fmt(&self, f: &mut fmt::Formatter<'_>) -> fmt::Result {
        f.debug_tuple("ManualClock").field(&self.now()).finish()
    }
}

/// A queue's time in ticks of one millisecond since its start. A deadline is rounded up and the present down, so nothing
/// comes out before its time.
#[derive(Debug)]
pub(crate) struct Time {
    start: Instant,
    /// The parts of the start, where they tell how long ago it was.
    parts: Option<Parts>,
    clock: Source,
}

/// A moment as seconds and nanoseconds, as it tells them to a [`Hasher`].
///
/// Each insert and each receive asks how long ago the start was. std answers by a call of some 40 instructions, and these parts
/// tell it in eight. Nobody promises what a moment tells, so a queue goes by the parts only if they agree with std as it is made.
#[derive(Clone, Copy, Debug, Default)]
struct Parts {
    seconds: u64,
    nanos: u32,
}

impl Hasher for Parts {
    // Signed ones come here, too.
    #[inline(always)]
    fn write_u64(&mut self, seconds: u64) {
        self.seconds = seconds;
    }

    #[inline(always)]
    fn write_u32(&mut self, nanos: u32) {
        self.nanos = nanos;
    }

    fn write(&mut self, _: &[u8]) {}

    fn finish(&self) -> u64 {
        self.seconds
    }
}

impl Parts {
    #[inline(always)]
    fn of(when: Instant) -> Parts {
        let mut parts = Parts::default();
        when.hash(&mut parts);
        parts
    }

    /// The parts of a start, where they agree with std on moments from just before it until the last tick.
    fn of_start(start: Instant) -> Option<Parts> {
        let parts = Parts::of(start);
        let nanos = [0, 1, 999_999_999, 1_000_000_000, LAST_TICK * 1_000_000];
        let after = nanos.map(|nanos| start.checked_add(Duration::from_nanos(nanos)));
        let before = start.checked_sub(Duration::from_nanos(1));
        let mut moments = after.into_iter().chain([before]).flatten();
        moments
            .all(|when| Parts::of(when).since(parts) == when.saturating_duration_since(start))
            .then_some(parts)
    }

    /// How much later it is than a start, nothing where it is before it.
    #[inline(always)]
    fn since(self, start: Parts) -> Duration {
        let (nanos, borrows) = self.nanos.overflowing_sub(start.nanos);
        let seconds = self.seconds.wrapping_sub(start.seconds);
        let seconds = seconds.wrapping_sub(u64::from(borrows));
        if (seconds as i64) < 0 {
            return Duration::ZERO;
        }
        let borrowed = if borrows { 1_000_000_000 } else { 0 };
        Duration::new(seconds, nanos.wrapping_add(borrowed))
    }
}

/// What a queue's time is read from.
#[derive(Clone, Debug)]
pub(crate) enum Source {
    System,
    Manual(ManualClock),
    /// A function of the program's, as the clock of a runtime.
    Read(fn() -> Instant),
}

impl Source {
    #[inline]
    fn now(&self) -> Instant {
        match self {
            Source::System => Instant::now(),
            Source::Manual(clock) => clock.now(),
            Source::Read(now) => now(),
        }
    }
}

impl Time {
    /// The time from a moment on that isn't to come, or from now.
    pub fn new(clock: Source, start: Option<Instant>) -> Time {
        let now = clock.now();
        let start = start.map_or(now, |start| start.min(now));
        let parts = Parts::of_start(start);
        Time { start, parts, clock }
    }

    #[inline]
    pub fn now(&self) -> Instant {
        self.clock.now()
    }

    /// The present tick.
    #[inline]
    pub fn tick(&self) -> u64 {
        whole(self.passed())
    }

    /// The first tick that isn't before a moment, or one beyond the last. It reads no clock.
    #[inline(always)]
    pub fn tick_at(&self, when: Instant) -> u64 {
        rounded_up(self.until(when)).0
    }

    /// The same, and the moment at which that tick begins. Nothing is divided for that one.
    #[inline(always)]
    pub fn rounded(&self, when: Instant) -> (u64, Instant) {
        match rounded_up(self.until(when)) {
            // It may be before the start.
            (0, _) => (0, self.start),
            (tick, early) => (tick, when + Duration::new(0, early)),
        }
    }

    /// The first tick that isn't before the moment that comes after a duration, or the present tick where it comes at once.
    #[inline]
    pub fn tick_in(&self, after: Duration) -> u64 {
        let passed = self.passed();
        if after.is_zero() {
            return whole(passed);
        }
        rounded_up(passed.saturating_add(after)).0
    }

    /// How long after the start a moment is, nothing where it is before it.
    #[inline(always)]
    fn until(&self, when: Instant) -> Duration {
        match self.parts {
            Some(start) => Parts::of(when).since(start),
            None => passed_by_std(self.start, when),
        }
    }

    #[inline]
    fn passed(&self) -> Duration {
        self.until(self.now())
    }

    /// The moment at which a tick begins.
    #[inline]
    pub fn moment(&self, tick: u64) -> Instant {
        self.start + Duration::from_millis(tick)
    }

    /// The same of a tick that mostly is one whose moment is known.
    #[inline(always)]
    pub fn moment_beside(&self, tick: u64, (known, moment): (u64, Instant)) -> Instant {
        if tick == known {
            moment
        } else {
            self.moment(tick)
        }
    }

    /// The same, none for a tick that never comes.
    pub fn moment_of(&self, tick: u64) -> Option<Instant> {
        (tick <= LAST_TICK).then(|| self.moment(tick))
    }

    /// Puts the thread to sleep until it is woken, at most until a moment.
    pub fn park(&self, until: Option<Instant>) {
        let left = until.map(|when| when.saturating_duration_since(self.now()));
        match (left, &self.clock) {
            // Whoever advances the clock after this look wakes all that sleep.
            (Some(Duration::ZERO), Source::Manual(_)) => {}
            (None, _) | (_, Source::Manual(_)) => thread::park(),
            (Some(length), _) => thread::park_timeout(length),
        }
    }
}

/// How long after another one a moment is. They go by value: std's call, made in place, would have them in memory before anybody knows
/// that it is wanted.
#[cold]
#[inline(never)]
fn passed_by_std(start: Instant, when: Instant) -> Duration {
    when.saturating_duration_since(start)
}

#[cfg(test)]
mod tests {
    use super::{hold, rounded_up, ManualClock, Parts, Source, Time, LAST_TICK};
    use crate::DelayQueue;
    use std::thread;
    use std::time::{Duration, Instant};

    /// From starts within a second, by the parts of moments and by std alone.
    #[test]
    fn a_moment_is_the_tick_that_std_tells() {
        const NANOS: [u32; 5] = [0, 1, 999_999, 1_000_000, 999_999_999];
        let lengths = [0, 1, 7, LAST_TICK / 1_000 - 1].map(|seconds| NANOS.map(|nanos| Duration::new(seconds, nanos)));
        let starts = (0..10).map(|part| Instant::now() + Duration::from_millis(100 * part));
        let times = starts.flat_map(|start| [Parts::of_start(start), None].map(|parts| (start, parts)));
        for (start, parts) in times {
            let clock = Source::System;
            let time = Time { start, parts, clock };
            for length in lengths.into_iter().flatten() {
                let ticks = length.as_nanos().div_ceil(1_000_000) as u64;
                let after = (ticks, start + Duration::from_millis(ticks));
                assert_eq!(
                    (time.rounded(start + length), time.tick_at(start + length)),
                    (after, ticks)
                );
                let Some(before) = start.checked_sub(length) else {
                    continue;
                };
                assert_eq!((time.rounded(before), time.tick_at(before)), ((0, start), 0));
            }
        }
    }

    #[test]
    fn a_deadline_is_rounded_up_and_refused_beyond_the_last_tick() {
        let last = Duration::from_millis(LAST_TICK);
        assert_eq!(rounded_up(Duration::ZERO), (0, 0));
        assert_eq!(rounded_up(Duration::from_nanos(1)), (1, 999_999));
        assert_eq!(rounded_up(Duration::from_millis(7)), (7, 0));
        assert_eq!(rounded_up(last), (LAST_TICK, 0));
        assert!(rounded_up(last + Duration::from_nanos(1)).0 > LAST_TICK);
        assert!(rounded_up(Duration::MAX).0 > LAST_TICK);
    }

    #[test]
    fn the_last_tick_comes_and_none_after_it() {
        let time = Time::new(Source::System, None);
        assert_eq!(time.moment_of(LAST_TICK), Some(time.moment(LAST_TICK)));
        assert_eq!(time.moment_of(LAST_TICK + 1), None);
    }

    /// The system's clock would wake it while the manual one stands.
    #[test]
    fn who_waits_for_a_manual_clock_sleeps_until_it_is_advanced() {
        let clock = ManualClock::new();
        let time = Time::new(Source::Manual(clock.clone()), None);
        time.park(Some(clock.now()));
        let waits = thread::spawn(move || time.park(Some(clock.now() + Duration::from_millis(1))));
        waits.thread().unpark();
        waits.join().expect("it was woken");
    }

    #[test]
    fn a_clock_keeps_nothing_of_a_queue_that_is_gone() {
        let clock = ManualClock::new();
        let queues = [(); 3].map(|()| DelayQueue::<String>::builder().clock(&clock).build());
        clock.advance(Duration::ZERO);
        assert_eq!(hold(&clock.0.queues).len(), 3);
        drop(queues);
        clock.advance(Duration::ZERO);
        assert_eq!(hold(&clock.0.queues).len(), 0);
    }
}
