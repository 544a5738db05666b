use crate::clock::Clock;
use std::fmt;
use std::sync::atomic::{AtomicBool, AtomicU64, Ordering::Relaxed};
use std::time::Duration;

/// What a server watches of a queue: see [`DelayQueue::numbers`](crate::DelayQueue::numbers). It is shown as one line.
#[derive(Clone, Copy, Debug, Default, PartialEq, Eq)]
#[non_exhaustive]
pub struct Numbers {
    /// The entries that wait.
    pub waiting: usize,
    /// The entries that handles cancelled, and whose places aren't free yet: the next polls free them.
    pub cancelled: usize,
    /// The slots that are worn, each after a million stamps.
    pub worn: usize,
    /// The handles that are out.
    pub handles: usize,
    /// By how much the live entry with the least deadline is late, nothing where none is due.
    pub late: Duration,
    /// By how much an entry was late, at most: as it came out, or as `late` tells it now or told it before.
    ///
    /// It is by the clock from the first time on that the numbers are asked for. What came out before counts by the moment at
    /// which the queue had looked at the clock last, so it may have been later.
    pub latest: Duration,
}

/// By how many ticks an entry was late, at most.
#[derive(Default)]
pub(crate) struct Latest {
    ticks: AtomicU64,
    /// Whether anybody asks: the clock is read for those alone that do.
    is_asked_for: AtomicBool,
}

impl Latest {
    /// Notes that an entry comes out, at a tick that is known to be over.
    #[inline]
    pub fn note(&self, deadline: u64, reached: u64, clock: &Clock) {
        let now = if self.is_asked_for.load(Relaxed) { clock.tick_over() } else { reached };
        self.note_late(now.saturating_sub(deadline));
    }

    #[inline]
    pub fn note_late(&self, ticks: u64) {
        if ticks > self.ticks.load(Relaxed) {
            self.ticks.fetch_max(ticks, Relaxed);
        }
    }

    /// The most that was noted. From here on it is by the clock.
    pub fn ask(&self) -> Duration {
        self.is_asked_for.store(true, Relaxed);
        Duration::from_millis(self.ticks.load(Relaxed))
    }
}

impl fmt::Display for Numbers {
    fn fmt(&self, f: &mut fmt::Formatter<'_>) -> fmt::Result {
        let Numbers { waiting, cancelled, worn, handles, .. } = self;
        let (late, latest) = (self.late.as_secs_f64(), self.latest.as_secs_f64());
        write!(f, "{waiting} waiting, {cancelled} cancelled, {worn} slots worn, {handles} handles, ")?;
        write!(f, "{late:.3} s late, at most {latest:.3} s")
    }
}
