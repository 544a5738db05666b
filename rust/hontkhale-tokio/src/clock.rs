//! Moments of tokio's clock as ticks of one millisecond.

use hontkhale::parts::owner::LAST_TICK;
use std::time::Duration;
use tokio::time::Instant;

const NANOS_PER_MILLI: u32 = 1_000_000;

#[derive(Clone, Copy, Debug)]
pub(crate) struct Clock {
    /// The moment of tick 0.
    start: Instant,
}

impl Clock {
    /// It is tick 0 now.
    pub fn new() -> Clock {
        Clock { start: Instant::now() }
    }

    /// The tick at which a moment is reached: milliseconds since the start, rounded up; 0 before it.
    #[inline]
    pub fn tick_at(&self, moment: Instant) -> u64 {
        millis_up(moment.saturating_duration_since(self.start))
    }

    /// The tick that is reached that long after now. Tick 0 may be to come by the clock of another runtime, or of none.
    #[inline]
    pub fn tick_after(&self, timeout: Duration) -> u64 {
        let now = Instant::now();
        let since = match now.checked_duration_since(self.start) {
            Some(since) => since.saturating_add(timeout),
            None => timeout.saturating_sub(self.start.duration_since(now)),
        };
        millis_up(since)
    }

    /// The tick that is over now: milliseconds since the start, rounded down.
    #[inline]
    pub fn tick_over(&self) -> u64 {
        let since = Instant::now().saturating_duration_since(self.start);
        since.as_secs().min(LAST_TICK) * 1_000 + u64::from(since.subsec_millis())
    }

    /// The moment of a tick. A queue's ticks are at most 139 years, so there is one; and as it can't panic, it isn't reckoned
    /// where a caller drops it.
    #[inline]
    pub fn moment(&self, tick: u64) -> Instant {
        self.start.checked_add(Duration::from_millis(tick)).unwrap_or(self.start)
    }
}

/// Whole milliseconds, rounded up; beyond the last tick they may be fewer, and beyond it still.
///
/// `div_ceil` looks at the remainder too, which takes a few instructions more.
#[allow(clippy::manual_div_ceil)]
#[inline]
fn millis_up(since: Duration) -> u64 {
    let millis = (since.subsec_nanos() + NANOS_PER_MILLI - 1) / NANOS_PER_MILLI;
    since.as_secs().min(LAST_TICK) * 1_000 + u64::from(millis)
}
