//! Where the ticks of a stream come from.

use std::time::{Duration, Instant};

/// Says which tick it is.
///
/// ```
/// use hontkhale::parts::streams::TickSource;
///
/// struct At(u64);
///
/// impl TickSource for At {
///     fn now(&mut self) -> u64 {
///         self.0
///     }
/// }
/// ```
pub trait TickSource {
    /// The tick of this moment, of one millisecond. A stream asks it while its shard's lock is held,
    /// so it must not take that lock itself.
    fn now(&mut self) -> u64;
}

/// The whole milliseconds since an instant. It never goes back. Sources that share one start tell one time.
///
/// ```
/// use hontkhale::parts::streams::{MillisecondTicks, TickSource};
///
/// let mut ticks = MillisecondTicks::new();
/// let first = ticks.now();
/// assert!(first <= ticks.now());
/// ```
pub struct MillisecondTicks {
    start: Instant,
    last: u64,
}

// The whole milliseconds of a length of time, or the greatest `u64`.
fn whole_milliseconds(length: Duration) -> u64 {
    u64::try_from(length.as_millis()).unwrap_or(u64::MAX)
}

impl MillisecondTicks {
    /// The ticks since now.
    pub fn new() -> MillisecondTicks {
        MillisecondTicks::since(Instant::now())
    }

    /// The ticks since `start`.
    pub fn since(start: Instant) -> MillisecondTicks {
        MillisecondTicks { start, last: 0 }
    }
}

impl TickSource for MillisecondTicks {
    fn now(&mut self) -> u64 {
        self.last = self.last.max(whole_milliseconds(self.start.elapsed()));
        self.last
    }
}
