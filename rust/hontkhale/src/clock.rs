//! Instants and durations as ticks.

use crate::ticks::whole;
use std::time::{Duration, Instant};

/// Gives ticks for instants: a tick is one millisecond since the clock was started.
///
/// A deadline is rounded up and the present tick down, so nothing comes out before its time.
///
/// It goes by [`Instant`], which stands while the machine is suspended on Linux (`CLOCK_MONOTONIC`, and not
/// `CLOCK_BOOTTIME`): what is due meanwhile comes out that much later. A step of the wall clock doesn't move it.
///
/// ```
/// use hontkhale::parts::Clock;
/// use hontkhale::parts::owner::{DelayCore, Turn};
/// use std::time::Duration;
///
/// let clock = Clock::start();
/// let mut queue = DelayCore::with_capacity(16)?;
/// queue.insert_or_drop("beep", clock.after(Duration::from_millis(5)))?;
/// std::thread::sleep(Duration::from_millis(6));
/// assert!(matches!(queue.poll(clock.tick())?, Turn::Out(expired) if expired.value == "beep"));
/// # Ok::<(), hontkhale::parts::owner::CoreError>(())
/// ```
#[derive(Clone, Copy, Debug, PartialEq, Eq)]
pub struct Clock {
    start: Instant,
}

impl Clock {
    /// A clock at tick 0.
    pub fn start() -> Clock {
        Clock::since(Instant::now())
    }

    /// A clock whose tick 0 was, or will be, at that instant. Until then the present tick is 0.
    pub fn since(start: Instant) -> Clock {
        Clock { start }
    }

    /// The present tick: the whole milliseconds that have passed, at most [`LAST_TICK`](crate::parts::owner::LAST_TICK).
    pub fn tick(&self) -> u64 {
        whole(self.start.elapsed())
    }

    /// The first tick that isn't before an instant, at most [`LAST_TICK`](crate::parts::owner::LAST_TICK).
    pub fn at(&self, instant: Instant) -> u64 {
        rounded_up(instant.saturating_duration_since(self.start))
    }

    /// The first tick that isn't before this moment and a duration, at most [`LAST_TICK`](crate::parts::owner::LAST_TICK).
    pub fn after(&self, duration: Duration) -> u64 {
        let (passed, to_come) = self.since_start();
        rounded_up(passed.saturating_add(duration).saturating_sub(to_come))
    }

    /// How long it is from this moment to a tick: nothing where it has passed.
    pub fn until(&self, tick: u64) -> Duration {
        let (passed, to_come) = self.since_start();
        let length = Duration::from_millis(tick);
        length.saturating_add(to_come).saturating_sub(passed)
    }

    // How long ago tick 0 was, and how long it is to come: one of them is nothing.
    fn since_start(&self) -> (Duration, Duration) {
        let passed = self.start.elapsed();
        let to_come = self.start.saturating_duration_since(Instant::now());
        (passed, to_come)
    }
}

fn rounded_up(length: Duration) -> u64 {
    whole(length.saturating_add(Duration::from_nanos(999_999)))
}

#[cfg(feature = "all-parts")]
impl crate::shards::parking::TickSource for Clock {
    fn now(&mut self) -> u64 {
        self.tick()
    }
}

#[cfg(test)]
mod tests {
    use super::Clock;
    use crate::ticks::LAST_TICK;
    use std::time::{Duration, Instant};

    const SECOND: Duration = Duration::from_secs(1);

    /// What is due 5 seconds from now is due as the clock begins, and not 5 seconds after that.
    #[test]
    fn a_clock_that_begins_later_is_late_by_nothing() {
        let clock = Clock::since(Instant::now() + 5 * SECOND);
        assert_eq!((clock.tick(), clock.after(SECOND), clock.at(Instant::now())), (0, 0, 0));
        // Some of a second may go by between the calls, and no more.
        let (after, until) = (clock.after(7 * SECOND), clock.until(2_000));
        assert!((2_000..3_000).contains(&after), "{after}");
        assert!((6 * SECOND..7 * SECOND).contains(&until), "{until:?}");
    }

    #[test]
    fn a_clock_that_began_counts_from_there() {
        let clock = Clock::since(Instant::now() - 5 * SECOND);
        let (after, until) = (clock.after(7 * SECOND), clock.until(7_000));
        assert!((12_000..13_000).contains(&after), "{after}");
        assert!((SECOND..=2 * SECOND).contains(&until), "{until:?}");
        assert_eq!(clock.until(3_000), Duration::ZERO);
        assert_eq!(clock.after(Duration::MAX), LAST_TICK);
    }
}
