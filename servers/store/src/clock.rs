//! Ticks: the milliseconds since 1970, from a clock that never goes back.

use std::time::{Duration, Instant, SystemTime};

/// A tick of one millisecond.
pub type Tick = u64;

pub struct Clock {
    /// A moment shortly before it began, in which a tick began.
    pub begun: Instant,
    since: Tick,
}

impl Clock {
    pub fn new() -> Clock {
        let since = SystemTime::now().duration_since(SystemTime::UNIX_EPOCH).unwrap_or_default();
        let (now, part) = (Instant::now(), Duration::from_nanos(u64::from(since.subsec_nanos()) % 1_000_000));
        Clock { begun: now.checked_sub(part).unwrap_or(now), since: since.as_millis() as Tick }
    }

    pub fn now(&self) -> Tick {
        self.tick(Instant::now())
    }

    /// The moment in which a tick begins, or its first one where that was before.
    pub fn moment(&self, tick: Tick) -> Instant {
        self.begun + Duration::from_millis(tick.saturating_sub(self.since))
    }

    pub fn tick(&self, moment: Instant) -> Tick {
        let passed = moment.saturating_duration_since(self.begun);
        self.since + passed.as_secs() * 1_000 + Tick::from(passed.subsec_millis())
    }
}
