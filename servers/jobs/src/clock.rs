//! The database's clock, as a worker knows it. The worker's own clock of the day is never asked.

use crate::enter;
use std::collections::VecDeque;
use std::sync::atomic::{AtomicI64, Ordering::SeqCst};
use std::sync::Mutex;
use std::time::{Duration, Instant};

/// How many of the last answers are weighed. What the database said before, if its clock was set, is forgotten then.
const ANSWERS: usize = 8;

/// A clock that is behind the database's by the way of the fastest of its last answers, and not ahead of it. It counts
/// microseconds since 1970.
pub struct Clock {
    begun: Instant,
    /// What the database's clock showed when it began, at least and at most.
    since: AtomicI64,
    since_at_most: AtomicI64,
    answers: Mutex<VecDeque<(i64, i64)>>,
}

impl Clock {
    pub fn new() -> Clock {
        Clock {
            begun: Instant::now(),
            since: AtomicI64::new(0),
            since_at_most: AtomicI64::new(0),
            answers: Mutex::new(VecDeque::new()),
        }
    }

    /// The database said that it was at this microsecond. It was asked at an uptime, and the answer has just come.
    pub fn note(&self, asked: Duration, said: i64) {
        let since = (said - self.uptime().as_micros() as i64, said - asked.as_micros() as i64);
        let mut answers = enter(&self.answers);
        if answers.len() == ANSWERS {
            answers.pop_front();
        }
        answers.push_back(since);
        // Each answer is older when it comes than when it was given: the latest sum is the closest.
        self.since.store(answers.iter().map(|it| it.0).max().unwrap_or(since.0), SeqCst);
        self.since_at_most.store(answers.iter().map(|it| it.1).min().unwrap_or(since.1), SeqCst);
    }

    pub fn uptime(&self) -> Duration {
        self.begun.elapsed()
    }

    pub fn now(&self) -> i64 {
        self.at(Instant::now())
    }

    pub fn at(&self, moment: Instant) -> i64 {
        self.since.load(SeqCst) + moment.saturating_duration_since(self.begun).as_micros() as i64
    }

    /// The moment at which this clock shows a microsecond, or shortly after it began where that was before.
    pub fn moment(&self, micros: i64) -> Instant {
        self.begun + Duration::from_micros(micros.saturating_sub(self.since.load(SeqCst)).max(0) as u64)
    }

    /// How many whole milliseconds it is until a microsecond at least: whatever the way of the answers was.
    pub fn left_until(&self, micros: i64) -> i64 {
        let at_most = self.since_at_most.load(SeqCst) + self.uptime().as_micros() as i64;
        (micros - at_most).div_euclid(1_000)
    }
}

#[cfg(test)]
mod tests {
    use super::*;

    const NOW: i64 = 1_700_000_000_000_000;

    #[test]
    fn a_slow_answer_does_not_set_the_clock_back_and_one_that_was_set_back_is_followed() {
        let clock = Clock::new();
        clock.note(clock.uptime(), NOW);
        clock.note(clock.uptime(), NOW - 40_000);
        assert!(clock.now() >= NOW);
        (0..ANSWERS).for_each(|_| clock.note(clock.uptime(), NOW - 3_600_000_000));
        assert!(clock.now() < NOW - 3_000_000_000);
    }

    #[test]
    fn what_is_left_counts_the_whole_way_of_the_answer() {
        let clock = Clock::new();
        let asked = clock.uptime();
        std::thread::sleep(Duration::from_millis(30));
        let before = Instant::now();
        clock.note(asked, NOW);
        assert!(clock.left_until(NOW + 500_000) <= 470);
        assert!(clock.moment(NOW + 500_000) >= before + Duration::from_millis(499));
    }

    #[test]
    fn a_moment_is_where_the_clock_shows_its_microsecond() {
        let clock = Clock::new();
        clock.note(clock.uptime(), NOW);
        assert_eq!(clock.at(clock.moment(NOW + 1_234_567)), NOW + 1_234_567);
        assert_eq!(clock.moment(i64::MIN), clock.begun);
        assert!(clock.moment(i64::MAX) > Instant::now());
        assert_eq!((clock.left_until(0) < 0, clock.left_until(i64::MAX / 2) > 0), (true, true));
    }
}
