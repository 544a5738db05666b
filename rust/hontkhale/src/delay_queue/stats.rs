//! What a queue tells of itself.

use crate::delay_queue::shard::{Core, Counts, Seen, Shard};
use crate::delay_queue::shared::Shared;
use std::fmt;
use std::mem::size_of;
use std::time::Duration;

/// By how many powers of two of ticks entries that come out late are counted. The last one is for all that are later, too.
pub(crate) const POWERS: usize = 12;
/// What the wheel and the words take of each slot, what the words alone take, and what a core takes besides.
const SLOT_BYTES: usize = 32;
const WORD_BYTES: usize = 8;
const CORE_BYTES: usize = 6_000;

/// What a server watches of a [`DelayQueue`](crate::DelayQueue).
///
/// While other threads change the queue each number is about right. Where none does, `inserted` is `expired`, `removed`, `cancels`
/// and `waiting` together.
///
/// Its [`Display`](fmt::Display) is one line for a log, which counts the entries that wait, those that were cancelled and hold
/// their values yet, and the bytes of `memory`, and tells `late` and `latest`:
///
/// ```
/// # use hontkhale::{DelayQueue, ManualClock};
/// # use std::time::Duration;
/// # let clock = ManualClock::new();
/// # let queue = DelayQueue::builder().clock(&clock).build();
/// # queue.insert("session", Duration::from_secs(1))?;
/// # clock.advance(Duration::from_secs(3));
/// let mut stats = queue.stats();
/// stats.memory = 2_048;
/// assert_eq!(stats.to_string(), "1 waiting, 0 cancelled, 2048 bytes, 2.000 s late, at most 2.000 s");
/// # Ok::<(), Box<dyn std::error::Error>>(())
/// ```
#[derive(Clone, Copy, Debug, PartialEq, Eq)]
#[non_exhaustive]
pub struct Stats {
    /// The entries that were inserted since the queue's making.
    pub inserted: u64,
    /// Those that came out to a receiver.
    pub expired: u64,
    /// Those that were taken out before: by `remove` and its like, a guard, `drain` or `clear`.
    pub removed: u64,
    /// Those that were cancelled. The values of all but `cancelled` were taken out and dropped, later than the cancel.
    pub cancels: u64,
    /// The entries that wait, or are due and didn't come out yet: never too few, as [`len`](crate::DelayQueue::len) tells.
    pub waiting: usize,
    /// The entries that were cancelled and whose values are still in the queue.
    pub cancelled: usize,
    /// The values, of cancelled entries and others, that were freed within the drop of another one, and are dropped after it.
    pub deferred: usize,
    /// About how many bytes the queue takes, without what its values point to.
    pub memory: usize,
    /// By how much the oldest entry that is due is late, at most; nothing where none is due. An entry that was extended,
    /// reset to a later deadline or cancelled counts by its earlier deadline until the queue comes upon it.
    pub late: Duration,
    /// By how much an entry was late at most, as it came out or by `late`, since the making or the last
    /// [`reset_lateness`](crate::DelayQueue::reset_lateness).
    pub latest: Duration,
    /// How many entries came out how late since then: at a place `k` those that were less than 2 to the power of `k` + 1
    /// milliseconds late, and, but for the first place, not less than 2 to the power of `k`. Those at the last place were 2,048
    /// milliseconds late or more.
    pub lateness: [u64; POWERS],
}

/// Where [`Stats::report`] tells what a queue has come to. A metrics library has a kind of each.
///
/// ```
/// use hontkhale::{DelayQueue, Metrics};
/// use std::time::Duration;
///
/// /// Text as Prometheus reads it.
/// struct Text(String);
///
/// impl Metrics for Text {
///     fn counter(&mut self, name: &str, total: u64) {
///         self.0 += &format!("sessions_{name}_total {total}\n");
///     }
///     fn gauge(&mut self, name: &str, value: f64) {
///         self.0 += &format!("sessions_{name} {value}\n");
///     }
///     fn bucket(&mut self, name: &str, below: Duration, count: u64) {
///         let le = if below == Duration::MAX { "+Inf".into() } else { below.as_secs_f64().to_string() };
///         self.0 += &format!("sessions_{name}_bucket{{le=\"{le}\"}} {count}\n");
///     }
/// }
///
/// let queue = DelayQueue::new();
/// queue.insert("ann", Duration::from_secs(30))?;
/// let mut text = Text(String::new());
/// queue.stats().report(&mut text);
/// assert!(text.0.contains("sessions_inserted_total 1\n") && text.0.contains("sessions_waiting 1\n"));
/// assert!(text.0.ends_with("sessions_lateness_seconds_bucket{le=\"+Inf\"} 0\n"));
/// # Ok::<(), Box<dyn std::error::Error>>(())
/// ```
pub trait Metrics {
    /// A total since the queue's making.
    fn counter(&mut self, name: &str, total: u64);
    /// What rises and falls. Lengths of time are in seconds.
    fn gauge(&mut self, name: &str, value: f64);
    /// A bucket of a histogram: how often less than that long was measured. So it counts what the buckets before it count, unlike a
    /// place of [`Stats::lateness`]. The buckets come in rising order; the length of the last one is [`Duration::MAX`], and its
    /// count is the total.
    fn bucket(&mut self, name: &str, below: Duration, count: u64);
}

impl Stats {
    /// Tells all of it: the counters `inserted`, `expired`, `removed` and `cancels`, the gauges `waiting`, `cancelled`, `deferred`,
    /// `memory_bytes`, `late_seconds` and `latest_seconds`, and the buckets of `lateness_seconds`.
    pub fn report(&self, metrics: &mut impl Metrics) {
        metrics.counter("inserted", self.inserted);
        metrics.counter("expired", self.expired);
        metrics.counter("removed", self.removed);
        metrics.counter("cancels", self.cancels);
        metrics.gauge("waiting", self.waiting as f64);
        metrics.gauge("cancelled", self.cancelled as f64);
        metrics.gauge("deferred", self.deferred as f64);
        metrics.gauge("memory_bytes", self.memory as f64);
        metrics.gauge("late_seconds", self.late.as_secs_f64());
        metrics.gauge("latest_seconds", self.latest.as_secs_f64());
        let mut sum = 0;
        for (power, count) in (1..).zip(self.lateness) {
            sum += count;
            let below = match power {
                POWERS => Duration::MAX,
                power => Duration::from_millis(1 << power),
            };
            metrics.bucket("lateness_seconds", below, sum);
        }
    }
}

impl fmt::Display for Stats {
    fn fmt(&self, f: &mut fmt::Formatter<'_>) -> fmt::Result {
        let (late, latest) = (self.late.as_secs_f64(), self.latest.as_secs_f64());
        write!(
            f,
            "{} waiting, {} cancelled, {} bytes, {late:.3} s late, at most {latest:.3} s",
            self.waiting, self.cancelled, self.memory
        )
    }
}

impl<T> Shard<T> {
    /// The tick by which the first entry is filed. No deadline of a live one is before it.
    fn first_filed(&self) -> Option<u64> {
        let filed = |core: &Core<T>| core.filed(&core.peek()?.entry());
        self.cores().filter_map(filed).min()
    }

    /// About how many bytes it takes, without what its values point to.
    fn memory(&self) -> usize {
        let slot = size_of::<(u32, u32, Option<T>)>() + SLOT_BYTES;
        let (slots, itself) = (self.slots(), size_of::<(Seen, Shard<T>)>());
        itself + self.cores().count() * CORE_BYTES + slots * slot + (self.words - slots) * WORD_BYTES
    }
}

impl<T> Shared<T> {
    /// The tick by which the first entry of all is filed, where that is before a tick. No deadline of a shard is before its
    /// hint, so those of later hints aren't asked.
    pub fn first_filed_before(&self, end: u64) -> Option<u64> {
        let mut first = end;
        for at in 0..self.common.seen.len() {
            if self.common.hint(at) < first {
                first = self.lock(at).first_filed().map_or(first, |filed| filed.min(first));
            }
        }
        Some(first).filter(|first| *first < end)
    }

    pub fn stats(&self) -> Stats {
        let waiting = self.common.waiting();
        let mut sum = Counts::default();
        let (mut freed, mut memory) = (0, size_of::<Shared<T>>());
        for shard in self.locked() {
            sum.add(&shard.counts);
            freed += shard.freed();
            memory += shard.memory();
        }
        let cancels = self.common.seen.iter().map(Seen::cancels).sum::<u64>();
        let now = self.common.time.tick();
        let late = self.first_filed_before(now).map_or(0, |first| now - first);
        let mut lateness = sum.late;
        // Those that came out in time are counted nowhere else.
        let counted = sum.counted_late + lateness.iter().sum::<u64>();
        lateness[0] += sum.expired.saturating_sub(counted);
        Stats {
            inserted: sum.inserted,
            expired: sum.expired,
            removed: sum.inserted - sum.expired - sum.left,
            cancels,
            waiting,
            cancelled: cancels.saturating_sub(freed) as usize,
            deferred: self.deferred.len(),
            memory,
            late: Duration::from_millis(late),
            latest: Duration::from_millis(sum.latest.max(late)),
            lateness,
        }
    }
}
