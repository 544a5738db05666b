//! The numbers of a worker, and their text for Prometheus.

use std::fmt::{self, Write};
use std::sync::atomic::{AtomicU64, Ordering::SeqCst};

#[derive(Default)]
pub struct Number(AtomicU64);

impl Number {
    pub fn add(&self, count: u64) {
        self.0.fetch_add(count, SeqCst);
    }

    pub fn subtract(&self, count: u64) {
        self.0.fetch_sub(count, SeqCst);
    }

    pub fn set(&self, value: u64) {
        self.0.store(value, SeqCst);
    }

    pub fn get(&self) -> u64 {
        self.0.load(SeqCst)
    }
}

/// The upper ends of the histogram's buckets, in units of a hundred microseconds.
const BUCKETS: [u64; 16] = [5, 10, 20, 30, 50, 75, 100, 200, 500, 1000, 2000, 5000, 10000, 50000, 300000, 3000000];
const UNIT: u64 = 100;

/// How late jobs were taken, by the database's clock.
#[derive(Default)]
pub struct Lateness {
    buckets: [Number; BUCKETS.len()],
    count: Number,
    micros: Number,
}

impl Lateness {
    pub fn note(&self, micros: u64) {
        if let Some(bucket) = BUCKETS.iter().position(|end| micros <= end * UNIT) {
            self.buckets[bucket].add(1);
        }
        self.count.add(1);
        self.micros.add(micros);
    }

    fn write(&self, name: &str, text: &mut String) -> fmt::Result {
        writeln!(text, "# HELP {name} How long after its due time a job was taken for the first time.")?;
        writeln!(text, "# TYPE {name} histogram")?;
        // The count is read first: what is noted meanwhile may stand in a bucket, and +Inf is no less than the last.
        let mut below = 0;
        let mut lines = String::new();
        for (end, bucket) in BUCKETS.iter().zip(&self.buckets) {
            below += bucket.get();
            writeln!(lines, "{name}_bucket{{le=\"{}\"}} {below}", (end * UNIT) as f64 / 1e6)?;
        }
        let count = self.count.get().max(below);
        write!(text, "{lines}{name}_bucket{{le=\"+Inf\"}} {count}\n{name}_sum ")?;
        writeln!(text, "{}\n{name}_count {count}", self.micros.get() as f64 / 1e6)
    }
}

/// Each number by its field, its kind, its name and what it tells.
macro_rules! metrics {
    ($($field:ident $kind:ident $name:ident $help:literal)*) => {
        #[derive(Default)]
        pub struct Metrics {
            $(pub $field: Number,)*
            pub lateness: Lateness,
        }

        impl Metrics {
            fn write(&self, text: &mut String) -> fmt::Result {
                $(
                    let (kind, name) = (stringify!($kind), stringify!($name));
                    writeln!(text, "# HELP {name} {}\n# TYPE {name} {kind}\n{name} {}", $help, self.$field.get())?;
                )*
                self.lateness.write("jobs_lateness_seconds", text)
            }
        }
    };
}

metrics! {
    taken counter jobs_taken_total "Attempts that were begun."
    done counter jobs_done_total "Jobs that are done."
    failed counter jobs_failed_total "Attempts that failed."
    dead counter jobs_dead_total "Jobs that failed at their last attempt."
    expired counter jobs_leases_ended_total "Leases that ended because nobody extended them."
    refused counter jobs_refused_total "Jobs that came out of the index and weren't to be taken."
    beats counter jobs_beats_total "Leases that holders extended."
    fenced counter jobs_fenced_total "Words of holders whose attempt isn't the present one."
    statements counter jobs_statements_total "Statements sent to the database."
    database_errors counter jobs_database_errors_total "Statements that the database didn't answer."
    leases_written counter jobs_leases_written_total "Leases sent to the table."
    partitions gauge jobs_partitions_owned "Partitions that this worker owns."
    indexed gauge jobs_indexed "Jobs that wait in memory."
    leases gauge jobs_leases "Leases in memory."
    leases_unwritten gauge jobs_leases_unwritten
        "Leases that the last write left, since their rows are locked or the database didn't answer."
    clients gauge jobs_clients "Holders that are connected."
    schedules_overdue gauge jobs_schedules_overdue "Schedules whose job should have been enqueued some seconds ago."
}

impl Metrics {
    pub fn text(&self) -> String {
        let mut text = String::new();
        // A string takes whatever is written.
        let _ = self.write(&mut text);
        text
    }
}

#[cfg(test)]
mod tests {
    use super::*;

    #[test]
    fn each_bucket_counts_what_is_below_its_end() {
        let metrics = Metrics::default();
        for micros in [400, 500, 900, 60_000_000, 900_000_000] {
            metrics.lateness.note(micros);
        }
        let text = metrics.text();
        for line in
            ["le=\"0.0005\"} 2", "le=\"0.001\"} 3", "le=\"30\"} 3", "le=\"300\"} 4", "le=\"+Inf\"} 5", "_count 5"]
        {
            assert!(text.contains(line), "{line} in {text}");
        }
    }
}
