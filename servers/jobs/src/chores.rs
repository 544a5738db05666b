//! What any worker does beside its jobs: it enqueues what schedules want, and prunes what was done long ago.

use crate::db::tell;
use crate::fault::{Asked, Error, Whose};
use crate::worker::Worker;
use std::collections::HashMap;
use std::sync::Arc;
use std::time::{Duration, Instant};
use tokio_postgres::Row;

/// How often schedules are looked at. Their jobs are enqueued some time before they are due.
const SCHEDULES_EVERY: Duration = Duration::from_secs(1);
/// How often jobs that are over are pruned, and the most of a statement.
const PRUNE_EVERY: Duration = Duration::from_secs(10);
const PRUNE: i64 = 1_000;

/// The most schedules of a statement, and how long one is left alone whose job can't be enqueued.
const SCHEDULES: i64 = 100;
const BAD: Duration = Duration::from_secs(60);

/// The row of a schedule is locked while its job is enqueued, and both stand or neither does.
const ENQUEUE: &str = "
WITH due AS MATERIALIZED (
    SELECT name, next FROM jobs_schedules
    WHERE next < now() + interval '3 seconds' AND name <> ALL ($1::text[]) AND ($2::text IS NULL OR name = $2)
    ORDER BY next LIMIT $3::bigint FOR NO KEY UPDATE SKIP LOCKED
), planned AS (
    UPDATE jobs_schedules s SET next = jobs_next(s.cron, s.zone, greatest(now(), due.next))
    FROM due WHERE s.name = due.name
    RETURNING due.next AS due, s.kind, s.payload, s.priority, s.attempts
), enqueued AS (
    INSERT INTO jobs (due, kind, payload, priority, attempts) SELECT due, kind, payload, priority, attempts FROM planned
)
SELECT name FROM due";

/// The schedules that are due, as `ENQUEUE` takes them, and how many should have been enqueued.
const NAMES: &str = "
SELECT name FROM jobs_schedules WHERE next < now() + interval '3 seconds' AND name <> ALL ($1::text[])
ORDER BY next LIMIT $2::bigint";
const OVERDUE: &str = "SELECT count(*) FROM jobs_schedules WHERE next < now() - interval '5 seconds'";

const DELETE: &str = "
DELETE FROM jobs WHERE id = ANY (ARRAY(
    SELECT id FROM jobs
    WHERE state IN ('done', 'dead') AND state = $3::text AND ended < now() - $1::float8 * interval '1 second'
    ORDER BY ended LIMIT $2::bigint FOR UPDATE SKIP LOCKED
))
RETURNING id";

/// Workers that ended without a word.
const FORGET: &str = "DELETE FROM jobs_workers WHERE until < now() - interval '1 minute'";

pub async fn run(worker: Arc<Worker>) {
    let mut pruned: Option<Instant> = None;
    let mut bad = HashMap::new();
    while !worker.is_ending() {
        if let Err(error) = enqueue(&worker, &mut bad).await {
            tell(format_args!("schedules aren't looked at: {error}"));
        }
        if pruned.map_or(true, |it| it.elapsed() > PRUNE_EVERY) && !prune(&worker).await {
            pruned = Some(Instant::now());
            // Whoever comes next forgets them.
            let _ = worker.links.query(FORGET, &[]).await;
        }
        tokio::time::sleep(SCHEDULES_EVERY).await;
    }
}

/// Enqueues the jobs of all schedules that are due, some at a time. Those that are bad are left alone for a while.
async fn enqueue(worker: &Worker, bad: &mut HashMap<String, Instant>) -> Result<(), Error> {
    bad.retain(|_, since| since.elapsed() < BAD);
    loop {
        let left: Vec<String> = bad.keys().cloned().collect();
        let some = match enqueue_of(worker, &left, None).await {
            Some(Err((Whose::Row, _))) => one_by_one(worker, &left, bad).await?,
            Some(answer) => answer.map_err(|it| it.1)?.len(),
            None => return Ok(()),
        };
        if (some as i64) < SCHEDULES {
            break;
        }
    }
    let overdue: i64 = worker.links.query(OVERDUE, &[]).await?[0].get(0);
    worker.metrics.schedules_overdue.set(overdue as u64);
    Ok(())
}

/// One of those that are due is bad, and doesn't keep the others.
async fn one_by_one(worker: &Worker, left: &[String], bad: &mut HashMap<String, Instant>) -> Result<usize, Error> {
    let rows = worker.links.query(NAMES, &[&left, &SCHEDULES]).await?;
    for row in &rows {
        let name: String = row.get(0);
        if let Some(Err((whose, error))) = enqueue_of(worker, &[], Some(&name)).await {
            tell(format_args!("the job of schedule {name} isn't enqueued: {error}"));
            if whose != Whose::Row {
                return Err(error);
            }
            bad.insert(name, Instant::now());
        }
    }
    Ok(rows.len())
}

async fn enqueue_of(worker: &Worker, left: &[String], name: Option<&str>) -> Option<Result<Vec<Row>, (Whose, Error)>> {
    worker.links.insist_on_rows(ENQUEUE, &[&left, &name, &SCHEDULES], Asked::Schedules).await
}

/// False where nothing is left to be pruned. At most so many statements that schedules aren't late.
async fn prune(worker: &Worker) -> bool {
    let (begun, options) = (Instant::now(), &worker.options);
    for (state, keep) in [("done", options.keep_done), ("dead", Some(options.keep_dead))] {
        let Some(keep) = keep.map(|it| it.as_secs_f64()) else { continue };
        loop {
            match worker.links.query(DELETE, &[&keep, &PRUNE, &state]).await {
                Ok(rows) if (rows.len() as i64) < PRUNE => break,
                Ok(_) if begun.elapsed() < SCHEDULES_EVERY => {}
                Ok(_) => return true,
                Err(error) => {
                    tell(format_args!("{state} jobs aren't pruned: {error}"));
                    break;
                }
            }
        }
    }
    false
}
