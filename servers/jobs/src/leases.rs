//! Leases: the write to the table of those that holders have extended in memory, and those that have ended, whose jobs
//! are given out again, or are dead after the last attempt.

use crate::db::tell;
use crate::fault::Error;
use crate::partitions::{Extended, Running, Waiting};
use crate::sql;
use crate::worker::Worker;
use std::collections::{HashMap, HashSet};
use std::sync::Arc;
use std::time::{Duration, SystemTime};
use tokio::sync::mpsc::UnboundedReceiver;
use tokio_postgres::Row;

/// The most leases of a write, and of a statement that ends them.
const WRITE: usize = 10_000;
const BATCH: usize = 2_000;
/// How long a lease is left alone whose row is locked.
const LOCKED: Duration = Duration::from_millis(300);

pub async fn write_on(worker: Arc<Worker>) {
    let mut interval = tokio::time::interval(worker.options.write_every);
    interval.set_missed_tick_behavior(tokio::time::MissedTickBehavior::Delay);
    while !worker.is_ending() {
        interval.tick().await;
        write(&worker, &worker.partitions.owned()).await;
    }
}

/// Writes the leases of some partitions that were extended since they were written last.
pub async fn write(worker: &Worker, partitions: &[usize]) {
    let mut extended = worker.partitions.extended(partitions);
    let mut left = extended.len();
    extended.sort_unstable_by_key(|it| it.id);
    for piece in extended.chunks(WRITE) {
        match write_some(worker, piece).await {
            Ok(unwritten) => left -= piece.len() - unwritten,
            Err(error) => {
                tell(format_args!("leases aren't written: {error}"));
                break;
            }
        }
    }
    worker.metrics.leases_unwritten.set(left as u64);
}

/// Tells how many aren't written. Those whose rows others have locked are tried again at the next interval.
async fn write_some(worker: &Worker, leases: &[Extended]) -> Result<usize, Error> {
    let (ids, attempts): (Vec<i64>, Vec<i32>) = leases.iter().map(|it| (it.id, it.attempt)).unzip();
    // Whole milliseconds, as holders are told.
    let untils: Vec<i64> = leases.iter().map(|it| worker.clock.at(it.until) / 1_000 * 1_000).collect();
    let times: Vec<SystemTime> = untils.iter().map(|it| time(*it)).collect();
    let terms = worker.partitions.terms();
    let rows = worker.links.query(sql::WRITE_LEASES, &[&worker.number, &terms, &ids, &attempts, &times]).await?;
    worker.metrics.leases_written.add(rows.len() as u64);
    let written: HashSet<i64> = rows.iter().map(|row| row.get(0)).collect();
    let mut unwritten = Vec::new();
    for (lease, until) in leases.iter().zip(untils) {
        if written.contains(&lease.id) {
            worker.partitions.note_written(lease, until);
        } else {
            unwritten.push((lease.id, lease.attempt));
        }
    }
    if !unwritten.is_empty() {
        check(worker, &unwritten).await?;
    }
    Ok(unwritten.len())
}

/// Gives back what comes out of the index, until the keeper has ended.
pub async fn expire_on(worker: Arc<Worker>, mut ended: UnboundedReceiver<Vec<(i64, i32)>>) {
    while let Some(mut leases) = ended.recv().await {
        while leases.len() < BATCH {
            let Ok(more) = ended.try_recv() else { break };
            leases.extend(more);
        }
        leases.sort_unstable();
        for piece in leases.chunks(BATCH) {
            expire(&worker, piece).await;
        }
    }
}

async fn expire(worker: &Worker, leases: &[(i64, i32)]) {
    let (ids, attempts): (Vec<i64>, Vec<i32>) = leases.iter().copied().unzip();
    let (terms, most) = (worker.partitions.terms(), worker.options.attempts);
    let rows = match worker.links.insist(sql::EXPIRE, &[&worker.number, &terms, &ids, &attempts, &most]).await {
        Ok(rows) => rows,
        Err(error) => {
            tell(format_args!("leases that have ended aren't written: {error}"));
            // The owner looks for leases that have ended in the table, too, and takes up those that aren't held here.
            for (id, attempt) in leases {
                worker.partitions.end(*id, *attempt, None);
            }
            return;
        }
    };
    let is_waiting = |row: &&Row| row.get::<_, &str>(1) == "waiting";
    let again: HashMap<i64, Waiting> = rows.iter().filter(is_waiting).map(|row| (row.get(0), waiting(row))).collect();
    worker.metrics.expired.add(rows.len() as u64);
    worker.metrics.dead.add((rows.len() - again.len()) as u64);
    // A worker that does its jobs itself finds them by its next reading.
    let is_given = worker.options.effect.is_none();
    let is_again = |it: &&(i64, i32)| worker.partitions.end(it.0, it.1, again.get(&it.0).filter(|_| is_given));
    if !is_given {
        worker.partitions.read_whole(again.keys().map(|id| worker.partitions.of(*id)));
    }
    let ready: Vec<Waiting> = leases.iter().filter(is_again).filter_map(|it| again.get(&it.0).cloned()).collect();
    worker.ready.push(ready);
    if rows.len() < leases.len() {
        adopt(worker, &ids).await;
    }
}

/// Leases that the table doesn't have as this worker did: those that stand there are taken over. What has ended and
/// couldn't be written, since another has locked the row, is looked at again a moment later.
/// Tells the attempts that were cancelled.
pub async fn adopt(worker: &Worker, ids: &[i64]) -> HashSet<(i64, i32)> {
    let rows = worker.links.insist(sql::LEASES_OF, &[&ids]).await.unwrap_or_else(|error| {
        tell(format_args!("leases aren't read: {error}"));
        Vec::new()
    });
    let (running, cancelled): (Vec<&Row>, Vec<&Row>) = rows.iter().partition(|row| lease(row).is_some());
    running.iter().filter_map(|row| lease(row)).for_each(|it| worker.partitions.note_running(&it, LOCKED));
    cancelled.iter().map(|row| (row.get(0), row.get(1))).collect()
}

/// Leases that couldn't be written: those whose job was cancelled or deleted, or that another attempt has, are let go.
async fn check(worker: &Worker, leases: &[(i64, i32)]) -> Result<(), Error> {
    let ids: Vec<i64> = leases.iter().map(|it| it.0).collect();
    let rows = worker.links.query(sql::LEASES_OF, &[&ids]).await?;
    let stand: HashSet<(i64, i32)> = rows.iter().filter_map(lease).map(|it| (it.id, it.attempt)).collect();
    for (id, attempt) in leases.iter().filter(|it| !stand.contains(it)) {
        worker.partitions.end(*id, *attempt, None);
    }
    Ok(())
}

/// A row of `LEASES_OF`, where it has a lease.
fn lease(row: &Row) -> Option<Running> {
    row.get::<_, Option<SystemTime>>(2).map(|_| running(row))
}

fn waiting(row: &Row) -> Waiting {
    let kind: &str = row.get(4);
    Waiting { id: row.get(0), due: micros(row.get(2)), priority: row.get(3), kind: kind.into() }
}

/// A row of the statements that read leases.
pub fn running(row: &Row) -> Running {
    Running { id: row.get(0), attempt: row.get(1), lease_until: micros(row.get(2)) }
}

/// The time so many microseconds after 1970 began.
pub fn time(micros: i64) -> SystemTime {
    let time = Duration::from_micros(micros.unsigned_abs());
    if micros < 0 {
        SystemTime::UNIX_EPOCH - time
    } else {
        SystemTime::UNIX_EPOCH + time
    }
}

pub fn micros(time: SystemTime) -> i64 {
    match time.duration_since(SystemTime::UNIX_EPOCH) {
        Ok(since) => since.as_micros() as i64,
        Err(before) => -(before.duration().as_micros() as i64),
    }
}
