//! Jobs that the worker does itself: a job is taken, its effect had, and the job done by one statement.

use crate::db::{tell, Links};
use crate::fault::{Asked, Error, Whose};
use crate::partitions::Waiting;
use crate::sql;
use crate::worker::Worker;
use std::cmp::Reverse;
use std::sync::Arc;
use std::time::{Duration, SystemTime};
use tokio::sync::mpsc::UnboundedReceiver;
use tokio::sync::{OwnedSemaphorePermit, Semaphore};
use tokio::time::sleep;
use tokio_postgres::error::SqlState;
use tokio_postgres::Row;

const BATCH: usize = 500;
/// How long a session rests where the database can't run the effect.
const UNFIT: Duration = Duration::from_millis(50);
/// How long a job is put off whose effect has waited for a lock in vain, and how late it has to be for that to be an
/// attempt: whoever has the lock is at fault, and not the job.
const LOCKED: Duration = Duration::from_secs(1);
const PATIENCE: Duration = Duration::from_secs(300);

/// The statement that takes jobs and has this effect of them.
pub async fn statement(links: &Links, effect: &str) -> Result<String, Error> {
    let begin = sql::BEGIN_EFFECT;
    let reading = format!("{begin}{effect}{}", sql::END_EFFECT);
    match links.insist_to_prepare(&reading).await {
        Err(error) if error.code() == Some(&SqlState::FEATURE_NOT_SUPPORTED) => {
            Ok(format!("{begin}{effect}{}", sql::END_EFFECT_WITHOUT_ROWS))
        }
        answer => answer.map(|_| reading),
    }
}

/// Does what comes out of the index until the keeper has ended: what came while a statement was under way by the next,
/// and as many statements at a time as there are sessions.
pub async fn run(worker: Arc<Worker>, statement: Arc<str>, mut jobs: UnboundedReceiver<Vec<Waiting>>) {
    let sessions = worker.links.count();
    let free = Arc::new(Semaphore::new(sessions));
    let mut left = Vec::new();
    loop {
        let Ok(permit) = free.clone().acquire_owned().await else { return };
        if left.is_empty() {
            let Some(first) = jobs.recv().await else { break };
            left = first;
        }
        while left.len() < BATCH {
            let Ok(more) = jobs.try_recv() else { break };
            left.extend(more);
        }
        left.sort_by_key(|it: &Waiting| (Reverse(it.priority), it.due));
        let rest = left.split_off(left.len().min(BATCH));
        // What was paused meanwhile is none of them.
        let is_held = |it: &Waiting| worker.partitions.may_be_given(it.id, &it.kind);
        let batch = std::mem::replace(&mut left, rest).into_iter().filter(is_held).map(|it| it.id).collect();
        tokio::spawn(batch_of(worker.clone(), statement.clone(), batch, permit));
    }
    // All permits are back once no statement is under way.
    let _ = free.acquire_many(sessions as u32).await;
}

async fn batch_of(worker: Arc<Worker>, statement: Arc<str>, mut ids: Vec<i64>, _permit: OwnedSemaphorePermit) {
    ids.sort_unstable();
    let had = match ask(&worker, &statement, &ids).await {
        // One of them is bad or slow, and doesn't keep the others.
        Some(Err((Whose::Row, _))) if ids.len() > 1 => {
            let mut had = 0;
            for id in &ids {
                let one = vec![*id];
                had += settle(&worker, &one, ask(&worker, &statement, &one).await).await;
            }
            had
        }
        answer => settle(&worker, &ids, answer).await,
    };
    worker.partitions.note_asked(&ids, had);
}

/// What an effect has come to: its rows, or whose fault it is that there are none.
type Answer = Result<Vec<Row>, (Whose, Error)>;

async fn ask(worker: &Worker, statement: &str, ids: &Vec<i64>) -> Option<Answer> {
    let (terms, bounded) = (worker.partitions.terms(), worker.ready.bounded());
    worker.links.insist_on_rows(statement, &[&worker.number, &terms, ids, &bounded], Asked::Jobs).await
}

/// Tells how many jobs are done.
async fn settle(worker: &Worker, ids: &[i64], answer: Option<Answer>) -> usize {
    match answer {
        Some(Ok(rows)) => {
            let had = rows.len() as u64;
            worker.metrics.taken.add(had);
            worker.metrics.done.add(had);
            worker.metrics.refused.add((ids.len() as u64).saturating_sub(had));
            rows.iter().for_each(|row| note_lateness(worker, row.get(0), row.get(1), row.get(2)));
            return rows.len();
        }
        Some(Err((Whose::Row, error))) => fail(worker, ids[0], &error).await,
        Some(Err((_, error))) => {
            // It may be right again in a moment.
            tell(format_args!("the effect can't be had, and its jobs wait: {error}"));
            worker.metrics.database_errors.add(1);
            sleep(UNFIT).await;
        }
        // The worker ends while the database doesn't answer.
        None => {}
    }
    0
}

/// Only the first attempt tells how late a job was: the others waited for their holders.
pub fn note_lateness(worker: &Worker, started: SystemTime, due: SystemTime, attempt: i32) {
    if attempt == 1 {
        let late = started.duration_since(due).unwrap_or_default();
        worker.metrics.lateness.note(late.as_micros() as u64);
    }
}

async fn fail(worker: &Worker, id: i64, error: &Error) {
    if error.is_lock() && worker.partitions.put_off(id, LOCKED, PATIENCE) {
        return tell(format_args!("job {id} is tried again after {LOCKED:?}: {error}"));
    }
    let reason = error.to_string();
    tell(format_args!("job {id} failed: {reason}"));
    worker.metrics.failed.add(1);
    let (terms, attempts) = (worker.partitions.terms(), worker.options.attempts);
    match worker.links.insist(sql::FAIL_WAITING, &[&worker.number, &terms, &id, &reason, &attempts]).await {
        Ok(rows) if rows.iter().any(|row| row.get::<_, &str>(0) == "dead") => worker.metrics.dead.add(1),
        Ok(_) => {}
        Err(error) => tell(format_args!("the failure of job {id} isn't written: {error}")),
    }
}
