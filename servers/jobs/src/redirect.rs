//! Sends a holder to the worker that owns a job.

use crate::commands::try_again;
use crate::worker::Worker;
use crate::{enter, sql};
use servers::resp::Reply;
use std::collections::HashMap;
use std::sync::Mutex;
use std::time::{Duration, Instant};

/// How long an answer of the database is good for.
const GOOD_FOR: Duration = Duration::from_millis(250);

/// The owners of partitions, as the database told last.
#[derive(Default)]
pub struct Redirects(Mutex<HashMap<usize, (Instant, String)>>);

/// The reply to a word about a partition that this worker doesn't own.
pub async fn redirect(worker: &Worker, partition: usize) -> Reply {
    let good = |it: &&(Instant, String)| it.0.elapsed() < GOOD_FOR;
    let known = enter(&worker.redirects.0).get(&partition).filter(good).map(|it| it.1.clone());
    let address = match known {
        Some(address) => address,
        None => match worker.links.query(sql::OWNER, &[&(partition as i16)]).await {
            Ok(rows) => {
                let address: String = rows.first().map(|row| row.get(0)).unwrap_or_default();
                enter(&worker.redirects.0).insert(partition, (Instant::now(), address.clone()));
                address
            }
            Err(error) => return try_again(&error.to_string()),
        },
    };
    if address.is_empty() || address == worker.address {
        return try_again(&format!("no worker has partition {partition} yet"));
    }
    Reply::Error(format!("MOVED {partition} {address}"))
}
