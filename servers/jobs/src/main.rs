//! Delayed jobs and leases that stand in PostgreSQL. Hontkhale's delay queue is the index of what is due soon.

mod chores;
mod clock;
mod commands;
mod db;
mod effect;
mod fault;
mod input;
mod leases;
mod metrics;
mod options;
mod owner;
mod partitions;
mod ready;
mod redirect;
mod scrape;
mod server;
mod setup;
mod sql;
mod status;
mod worker;

use options::{Verb, HELP};
use std::error::Error;
use std::process::ExitCode;
use std::sync::{Mutex, MutexGuard, PoisonError};

/// Whoever panics with a lock ends the program: nothing is left half done.
fn enter<T>(mutex: &Mutex<T>) -> MutexGuard<'_, T> {
    mutex.lock().unwrap_or_else(PoisonError::into_inner)
}

fn run(verb: Verb) -> Result<(), Box<dyn Error>> {
    let runtime = tokio::runtime::Builder::new_multi_thread().worker_threads(2).enable_all().build()?;
    let ended = runtime.block_on(async {
        match verb {
            Verb::Help => println!("{HELP}"),
            Verb::Setup(database, partitions) => setup::run(database, partitions).await?,
            Verb::Worker(options) => worker::run(*options).await?,
            Verb::Status(database) => status::run(&database).await?,
        }
        Ok(())
    });
    // Nobody waits for what a drain has left.
    runtime.shutdown_background();
    ended
}

fn main() -> ExitCode {
    let (code, error) = match options::verb(std::env::args().skip(1)) {
        Err(error) => (ExitCode::from(2), error),
        Ok(verb) => match run(verb) {
            Ok(()) => return ExitCode::SUCCESS,
            Err(error) => (ExitCode::FAILURE, error.to_string()),
        },
    };
    eprintln!("jobs: {error}");
    code
}
