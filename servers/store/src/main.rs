//! A server of expiring keys that speaks the Redis protocol. Each deadline is an entry of Hontkhale's delay queue.

mod clock;
mod command;
mod connection;
mod event_loop;
mod keeper;
mod keyspace;
mod options;
mod output;
mod room;
mod seats;
mod server;
mod settings;
#[cfg(test)]
mod tests;

use hontkhale::parts::owner::LAST_TICK;
use keyspace::Keyspace;
use options::{Options, HELP};
use room::{Resident, Room, ALWAYS};
use seats::Seats;
use servers::resp;
use std::io::{self, Write};
use std::net::SocketAddr;
use std::process::ExitCode;
use std::sync::{Arc, Mutex, MutexGuard, PoisonError};

/// Of the memory, a part of so many is for connections.
const PARTS: usize = 4;
/// By how much less the keys stop it from growing: what threads write at the same time, and what the machine tells late.
const SLACK: usize = 8 << 20;
/// The files that are open beside connections.
const OWN_FILES: usize = 64;

/// Takes a lock, of a thread that panicked too: what it has locked is whole at each step.
fn lock<T>(one: &Mutex<T>) -> MutexGuard<'_, T> {
    one.lock().unwrap_or_else(PoisonError::into_inner)
}

/// For how many clients there are files, after the process's limit is raised as far as the machine allows.
fn clients_with_files(wanted: usize) -> Result<usize, Box<dyn std::error::Error>> {
    let needed = wanted + OWN_FILES;
    let files = rlimit::increase_nofile_limit(needed as u64)?;
    match wanted.min((files as usize).saturating_sub(OWN_FILES)) {
        0 => Err(format!("this process may have {files} open files and needs more than {OWN_FILES}").into()),
        clients => Ok(clients),
    }
}

fn run(options: Options) -> Result<(), Box<dyn std::error::Error>> {
    let clients = clients_with_files(options.clients)?;
    let memory = options.memory;
    let seats = Arc::new(Seats::new(clients, memory / PARTS));
    let (keys, most) = (memory - memory / PARTS, options.most()?);
    // What is served always may leave holes of its own once more.
    let others = memory / PARTS + 2 * keys / ALWAYS + SLACK;
    let resident = Resident::new(most - others, seats.clone())?;
    let keyspace = Keyspace::new(options.keys, Room::new(keys).within(resident));
    let keyspace = Arc::new(keyspace.map_err(|error| format!("the deadlines of --keys {}: {error}", options.keys))?);
    if keyspace.clock.now() > LAST_TICK {
        return Err("this machine's clock is past the year 2109, the last that a deadline may have".into());
    }
    let at = SocketAddr::from((options.bind, options.port));
    let listener = server::listen(at).map_err(|error| format!("{at} can't be listened at: {error}"))?;
    let at = listener.local_addr()?;
    let fewer = match clients {
        all if all == options.clients => String::new(),
        fewer => format!("; {fewer} clients in place of {}, for lack of open files", options.clients),
    };
    let access = match options.settings.password {
        None => "without a password: whoever reaches it reads and changes every key",
        Some(_) => "with a password",
    };
    // Whoever started it may have closed its output.
    let _ = writeln!(io::stdout(), "store: {at}, {access}{fewer}");
    server::serve(listener, &keyspace, &seats, &Arc::new(options.settings), options.threads)?;
    let _ = writeln!(io::stdout(), "store: ended, as it was told to; {} connections are left", seats.taken());
    Ok(())
}

fn main() -> ExitCode {
    let done = match Options::of(std::env::args().skip(1)) {
        Ok(None) => writeln!(io::stdout(), "{HELP}").or(Ok(())),
        Ok(Some(options)) => run(options),
        Err(wrong) => Err(format!("{wrong}; --help tells more").into()),
    };
    if let Err(refusal) = done {
        eprintln!("store: {refusal}");
        return ExitCode::FAILURE;
    }
    ExitCode::SUCCESS
}
