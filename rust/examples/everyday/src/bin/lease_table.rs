//! A table of leases over TCP: at most one client has a lease of a name, for as long as its heartbeats go on.
//!
//! A request is a line, and so is each answer:
//!
//! | Request | Answer |
//! |---|---|
//! | `take NAME MILLIS` | `token 7`: the lease is yours, and ends after so long without a heartbeat; or `held` |
//! | `wait NAME MILLIS` | the same, once those before you in line are done |
//! | `beat NAME TOKEN` | `ok`: it goes on for as long again; or `lost` |
//! | `free NAME TOKEN` | `ok`, and the next in line has it; or `lost` |
//!
//! Each lease has a greater token than those before it. A holder that was cut off may believe in its lease after the end.
//! So whatever a lease protects should remember the greatest token that it has seen, and refuse a smaller one. A table that
//! is started again has no lease, and its tokens begin above those of before.

use hontkhale::{DelayQueue, Key};
use std::collections::{HashMap, VecDeque};
use std::io::{self, BufRead, BufReader, Write};
use std::net::{TcpListener, TcpStream};
use std::sync::mpsc::{channel, Receiver, Sender};
use std::sync::{Arc, PoisonError, RwLock, RwLockReadGuard, RwLockWriteGuard};
use std::thread;
use std::time::{Duration, SystemTime};

struct Lease {
    token: u64,
    /// How long it goes on after a heartbeat.
    lasts: Duration,
    /// Its entry in the queue, which has its deadline.
    key: Key,
    line: VecDeque<Waiter>,
}

struct Waiter {
    lasts: Duration,
    granted: Sender<u64>,
}

struct Leases {
    by_name: HashMap<String, Lease>,
    last_token: u64,
}

pub struct LeaseTable {
    leases: RwLock<Leases>,
    /// The deadlines, each with the name of its lease.
    deadlines: DelayQueue<String>,
}

impl LeaseTable {
    /// A table whose tokens are greater than the last one, and a thread that ends its leases at their deadlines.
    pub fn new(deadlines: DelayQueue<String>, last_token: u64) -> Arc<LeaseTable> {
        let leases = RwLock::new(Leases { by_name: HashMap::new(), last_token });
        let table = Arc::new(LeaseTable { leases, deadlines });
        let ends = Arc::clone(&table);
        thread::spawn(move || {
            for expired in &ends.deadlines {
                ends.end(&expired.value);
            }
        });
        table
    }

    /// A thread that panics leaves a table that is whole.
    fn read(&self) -> RwLockReadGuard<'_, Leases> {
        self.leases.read().unwrap_or_else(PoisonError::into_inner)
    }

    fn write(&self) -> RwLockWriteGuard<'_, Leases> {
        self.leases.write().unwrap_or_else(PoisonError::into_inner)
    }

    /// The token of a new lease, none if another client has one or the queue is full.
    pub fn take(&self, name: &str, lasts: Duration) -> Option<u64> {
        let mut leases = self.write();
        if leases.by_name.contains_key(name) {
            return None;
        }
        self.grant(&mut leases, name, lasts, VecDeque::new())
    }

    /// Sends the token once the lease is free.
    pub fn wait(&self, name: &str, lasts: Duration) -> Receiver<u64> {
        let (granted, token) = channel();
        let (mut leases, waiter) = (self.write(), Waiter { lasts, granted });
        match leases.by_name.get_mut(name) {
            Some(lease) => lease.line.push_back(waiter),
            None => self.grant_to(&mut leases, name, waiter, VecDeque::new()),
        }
        token
    }

    /// A heartbeat. False if the client doesn't hold the lease any more. Heartbeats don't wait for each other: all share
    /// the table's lock, and an extend takes none.
    pub fn beat(&self, name: &str, token: u64) -> bool {
        let leases = self.read();
        let lease = leases.by_name.get(name).filter(|it| it.token == token);
        lease.is_some_and(|it| self.deadlines.extend(&it.key, it.lasts).is_ok())
    }

    /// Ends a lease before its deadline. False if the client doesn't hold it any more.
    pub fn free(&self, name: &str, token: u64) -> bool {
        let key = self.read().by_name.get(name).filter(|it| it.token == token).map(|it| it.key);
        // Whoever takes the entry out ends the lease: this call, or the thread that receives it.
        let is_out = key.is_some_and(|key| self.deadlines.remove(&key).is_ok());
        if is_out {
            self.end(name);
        }
        is_out
    }

    /// A lease is over, since its entry is out of the queue. The first in line has the next.
    fn end(&self, name: &str) {
        let mut leases = self.write();
        let mut line = leases.by_name.remove(name).map_or_else(VecDeque::new, |it| it.line);
        if let Some(next) = line.pop_front() {
            self.grant_to(&mut leases, name, next, line);
        }
    }

    /// Nobody has the name. If the queue is full, all in line are told so.
    fn grant_to(&self, leases: &mut Leases, name: &str, waiter: Waiter, line: VecDeque<Waiter>) {
        if let Some(token) = self.grant(leases, name, waiter.lasts, line) {
            // If nobody hears it, the lease ends at its deadline.
            let _ = waiter.granted.send(token);
        }
    }

    /// Nobody has the name. The table is locked until the lease stands in it, so that it doesn't end before.
    fn grant(&self, leases: &mut Leases, name: &str, lasts: Duration, line: VecDeque<Waiter>) -> Option<u64> {
        let token = leases.last_token + 1;
        let key = self.deadlines.insert(name.to_string(), lasts).ok()?;
        leases.last_token = token;
        leases.by_name.insert(name.to_string(), Lease { token, lasts, key, line });
        Some(token)
    }
}

pub fn serve(listener: TcpListener, table: &Arc<LeaseTable>) {
    for stream in listener.incoming().flatten() {
        let table = Arc::clone(table);
        thread::spawn(move || answer_all(&stream, &table));
    }
}

/// Answers until the client goes. Its leases stay until their deadlines: it may come back and go on with them.
fn answer_all(mut stream: &TcpStream, table: &LeaseTable) -> io::Result<()> {
    for line in BufReader::new(stream).lines() {
        let answer = answer(table, &line?);
        stream.write_all(format!("{answer}\n").as_bytes())?;
    }
    Ok(())
}

fn answer(table: &LeaseTable, line: &str) -> String {
    let words: Vec<&str> = line.split_whitespace().collect();
    let [word, name, number] = words[..] else { return "three words are wanted".into() };
    let Ok(number) = number.parse() else { return "a number is wanted".into() };
    let token = |token: Option<u64>| token.map_or("held".into(), |it| format!("token {it}"));
    let done = |is_done| if is_done { "ok".into() } else { "lost".into() };
    match word {
        "take" => token(table.take(name, Duration::from_millis(number))),
        "wait" => token(table.wait(name, Duration::from_millis(number)).recv().ok()),
        "beat" => done(table.beat(name, number)),
        "free" => done(table.free(name, number)),
        other => format!("{other} isn't known"),
    }
}

#[allow(dead_code)]
fn main() {
    let listener = TcpListener::bind("127.0.0.1:7008").expect("a free port");
    // A table grants less than a lease a microsecond, so the next one begins above its last token.
    let begun = SystemTime::now().duration_since(SystemTime::UNIX_EPOCH).expect("a clock past 1970");
    serve(listener, &LeaseTable::new(DelayQueue::new(), begun.as_micros() as u64));
}
