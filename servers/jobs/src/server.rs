//! Serves holders. What a client sends in one go is answered together: all that are done by one statement, say.

use crate::commands::{fenced, try_again, Attempt, Command};
use crate::db::{tell, Param};
use crate::effect::note_lateness;
use crate::input::Input;
use crate::leases::{adopt, running};
use crate::partitions::Beat;
use crate::redirect::redirect;
use crate::sql;
use crate::worker::Worker;
use servers::resp::{Protocol, Reply};
use socket2::{SockRef, TcpKeepalive};
use std::collections::{HashMap, HashSet};
use std::io;
use std::mem::discriminant;
use std::sync::Arc;
use std::time::Duration;
use tokio::io::AsyncWriteExt;
use tokio::net::{TcpListener, TcpStream};
use tokio::sync::{OwnedSemaphorePermit, Semaphore};
use tokio::time::{timeout, Instant};
use tokio_postgres::Row;

const TOGETHER: usize = 5_000;
/// How long a client may leave its replies unread.
const PATIENCE: Duration = Duration::from_secs(15);
/// How long whoever has guessed a password waits for the next guess.
const GUESS: Duration = Duration::from_millis(200);
/// How often a worker looks whether others have jobs while a holder waits for one.
const ELSEWHERE: Duration = Duration::from_millis(250);

pub async fn serve(worker: Arc<Worker>, listener: TcpListener) {
    let seats = Arc::new(Semaphore::new(worker.options.clients));
    loop {
        match listener.accept().await {
            Ok((stream, _)) => drop(tokio::spawn(talk(worker.clone(), stream, seats.clone().try_acquire_owned().ok()))),
            Err(_) => tokio::time::sleep(Duration::from_millis(50)).await,
        }
    }
}

async fn talk(worker: Arc<Worker>, mut stream: TcpStream, seat: Option<OwnedSemaphorePermit>) {
    // A reply that waits for a packet to fill would be late.
    let _ = stream.set_nodelay(true);
    // Nobody would notice that a host has vanished: where a client is silent for so long, its host is asked.
    let (idle, interval) = (Duration::from_secs(300), Duration::from_secs(75));
    let keepalive = TcpKeepalive::new().with_time(idle).with_interval(interval).with_retries(9);
    let _ = SockRef::from(&stream).set_tcp_keepalive(&keepalive);
    match seat {
        None => drop(stream.write_all(b"-ERR max number of clients reached\r\n").await),
        Some(_seat) => {
            let is_known = worker.options.password.is_none();
            let mut holder = Holder { worker: &worker, is_known, input: Input::new(), replies: Vec::new() };
            worker.metrics.clients.add(1);
            // Whoever is gone isn't answered.
            let _ = holder.converse(&mut stream).await;
            worker.metrics.clients.subtract(1);
        }
    }
}

struct Holder<'w> {
    worker: &'w Worker,
    /// It has said the password, or there is none.
    is_known: bool,
    input: Input,
    replies: Vec<u8>,
}

impl Holder<'_> {
    async fn converse(&mut self, stream: &mut TcpStream) -> io::Result<()> {
        loop {
            let mut commands = Vec::new();
            while commands.len() < TOGETHER && !matches!(commands.last(), Some(Command::Last(_))) {
                match self.input.next() {
                    Ok(Some(args)) => commands.push(Command::of(args)),
                    Ok(None) => break,
                    Err(error) => commands.push(Command::Last(Reply::Error(format!("ERR Protocol error: {error}")))),
                }
            }
            if commands.contains(&Command::Attack) {
                tell(format_args!("a client sent POST or Host: as a web page that attacks does: it is closed"));
                return Ok(());
            }
            if commands.is_empty() && !self.read(stream).await? {
                return Ok(());
            }
            for alike in runs(&commands) {
                self.answer(alike, stream).await?;
            }
            self.send(stream).await?;
            if let Some(Command::Last(_)) = commands.last() {
                return Ok(());
            }
        }
    }

    /// Reads a piece. False where the client has ended, or says nothing for longer than it may.
    async fn read(&mut self, stream: &mut TcpStream) -> io::Result<bool> {
        let piece = self.input.read(stream);
        match self.worker.options.timeout {
            None => piece.await,
            Some(limit) => timeout(limit, piece).await.unwrap_or(Ok(false)),
        }
    }

    fn tell(&mut self, reply: Reply) {
        reply.write_whole(&mut self.replies, Protocol::Two);
    }

    async fn send(&mut self, stream: &mut TcpStream) -> io::Result<()> {
        let sent = timeout(PATIENCE, stream.write_all(&self.replies)).await;
        self.replies.clear();
        self.replies.shrink_to(1 << 20);
        sent.map_err(|_| io::Error::from(io::ErrorKind::TimedOut))?
    }

    async fn answer(&mut self, alike: &[Command], stream: &mut TcpStream) -> io::Result<()> {
        match alike[0] {
            Command::Beat(_) if self.is_known => self.beat(&attempts(alike)).await,
            Command::Done(_) | Command::Fail(..) if self.is_known => self.finish(alike).await,
            _ => {
                for command in alike {
                    let reply = self.reply(command, stream).await?;
                    self.tell(reply);
                }
            }
        }
        Ok(())
    }

    async fn reply(&mut self, command: &Command, stream: &mut TcpStream) -> io::Result<Reply> {
        Ok(match command {
            Command::Auth(said) => self.learn(said).await,
            Command::Last(reply) => reply.clone(),
            Command::Answer(reply) if self.is_known => reply.clone(),
            Command::Take { count, wait, kinds } if self.is_known => {
                // What was said before isn't kept waiting.
                self.send(stream).await?;
                self.take(*count, *wait, kinds, stream).await?
            }
            Command::Time if self.is_known => {
                let now = self.worker.clock.now();
                Reply::Array([now / 1_000_000, now % 1_000_000].map(|it| Reply::bulk(it.to_string().as_bytes())).into())
            }
            _ => Reply::Error("NOAUTH Authentication required.".to_owned()),
        })
    }

    async fn learn(&mut self, said: &[u8]) -> Reply {
        let Some(password) = &self.worker.options.password else {
            return Reply::Error("ERR Client sent AUTH, but no password is set.".to_owned());
        };
        if password.is(said) {
            self.is_known = true;
            return Reply::Status("OK");
        }
        tokio::time::sleep(GUESS).await;
        Reply::Error("WRONGPASS invalid username-password pair or user is disabled.".to_owned())
    }

    async fn take(&self, count: usize, wait: Duration, kinds: &[String], stream: &TcpStream) -> io::Result<Reply> {
        let worker = self.worker;
        let mut ending = worker.ending.clone();
        let until = Instant::now() + wait;
        loop {
            let look_again = until.min(Instant::now() + ELSEWHERE);
            let jobs = tokio::select! {
                jobs = worker.ready.take(&worker.partitions, kinds, count, look_again) => jobs,
                _ = gone(stream) => return Err(io::ErrorKind::ConnectionAborted.into()),
                _ = ending.changed() => Vec::new(),
            };
            if jobs.is_empty() && worker.is_ending() {
                return Ok(try_again("this worker drains"));
            }
            if jobs.is_empty() {
                match worker.elsewhere(kinds) {
                    Some(place) => return Ok(Reply::Error(format!("MOVED {place}"))),
                    None if Instant::now() >= until => return Ok(Reply::Array(Vec::new())),
                    None => continue,
                }
            }
            let given = give(worker, &jobs, kinds).await;
            // What was ready may be gone from the table: then the holder goes on waiting.
            if given != Reply::Array(Vec::new()) || Instant::now() >= until {
                return Ok(given);
            }
        }
    }

    async fn beat(&mut self, attempts: &[Attempt]) {
        let worker = self.worker;
        if worker.is_ending() {
            return attempts.iter().for_each(|_| self.tell(try_again("this worker drains")));
        }
        let extend = |it: &Attempt| worker.partitions.beat(it.id, it.attempt, worker.options.lease);
        let mut beats: Vec<Beat> = attempts.iter().map(extend).collect();
        let is_unknown = |it: &(&Beat, &Attempt)| *it.0 == Beat::Unknown;
        let unknown: Vec<i64> = beats.iter().zip(attempts).filter(is_unknown).map(|it| it.1.id).collect();
        let cancelled = if unknown.is_empty() { HashSet::new() } else { adopt(worker, &unknown).await };
        for (beat, it) in beats.iter_mut().zip(attempts).filter(|it| *it.0 == Beat::Unknown) {
            *beat = extend(it);
        }
        for (beat, it) in beats.into_iter().zip(attempts) {
            let reply = match beat {
                Beat::Extended(until) => {
                    worker.metrics.beats.add(1);
                    Reply::Integer(until / 1_000)
                }
                Beat::Unknown if cancelled.contains(&(it.id, it.attempt)) => {
                    Reply::Error(format!("CANCELLED job {} was cancelled", it.id))
                }
                Beat::Doubtful => {
                    try_again("the database doesn't answer: whether this worker still has the job isn't known")
                }
                Beat::Unwritten => try_again("the lease can't be written: its row is locked"),
                Beat::Foreign => redirect(worker, worker.partitions.of(it.id)).await,
                Beat::Fenced | Beat::Unknown => refuse(worker, *it),
            };
            self.tell(reply);
        }
    }

    /// Attempts are done, or have failed for reasons.
    async fn finish(&mut self, commands: &[Command]) {
        let (worker, attempts) = (self.worker, attempts(commands));
        let (ids, numbers): (Vec<i64>, Vec<i32>) = attempts.iter().map(|it| (it.id, it.attempt)).unzip();
        let reason = |it: &Command| if let Command::Fail(_, reason) = it { reason.clone() } else { String::new() };
        let reasons: Vec<String> = commands.iter().map(reason).collect();
        let terms = worker.partitions.terms();
        let params: [Param<'_>; 6] = [&worker.number, &terms, &ids, &numbers, &reasons, &worker.options.attempts];
        let (sql, params, count) = match commands[0] {
            Command::Done(_) => (sql::DONE, &params[..4], &worker.metrics.done),
            _ => (sql::FAIL, &params[..], &worker.metrics.failed),
        };
        match worker.links.insist(sql, params).await {
            Ok(rows) => count.add(self.end(&attempts, &rows).await),
            Err(error) => attempts.iter().for_each(|_| self.tell(try_again(&error.to_string()))),
        }
    }

    /// Answers attempts by the jobs that the database tells, each by what became of it, and by `running` as it was.
    /// Tells how many have ended.
    async fn end(&mut self, attempts: &[Attempt], rows: &[Row]) -> u64 {
        let mut ended: HashMap<i64, bool> = HashMap::new();
        for row in rows {
            let state: &str = row.get(1);
            *ended.entry(row.get(0)).or_default() |= state != "running";
            self.worker.metrics.dead.add((state == "dead").into());
        }
        for it in attempts {
            let reply = match ended.get(&it.id) {
                Some(true) => Reply::Status("OK"),
                Some(false) => redirect(self.worker, self.worker.partitions.of(it.id)).await,
                None => refuse(self.worker, *it),
            };
            if ended.get(&it.id) != Some(&false) {
                self.worker.partitions.end(it.id, it.attempt, None);
            }
            self.tell(reply);
        }
        ended.values().filter(|it| **it).count() as u64
    }
}

fn refuse(worker: &Worker, it: Attempt) -> Reply {
    worker.metrics.fenced.add(1);
    fenced(it)
}

/// Gives jobs out that are ready, as far as the table has them as some of these kinds.
async fn give(worker: &Worker, jobs: &[(i64, Arc<str>)], kinds: &[String]) -> Reply {
    let ids: Vec<i64> = jobs.iter().map(|it| it.0).collect();
    let (lease, bounded) = (worker.options.lease.as_secs_f64(), worker.ready.bounded());
    let asked: Vec<&String> = bounded.iter().filter(|it| jobs.iter().any(|job| job.1[..] == it[..])).collect();
    let params: [Param<'_>; 6] = [&worker.number, &worker.partitions.terms(), &ids, &lease, &kinds, &asked];
    let answer = worker.links.query(sql::TAKE, &params).await;
    let reply = match &answer {
        Ok(rows) => {
            let taken: HashSet<i64> = rows.iter().map(|row| row.get(0)).collect();
            jobs.iter().filter(|it| !taken.contains(&it.0)).for_each(|it| worker.ready.note_refused(&it.1));
            Reply::Array(rows.iter().map(|row| given(worker, row)).collect())
        }
        Err(error) => try_again(&error.to_string()),
    };
    worker.partitions.note_asked(&ids, answer.map_or(0, |rows| rows.len()));
    reply
}

/// What a holder is told of a job: its id, its attempt, the end of its lease in milliseconds since 1970, and its payload.
fn given(worker: &Worker, row: &Row) -> Reply {
    let it = running(row);
    worker.partitions.note_running(&it, Duration::ZERO);
    worker.metrics.taken.add(1);
    note_lateness(worker, row.get(4), row.get(5), it.attempt);
    let payload: String = row.get(3);
    let numbers = [it.id, it.attempt.into(), it.lease_until / 1_000].map(Reply::Integer);
    Reply::Array(numbers.into_iter().chain([Reply::bulk(payload.as_bytes())]).collect())
}

fn attempts(commands: &[Command]) -> Vec<Attempt> {
    let attempt = |it: &Command| match it {
        Command::Beat(it) | Command::Done(it) | Command::Fail(it, _) => Some(*it),
        _ => None,
    };
    commands.iter().filter_map(attempt).collect()
}

/// The longest pieces of commands of one kind.
fn runs(mut rest: &[Command]) -> impl Iterator<Item = &[Command]> {
    std::iter::from_fn(move || {
        let kind = discriminant(rest.first()?);
        let (alike, more) = rest.split_at(rest.iter().take_while(|it| discriminant(*it) == kind).count());
        rest = more;
        Some(alike)
    })
}

/// Ends when the client has closed its side. Not where it has said more, which is answered in its turn.
async fn gone(stream: &TcpStream) {
    if let Ok(1..) = stream.peek(&mut [0]).await {
        std::future::pending::<()>().await;
    }
}
