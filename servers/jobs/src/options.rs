//! The words behind `jobs`.

use crate::db::{Database, CONNECT};
use servers::password::Password;
use std::fmt::Display;
use std::net::SocketAddr;
use std::ops::RangeInclusive;
use std::str::FromStr;
use std::time::Duration;
use tokio_postgres::config::{SslMode, TargetSessionAttrs};
use tokio_postgres::Config;

/// More would make each statement slower, which names all terms.
const MOST_PARTITIONS: usize = 1_024;
/// How often a job is tried where neither it nor its kind nor its worker says it: over 20 days.
const ATTEMPTS: i32 = 25;
/// So many can be counted.
const MOST_ATTEMPTS: i32 = 1_000_000_000;
const YEAR: u64 = 31_536_000_000;

pub const HELP: &str = "jobs VERB [OPTION..]: delayed jobs and leases in PostgreSQL

  jobs setup               makes the tables where they are missing, and changes those of an older program
    --partitions N           into how many parts new tables are divided among the workers, 64 where none is given
  jobs worker              runs a worker until SIGTERM, which drains it
    --listen IP:PORT         where holders take jobs over the Redis protocol, 127.0.0.1:6500 where none is given
    --announce HOST:PORT     the address that holders are sent to, the one it listens at where none is given
    --effect SQL             does each due job itself, by this statement over the rows of `taken` (id, due, payload,
                             attempt, started, kind), in the transaction that takes it, and doesn't listen
    --name TEXT              told by `jobs status`, `worker` where none is given
    --lease MS               how long a job is given out without a heartbeat, 10000 where none is given
    --write-every MS         how often heartbeats are written to the table, 2000 where none is given
    --password-file FILE     its first line is what holders have to say by AUTH before all else
    --clients N              the most holders that are connected, of 1000, 900 where none is given
    --sessions N             how many it has with the database, 2 to 32, 4 where none is given
    --timeout MS             a holder that says nothing for so long is closed; none is where none is given
    --keep-done MS           prunes jobs that were done longer ago; all are kept where none is given
    --keep-dead MS           prunes jobs that are dead for longer, 7776000000 (90 days) where none is given
    --drain MS               how long SIGTERM waits for what is under way, 20000 where none is given; a second SIGTERM
                             doesn't wait
    --attempts N             after so many attempts a job is dead, 25 where none is given: over 20 days
    --metrics IP:PORT        numbers for Prometheus, at /metrics
  jobs status              tells workers, how many partitions each owns, and jobs by their state
  --database URL           for each: postgres://user@host/name or host=.. user=.. dbname=.., JOBS_DATABASE if not given
                           with connect_timeout=S where the way to a host may take more than 2 s, several hosts
                           (host=a,b port=5432,5433) of which the primary is taken; TLS is a proxy's
  --schema NAME            the schema of the tables, which setup makes where it is missing; the first of the search
                           path where none is given
  --statement-timeout MS   after so long the database gives up a statement, and a second later the worker its session,
                           10000 where none is given
  --lock-timeout MS        how long a statement waits for what another session has locked, 5000 where none is given
  --help                   this text

Holders say JOBS.TAKE [count] [WAIT ms] [KIND name..], JOBS.BEAT id attempt, JOBS.DONE id attempt,
JOBS.FAIL id attempt [reason], TIME.
Holders have no TLS: keep --listen and --metrics where only those reach them who may.";

pub struct WorkerOptions {
    pub database: Database,
    pub listen: SocketAddr,
    pub announce: Option<String>,
    pub effect: Option<String>,
    pub name: String,
    pub lease: Duration,
    pub write_every: Duration,
    pub drain: Duration,
    pub keep_done: Option<Duration>,
    pub keep_dead: Duration,
    pub timeout: Option<Duration>,
    pub clients: usize,
    /// One that owns partitions, and those that take jobs and write what becomes of them.
    pub sessions: usize,
    pub password: Option<Password>,
    pub attempts: i32,
    pub metrics: Option<SocketAddr>,
}

pub enum Verb {
    Help,
    /// So many partitions have new tables. Others keep theirs.
    Setup(Database, Option<usize>),
    Worker(Box<WorkerOptions>),
    Status(Database),
}

struct Given(Vec<(String, String)>);

impl Given {
    fn of(words: &[String]) -> Result<Given, String> {
        let option = |pair: &[String]| match pair {
            [name, ..] if !name.starts_with("--") => Err(format!("{name} isn't an option; jobs --help tells them")),
            [name, value] => Ok((name.clone(), value.clone())),
            _ => Err(format!("{} wants a value", pair[0])),
        };
        words.chunks(2).map(option).collect::<Result<_, _>>().map(Given)
    }

    fn text(&mut self, name: &str) -> Option<String> {
        let at = self.0.iter().position(|it| it.0 == name)?;
        Some(self.0.remove(at).1)
    }

    fn address(&mut self, name: &str) -> Result<Option<SocketAddr>, String> {
        let address = |it: String| it.parse().map_err(|_| format!("{it} is no address for {name}"));
        self.text(name).map(address).transpose()
    }

    fn number<T>(&mut self, name: &str, range: RangeInclusive<T>) -> Result<Option<T>, String>
    where
        T: FromStr + PartialOrd + Display,
    {
        let number = |text: String| match text.parse() {
            Ok(it) if range.contains(&it) => Ok(it),
            _ => Err(format!("{text} is nothing for {name}: it is {} to {}", range.start(), range.end())),
        };
        self.text(name).map(number).transpose()
    }

    fn millis(&mut self, name: &str, least: u64) -> Result<Option<Duration>, String> {
        let number = self.number(name, least..=YEAR).map_err(|it| it + " milliseconds")?;
        Ok(number.map(Duration::from_millis))
    }

    fn database(&mut self) -> Result<Database, String> {
        let shown = self.text("--database");
        let url = shown.clone().or_else(|| std::env::var("JOBS_DATABASE").ok());
        let url = url.ok_or("--database or JOBS_DATABASE has to name the database")?;
        // Neither the text nor what the library says of it is shown, since a password may stand in it.
        let mut config: Config = url.parse().map_err(|_| {
            "--database or JOBS_DATABASE names no database: it is postgres://user@host/name or host=.. dbname=.., and \
             sslmode is disable or prefer"
        })?;
        let has_tls = config.get_ssl_mode() == SslMode::Require;
        let is_told = shown.is_some() && config.get_password().is_some();
        let schema = self.text("--schema");
        let is_plain = |it: &String| {
            it.len() <= 40
                && it.starts_with(|it: char| it.is_ascii_lowercase() || it == '_')
                && it.bytes().all(|it| it.is_ascii_lowercase() || it.is_ascii_digit() || it == b'_')
        };
        check(&[
            (!has_tls, "the URL's sslmode is disable or prefer: TLS to the database goes through a proxy"),
            (!is_told, "--database has a password, which whoever lists processes reads: JOBS_DATABASE hides it"),
            (schema.iter().all(is_plain), "--schema has 1 to 40 small letters, digits and _, and begins with no digit"),
        ])?;
        if config.get_connect_timeout().is_none() {
            config.connect_timeout(CONNECT);
        }
        if config.get_hosts().len() > 1 {
            // One of them is the primary.
            config.target_session_attrs(TargetSessionAttrs::ReadWrite);
        }
        Ok(Database {
            config,
            schema,
            statement_timeout: self.millis("--statement-timeout", 100)?.unwrap_or(Duration::from_secs(10)),
            lock_timeout: self.millis("--lock-timeout", 100)?.unwrap_or(Duration::from_secs(5)),
        })
    }
}

pub fn verb(words: impl Iterator<Item = String>) -> Result<Verb, String> {
    let words: Vec<String> = words.collect();
    let Some((verb, options)) = words.split_first() else { return Ok(Verb::Help) };
    if ["-h", "help"].contains(&&verb[..]) || words.iter().any(|it| it == "--help") {
        return Ok(Verb::Help);
    }
    let mut given = Given::of(options)?;
    let verb = match &verb[..] {
        "setup" => Verb::Setup(given.database()?, given.number("--partitions", 1..=MOST_PARTITIONS)?),
        "status" => Verb::Status(given.database()?),
        "worker" => Verb::Worker(Box::new(worker(&mut given)?)),
        _ => return Err(format!("there is no {verb}; jobs --help tells what there is")),
    };
    match given.0.first() {
        None => Ok(verb),
        Some((name, _)) => Err(format!("there is no {name} here, or it was given twice; jobs --help tells them")),
    }
}

fn worker(given: &mut Given) -> Result<WorkerOptions, String> {
    let options = WorkerOptions {
        database: given.database()?,
        listen: given.address("--listen")?.unwrap_or(SocketAddr::from(([127, 0, 0, 1], 6500))),
        announce: given.text("--announce"),
        effect: given.text("--effect"),
        name: given.text("--name").unwrap_or("worker".to_owned()),
        lease: given.millis("--lease", 100)?.unwrap_or(Duration::from_secs(10)),
        write_every: given.millis("--write-every", 10)?.unwrap_or(Duration::from_secs(2)),
        clients: given.number("--clients", 1..=1_000)?.unwrap_or(900),
        sessions: given.number("--sessions", 2..=32)?.unwrap_or(4),
        password: given.text("--password-file").map(|it| Password::of_file(&it)).transpose()?,
        keep_done: given.millis("--keep-done", 0)?,
        keep_dead: given.millis("--keep-dead", 0)?.unwrap_or(Duration::from_secs(90 * 24 * 3_600)),
        timeout: given.millis("--timeout", 1)?,
        drain: given.millis("--drain", 0)?.unwrap_or(Duration::from_secs(20)),
        attempts: given.number("--attempts", 1..=MOST_ATTEMPTS)?.unwrap_or(ATTEMPTS),
        metrics: given.address("--metrics")?,
    };
    // A slash and a space part what workers tell each other.
    let is_plain = |text: &str, most| {
        (1..=most).contains(&text.len()) && text.bytes().all(|it| it.is_ascii_graphic() && it != b'/')
    };
    let is_elsewhere = options.effect.is_some() || options.announce.is_some() || !options.listen.ip().is_unspecified();
    check(&[
        // A lease that ends before it is written could never be extended.
        (options.lease >= 2 * options.write_every, "--lease is twice --write-every at least"),
        (is_plain(&options.name, 24), "--name has 1 to 24 plain characters, and no slash"),
        (options.announce.iter().all(|it| is_plain(it, 200)), "--announce has 1 to 200 plain characters, and no slash"),
        (is_elsewhere, "--announce has to say where holders reach a worker that listens everywhere"),
    ])?;
    Ok(options)
}

/// Refuses what isn't right.
fn check(all: &[(bool, &str)]) -> Result<(), String> {
    all.iter().find(|it| !it.0).map_or(Ok(()), |it| Err(it.1.to_owned()))
}

#[cfg(test)]
mod tests {
    use super::*;

    fn refusal(line: &str) -> String {
        verb(line.split(' ').map(str::to_owned)).err().unwrap_or_default()
    }

    #[test]
    fn each_wrong_word_is_named() {
        for (line, word) in [
            ("walk", "walk"),
            ("worker --database host=x --lease 5", "--lease"),
            ("worker --database host=x --color red", "--color"),
            ("worker --database host=x --listen nowhere", "nowhere"),
            ("worker --database host=x --attempts 0", "--attempts"),
            ("worker --database host=x --lease 1000", "--write-every"),
            ("worker --database host=x --clients 1001", "--clients"),
            ("worker --database host=x --sessions 1", "--sessions"),
            ("worker --database host=x --listen 0.0.0.0:6500", "--announce"),
            ("setup --database host=x --partitions 1025", "--partitions"),
            ("status --database postgres://me:secret@x/y", "JOBS_DATABASE"),
            ("status --database postgres://h/x?sslmode=require", "sslmode"),
        ] {
            assert!(refusal(line).contains(word), "{line}: {}", refusal(line));
        }
    }
}
