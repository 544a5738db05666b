//! Sessions with the database: each statement has a limit of time, after which its session is given up; they are opened
//! again after an error, by a growing delay, and told of.

use crate::fault::{Asked, Error, Whose};
use crate::metrics::Metrics;
use crate::{enter, sql};
use std::collections::HashMap;
use std::future::{poll_fn, Future};
use std::sync::atomic::{AtomicBool, AtomicUsize, Ordering::SeqCst};
use std::sync::{Arc, Mutex};
use std::time::Duration;
use tokio::sync::mpsc::{unbounded_channel, UnboundedSender};
use tokio::task::JoinHandle;
use tokio::time::timeout;
use tokio_postgres::error::SqlState;
use tokio_postgres::tls::NoTlsStream;
use tokio_postgres::types::{FromSqlOwned, ToSql};
use tokio_postgres::{AsyncMessage, Client, Config, Connection, NoTls, Row, SimpleQueryMessage, Socket, Statement};

pub type Param<'p> = &'p (dyn ToSql + Sync);

/// How long the way to a host may take, where the URL doesn't say it by connect_timeout.
pub const CONNECT: Duration = Duration::from_secs(2);
/// How much longer than the database a worker waits for the end of a statement.
const SLACK: Duration = Duration::from_secs(1);
/// How long the database leaves what it sends unacknowledged before it ends a session, and with it what it has locked.
const UNACKNOWLEDGED: Duration = Duration::from_secs(5);

/// Where the database is, and what each session with it is told.
#[derive(Clone)]
pub struct Database {
    pub config: Config,
    /// The schema of the tables, where it isn't the first of the role's search path.
    pub schema: Option<String>,
    /// How long it works at a statement before it gives it up.
    pub statement_timeout: Duration,
    /// How long a statement waits for a lock that another session holds.
    pub lock_timeout: Duration,
}

impl Database {
    /// The same, by sessions of a name.
    pub fn named(&self, name: &str) -> Database {
        let mut named = self.clone();
        named.config.application_name(name);
        named
    }

    /// How long a new session may take: each host of the URL has its turn.
    fn time_to_open(&self) -> Duration {
        let hosts = self.config.get_hosts().len().max(1) as u32;
        self.config.get_connect_timeout().copied().unwrap_or(CONNECT) * hosts + CONNECT
    }

    fn settings(&self) -> String {
        let path = self.schema.as_ref().map_or(String::new(), |schema| {
            let then = "nullif(current_setting('search_path'), '')";
            format!("SELECT set_config('search_path', concat_ws(',', '\"{schema}\"', {then}), false);")
        });
        // A plan that was made for any ids would look for them among all that is due, which takes a second.
        format!(
            "SET plan_cache_mode = force_custom_plan; SET statement_timeout = {}; SET lock_timeout = {}; SET tcp_user_timeout = {}; \
             SET tcp_keepalives_idle = 10; SET tcp_keepalives_interval = 5; SET tcp_keepalives_count = 3; {path}",
            self.statement_timeout.as_millis(),
            self.lock_timeout.as_millis(),
            UNACKNOWLEDGED.as_millis(),
        )
    }
}

/// What the database says that it is before it is told anything, and by which of its processes, to two sessions that are
/// open at the same time.
pub async fn meet(database: &Database) -> Result<[(String, String); 2], Error> {
    let limit = database.time_to_open();
    let ask = async {
        let (one, other) = (greet(database).await?, greet(database).await?);
        Ok([one.1, other.1])
    };
    timeout(2 * limit, ask).await.unwrap_or(Err(Error::Silent(2 * limit)))
}

async fn greet(database: &Database) -> Result<(Client, (String, String)), Error> {
    let (client, connection) = database.config.connect(NoTls).await?;
    tokio::spawn(connection);
    let said = client.simple_query("SELECT version(), pg_backend_pid()").await?;
    let text = |column| match said.first() {
        Some(SimpleQueryMessage::Row(row)) => row.get(column).unwrap_or_default().to_owned(),
        _ => String::new(),
    };
    Ok((client, (text(0), text(1))))
}

/// A session, with the statements that it has prepared.
pub struct Session {
    client: Client,
    driver: JoinHandle<()>,
    limit: Duration,
    is_given_up: AtomicBool,
    prepared: Mutex<HashMap<String, Statement>>,
    metrics: Arc<Metrics>,
}

impl Session {
    /// Opens a session. What the database notifies it of is sent to `told`.
    pub async fn open(
        database: &Database,
        metrics: &Arc<Metrics>,
        told: UnboundedSender<String>,
    ) -> Result<Session, Error> {
        let limit = database.time_to_open();
        let open = async {
            let (client, connection) = database.config.connect(NoTls).await?;
            let session = Session {
                client,
                driver: tokio::spawn(drive(connection, told)),
                limit: database.statement_timeout + SLACK,
                is_given_up: AtomicBool::new(false),
                prepared: Mutex::new(HashMap::new()),
                metrics: metrics.clone(),
            };
            session.batch(&database.settings()).await?;
            Ok(session)
        };
        timeout(limit, open).await.unwrap_or(Err(Error::Silent(limit)))
    }

    /// An answer within the limit. Whoever else waits for this session is told that it is closed after it.
    async fn limited<T>(&self, answer: impl Future<Output = Result<T, tokio_postgres::Error>>) -> Result<T, Error> {
        self.metrics.statements.add(1);
        match timeout(self.limit, answer).await {
            Ok(answer) => answer.map_err(|error| {
                let error = Error::from(error);
                if error.code() == Some(&SqlState::READ_ONLY_SQL_TRANSACTION) {
                    // A primary that has become a standby: another host of the URL may be the primary.
                    self.give_up();
                } else if error.may_be_of_reading() || error.is_limit() {
                    // An effect may have set the session's path, role or limits. What is under way ends by itself.
                    self.is_given_up.store(true, SeqCst);
                }
                error
            }),
            Err(_) => {
                self.give_up();
                Err(Error::Silent(self.limit))
            }
        }
    }

    fn give_up(&self) {
        self.is_given_up.store(true, SeqCst);
        self.driver.abort();
    }

    pub async fn query(&self, sql: &str, params: &[Param<'_>]) -> Result<Vec<Row>, Error> {
        let statement = self.prepare(sql).await?;
        self.limited(self.client.query(&statement, params)).await
    }

    /// The first value of the one row that a statement gives.
    pub async fn value<T: FromSqlOwned>(&self, sql: &str, params: &[Param<'_>]) -> Result<T, Error> {
        Ok(self.query(sql, params).await?[0].get(0))
    }

    /// Rows, or whose fault it is that there are none. Only what the database refuses to read is the statement's.
    /// The first parameter of what is asked for jobs is the worker's number.
    async fn query_rows(&self, sql: &str, params: &[Param<'_>], asked: Asked) -> Result<Vec<Row>, (Whose, Error)> {
        let own = |error: Error| (error.whose(Asked::Own), error);
        let statement = self.prepare(sql).await.map_err(own)?;
        let error = match self.limited(self.client.query(&statement, params)).await {
            Ok(rows) => {
                if rows.is_empty() && matches!(asked, Asked::Jobs(_)) {
                    // Another may have had them all. Or an effect has set a path to other tables.
                    let known = self.query(sql::KNOWN, &params[..1]).await;
                    self.is_given_up.fetch_or(!known.is_ok_and(|it| it.len() == 1), SeqCst);
                }
                return Ok(rows);
            }
            Err(error) => error,
        };
        if error.may_be_of_reading() {
            enter(&self.prepared).remove(sql);
            self.prepare(sql).await.map_err(own)?;
        }
        Err((error.whose(asked), error))
    }

    /// Statements that give no rows, one after another.
    pub async fn batch(&self, sql: &str) -> Result<(), Error> {
        self.limited(self.client.batch_execute(sql)).await
    }

    pub fn is_closed(&self) -> bool {
        self.is_given_up.load(SeqCst) || self.client.is_closed()
    }

    async fn prepare(&self, sql: &str) -> Result<Statement, Error> {
        let known = enter(&self.prepared).get(sql).cloned();
        if let Some(statement) = known {
            return Ok(statement);
        }
        let statement = self.limited(self.client.prepare(sql)).await?;
        enter(&self.prepared).insert(sql.to_owned(), statement.clone());
        Ok(statement)
    }
}

async fn drive(mut connection: Connection<Socket, NoTlsStream>, told: UnboundedSender<String>) {
    while let Some(Ok(message)) = poll_fn(|context| connection.poll_message(context)).await {
        if let AsyncMessage::Notification(notification) = message {
            // Nobody listens where the session is about to be closed.
            let _ = told.send(notification.payload().to_owned());
        }
    }
}

/// A session for a program that ends soon.
pub async fn connect(database: &Database) -> Result<Session, Error> {
    Session::open(database, &Arc::default(), unbounded_channel().0).await
}

/// A delay that doubles up to a second.
pub struct Delay(Duration);

impl Delay {
    pub fn new() -> Delay {
        Delay(Duration::from_millis(25))
    }

    pub async fn wait(&mut self) -> Duration {
        self.0 = (self.0 * 2).min(Duration::from_secs(1));
        tokio::time::sleep(self.0).await;
        self.0
    }
}

pub fn tell(text: std::fmt::Arguments<'_>) {
    eprintln!("jobs: {text}");
}

/// Some sessions that are opened when they are needed, and again when they are lost.
pub struct Links {
    database: Database,
    metrics: Arc<Metrics>,
    seats: Vec<tokio::sync::Mutex<Option<Arc<Session>>>>,
    next: AtomicUsize,
    /// No error is waited for any more.
    is_ending: AtomicBool,
}

impl Links {
    pub fn new(database: Database, metrics: Arc<Metrics>, count: usize) -> Links {
        let seats = (0..count).map(|_| tokio::sync::Mutex::new(None)).collect();
        Links { database, metrics, seats, next: AtomicUsize::new(0), is_ending: AtomicBool::new(false) }
    }

    pub fn count(&self) -> usize {
        self.seats.len()
    }

    /// An error is an answer from now on, also one that passes.
    pub fn end(&self) {
        self.is_ending.store(true, SeqCst);
    }

    async fn session(&self) -> Result<Arc<Session>, Error> {
        let seat = self.next.fetch_add(1, SeqCst) % self.seats.len();
        let mut seat = self.seats[seat].lock().await;
        if let Some(session) = seat.as_ref().filter(|it| !it.is_closed()) {
            return Ok(session.clone());
        }
        // It listens to nothing.
        let session = Arc::new(Session::open(&self.database, &self.metrics, unbounded_channel().0).await?);
        *seat = Some(session.clone());
        Ok(session)
    }

    /// One try.
    pub async fn query(&self, sql: &str, params: &[Param<'_>]) -> Result<Vec<Row>, Error> {
        let answer = async { self.session().await?.query(sql, params).await }.await;
        self.metrics.database_errors.add(answer.is_err().into());
        answer
    }

    /// Has the database read a statement, without running it. Tries again until it is prepared, or refused.
    pub async fn insist_to_prepare(&self, sql: &str) -> Result<(), Error> {
        self.until(|| async { self.session().await?.prepare(sql).await.map(drop) }).await
    }

    /// Tries again until the answer is rows or the statement's fault. It must bear to be run twice.
    pub async fn insist(&self, sql: &str, params: &[Param<'_>]) -> Result<Vec<Row>, Error> {
        self.until(|| self.query(sql, params)).await
    }

    /// Tries again until an answer isn't the connection's fault.
    pub async fn until<T, F>(&self, mut ask: impl FnMut() -> F) -> Result<T, Error>
    where
        F: Future<Output = Result<T, Error>>,
    {
        let mut delay = Delay::new();
        loop {
            match ask().await {
                Err(error) if error.whose(Asked::Own) == Whose::Connection && !self.is_ending.load(SeqCst) => {
                    tell(format_args!("tried again after {:?}: {error}", delay.wait().await));
                }
                answer => return answer,
            }
        }
    }

    /// As `insist`, of a statement that runs what others have written over rows of theirs: they may be what the database
    /// fails by, or what ends its session, and then the answer says whose fault it is. That no session can be had is
    /// never theirs. None where the worker ends before there is an answer.
    pub async fn insist_on_rows(
        &self,
        sql: &str,
        params: &[Param<'_>],
        asked: fn(usize) -> Asked,
    ) -> Option<Result<Vec<Row>, (Whose, Error)>> {
        let (mut delay, mut tried) = (Delay::new(), 0);
        loop {
            let session = self.until(|| self.session()).await.ok()?;
            tried += 1;
            let answer = session.query_rows(sql, params, asked(tried)).await;
            self.metrics.database_errors.add(answer.is_err().into());
            match answer {
                Err((Whose::Connection, _)) if self.is_ending.load(SeqCst) => return None,
                Err((Whose::Connection, error)) => {
                    tell(format_args!("tried again after {:?}: {error}", delay.wait().await));
                }
                answer => return Some(answer),
            }
        }
    }
}
