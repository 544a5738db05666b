//! Why a statement has no answer, and whose fault that is.

use std::fmt;
use std::time::Duration;
use tokio_postgres::error::SqlState;

/// How often rows are tried before an error that may pass, or the loss of the session, is theirs.
const TRIES: usize = 3;

#[derive(Debug)]
pub enum Error {
    /// The database refused it, or couldn't be reached.
    Database(tokio_postgres::Error),
    /// The database was silent for so long. Whether the statement was run isn't known.
    Silent(Duration),
    /// This program refuses what it has found there.
    Refused(String),
}

#[derive(Clone, Copy, Debug, PartialEq, Eq)]
pub enum Whose {
    /// The way to the database's, or its state's: the same may be right in a moment.
    Connection,
    /// The statement's, which the database refuses whatever rows it meets.
    Statement,
    /// One job's or schedule's of those that were named: each is tried alone. A job that is alone has failed an attempt,
    /// and a schedule waits.
    Row,
}

#[derive(Clone, Copy)]
pub enum Asked {
    /// For a session, to read a statement, or for what the program's own statements do.
    Own,
    /// For an effect of jobs, for the time of this number.
    Jobs(usize),
    /// For the jobs of schedules, for the time of this number.
    Schedules(usize),
}

/// What a statement meets that another session has prepared, or has not.
const POOLED: [SqlState; 2] = [SqlState::DUPLICATE_PSTATEMENT, SqlState::INVALID_SQL_STATEMENT_NAME];
pub const POOLER: &str = ": a pooler in transaction mode stands between, and jobs wants one in session mode";

impl From<tokio_postgres::Error> for Error {
    fn from(error: tokio_postgres::Error) -> Error {
        Error::Database(error)
    }
}

impl fmt::Display for Error {
    fn fmt(&self, f: &mut fmt::Formatter<'_>) -> fmt::Result {
        match self {
            Error::Silent(limit) => write!(f, "the database didn't answer within {limit:?}"),
            Error::Refused(why) => f.write_str(why),
            Error::Database(error) => match (error.as_db_error(), std::error::Error::source(error)) {
                (Some(db), _) => {
                    let why = if POOLED.contains(db.code()) { POOLER } else { "" };
                    write!(f, "{} ({}){why}", db.message(), db.code().code())
                }
                (None, Some(source)) => write!(f, "{error}: {source}"),
                (None, None) => write!(f, "{error}"),
            },
        }
    }
}

impl std::error::Error for Error {}

impl Error {
    pub fn code(&self) -> Option<&SqlState> {
        match self {
            Error::Database(error) => error.code(),
            Error::Silent(_) | Error::Refused(_) => None,
        }
    }

    /// Whose it is. What a row raises may look like the connection's: it is the row's once it has come again and again.
    pub fn whose(&self, asked: Asked) -> Whose {
        match self {
            Error::Refused(_) => Whose::Statement,
            _ => whose(self.code(), asked),
        }
    }

    /// Whether a limit of time or of resources ended it: with less it may be right.
    pub fn is_limit(&self) -> bool {
        self.code().is_some_and(is_limit)
    }

    pub fn is_lock(&self) -> bool {
        self.code() == Some(&SqlState::LOCK_NOT_AVAILABLE)
    }

    /// Whether the database may have met it while it read the statement again, as it does where a table has changed.
    pub fn may_be_of_reading(&self) -> bool {
        self.code().is_some_and(|it| ["0A", "26", "42"].contains(&class(it)))
    }
}

fn class(code: &SqlState) -> &str {
    &code.code()[..2]
}

fn is_limit(code: &SqlState) -> bool {
    class(code) == "53" || [SqlState::QUERY_CANCELED, SqlState::LOCK_NOT_AVAILABLE].contains(code)
}

/// Whether the same statement may be right in a moment: without an answer the session is lost.
fn is_passing(code: Option<&SqlState>) -> bool {
    // Connections, resources, operators, the machine, serialization failures and deadlocks.
    let passing = |code: &SqlState| {
        ["08", "53", "57", "58", "40"].contains(&class(code))
            || [SqlState::LOCK_NOT_AVAILABLE, SqlState::READ_ONLY_SQL_TRANSACTION].contains(code)
    };
    code.map_or(true, passing)
}

fn whose(code: Option<&SqlState>, asked: Asked) -> Whose {
    match asked {
        // A row that wants too much wants it again.
        Asked::Jobs(tries) | Asked::Schedules(tries) if tries >= TRIES || code.is_some_and(is_limit) => Whose::Row,
        _ if is_passing(code) => Whose::Connection,
        Asked::Own => Whose::Statement,
        _ => Whose::Row,
    }
}

#[cfg(test)]
mod tests {
    use super::*;

    #[test]
    fn what_passes_is_a_rows_after_some_tries_and_what_does_not_at_once() {
        use Whose::{Connection, Row, Statement};
        for (codes, own, at_first) in [
            ("08001 40001 57P01 58030 25006", Connection, Connection),
            ("22012 42P01 P0001 XX000", Statement, Row),
            ("53100 55P03 57014", Connection, Row),
            ("none", Connection, Connection),
        ] {
            for code in codes.split(' ') {
                let told = (code != "none").then(|| SqlState::from_code(code));
                let asked = [Asked::Own, Asked::Jobs(TRIES - 1), Asked::Schedules(1), Asked::Jobs(TRIES)];
                assert_eq!(asked.map(|it| whose(told.as_ref(), it)), [own, at_first, at_first, Row], "{code}");
            }
        }
    }
}
