//! What holders say: each command, and what is refused of it.

use crate::input::Args;
use servers::resp::{integer, Reply};
use std::time::Duration;

/// The most jobs of one word of a holder.
const TAKE_LIMIT: i64 = 100;
/// The longest that a holder may wait for a job, in milliseconds.
const WAIT_LIMIT: i64 = 60_000;
const REASON_LIMIT: usize = 1_000;

#[derive(Clone, Copy, Debug, PartialEq, Eq)]
pub struct Attempt {
    pub id: i64,
    pub attempt: i32,
}

#[derive(Clone, Debug, PartialEq, Eq)]
pub enum Command {
    Take {
        count: usize,
        wait: Duration,
        /// Any where there are none.
        kinds: Vec<String>,
    },
    Beat(Attempt),
    Done(Attempt),
    Fail(Attempt, String),
    Time,
    /// A password, with which a holder begins where the worker wants one.
    Auth(Vec<u8>),
    /// What a web page's request begins with, and what follows in it: no client of this protocol sends them.
    Attack,
    /// What has one answer, and what is refused.
    Answer(Reply),
    /// What is no request, or the client's last one: the connection is closed after its answer.
    Last(Reply),
}

impl Command {
    pub fn of(args: Args) -> Command {
        let refused = |why: String| Command::Answer(Reply::Error(why));
        let Some((name, args)) = args.split_first() else { return refused("ERR there is no command".to_owned()) };
        let name = name.to_ascii_uppercase();
        let command = match &name[..] {
            b"JOBS.TAKE" => take(args),
            b"JOBS.BEAT" => attempt(args, 2).map(Command::Beat),
            b"JOBS.DONE" => attempt(args, 2).map(Command::Done),
            b"JOBS.FAIL" => attempt(args, 3).map(|it| Command::Fail(it, reason(args.get(2)))),
            b"PING" => Some(Command::Answer(Reply::Status("PONG"))),
            b"TIME" => Some(Command::Time),
            // Clients ask it of a server of the protocol before they begin.
            b"COMMAND" => Some(Command::Answer(Reply::Array(Vec::new()))),
            // Clients may name a user before it, as Redis has them.
            b"AUTH" if (1..=2).contains(&args.len()) => args.last().cloned().map(Command::Auth),
            b"QUIT" => Some(Command::Last(Reply::Status("OK"))),
            b"POST" | b"HOST:" => Some(Command::Attack),
            _ => return refused(format!("ERR there is no command {}", shown(&name))),
        };
        command.unwrap_or_else(|| refused(format!("ERR wrong arguments of {}", shown(&name))))
    }
}

fn shown(name: &[u8]) -> String {
    name[..name.len().min(40)].escape_ascii().to_string()
}

/// A number of jobs, 1 where none is given, how long to wait for the first, and kinds.
fn take(args: &[Vec<u8>]) -> Option<Command> {
    let (count, args) = match args.first().and_then(|it| integer(it)) {
        Some(count) => (count, &args[1..]),
        None => (1, args),
    };
    let (wait, args) = match args {
        [word, millis, args @ ..] if word.eq_ignore_ascii_case(b"WAIT") => (integer(millis)?, args),
        args => (0, args),
    };
    let kinds = match args {
        [] => Vec::new(),
        [word, kinds @ ..] if word.eq_ignore_ascii_case(b"KIND") && !kinds.is_empty() => {
            kinds.iter().map(|it| kind(it)).collect::<Option<_>>()?
        }
        _ => return None,
    };
    if !(1..=TAKE_LIMIT).contains(&count) || !(0..=WAIT_LIMIT).contains(&wait) {
        return None;
    }
    Some(Command::Take { count: count as usize, wait: Duration::from_millis(wait as u64), kinds })
}

/// A kind, as the table has them.
fn kind(name: &[u8]) -> Option<String> {
    let is_plain = |it: &u8| it.is_ascii_alphanumeric() || b"_.:-".contains(it);
    (name.len() <= 40 && name.iter().all(is_plain)).then(|| String::from_utf8_lossy(name).into_owned())
}

fn attempt(args: &[Vec<u8>], most: usize) -> Option<Attempt> {
    if args.len() < 2 || args.len() > most {
        return None;
    }
    let (id, attempt) = (integer(&args[0])?, integer(&args[1])?);
    Some(Attempt { id, attempt: i32::try_from(attempt).ok()? })
}

/// A text that the table takes, which has no zero byte.
fn reason(text: Option<&Vec<u8>>) -> String {
    let text = text.map_or(&b"the holder said so"[..], |it| &it[..it.len().min(REASON_LIMIT)]);
    String::from_utf8_lossy(text).replace('\0', " ")
}

pub fn fenced(it: Attempt) -> Reply {
    Reply::Error(format!("FENCED attempt {} of job {} doesn't have it", it.attempt, it.id))
}

pub fn try_again(why: &str) -> Reply {
    // What the database says may be in any language: of a refusal each character is a byte.
    Reply::Error(format!("TRYAGAIN {}", why.replace(|it: char| !it.is_ascii(), "?")))
}

#[cfg(test)]
mod tests {
    use super::*;

    fn command(line: &str) -> Command {
        Command::of(line.split(' ').map(|it| it.as_bytes().to_vec()).collect())
    }

    #[test]
    fn each_command_is_read_with_what_may_be_left_out() {
        let of = |count, wait, kinds| Command::Take { count, wait: Duration::from_millis(wait), kinds };
        let take = |count, wait| of(count, wait, Vec::new());
        let it = Attempt { id: 17, attempt: 2 };
        for (line, expected) in [
            ("jobs.take", take(1, 0)),
            ("JOBS.TAKE 7", take(7, 0)),
            ("JOBS.TAKE wait 50", take(1, 50)),
            ("JOBS.TAKE 100 WAIT 60000", take(100, 60_000)),
            ("JOBS.TAKE KIND mail", of(1, 0, vec!["mail".to_owned()])),
            ("JOBS.TAKE 2 WAIT 5 kind a b", of(2, 5, vec!["a".to_owned(), "b".to_owned()])),
            ("JOBS.BEAT 17 2", Command::Beat(it)),
            ("JOBS.DONE 17 2", Command::Done(it)),
            ("JOBS.FAIL 17 2 no-disk", Command::Fail(it, "no-disk".to_owned())),
        ] {
            assert_eq!(command(line), expected, "{line}");
        }
    }

    #[test]
    fn wrong_arguments_are_refused() {
        for line in [
            "JOBS.TAKE 0",
            "JOBS.TAKE 101",
            "JOBS.TAKE 5 WAIT",
            "JOBS.TAKE 5 KIND",
            "JOBS.TAKE 5 WAIT 60001",
            "JOBS.TAKE KIND mail \0",
            "JOBS.TAKE KIND *",
            "JOBS.BEAT 17",
            "JOBS.BEAT 17 x",
            "JOBS.BEAT 17 99999999999",
            "JOBS.DONE 17 2 3",
            "SET a b",
        ] {
            assert!(matches!(command(line), Command::Answer(Reply::Error(_))), "{line}");
        }
    }
}
