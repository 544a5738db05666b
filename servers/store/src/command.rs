//! The commands: what a client may ask for, and what it is answered. The words of refusals are those of Redis.

mod connection;
mod expiry;
mod keys;
mod refusal;
mod scan;
mod transaction;

use crate::keyspace::{Claim, Claimed, Keyspace, Turn};
use crate::lock;
use crate::output::Output;
use crate::resp::{Protocol, Reply};
use crate::seats::{Guest, Seats};
use crate::settings::Settings;
use expiry::Form;
use hontkhale::Key;
use refusal::Refusal;
use std::collections::HashMap;
use std::net::SocketAddr;
use std::sync::Arc;
use std::thread;
use std::time::{Duration, Instant};
use transaction::Transaction;

/// How many names a thread's extends are remembered for, and how long these are at most.
const KNOWN_LIMIT: usize = 16_384;
const KNOWN_LENGTH: usize = 64;
const WARNED_EVERY: Duration = Duration::from_secs(60);

/// A thread's part of the server: its client of the keyspace, which the connections that it serves share.
pub struct Desk {
    keyspace: Arc<Keyspace>,
    pub seats: Arc<Seats>,
    pub settings: Arc<Settings>,
    turn: Turn,
    /// The entries of names that were extended. An entry that isn't the name's any more refuses its key.
    known: HashMap<Vec<u8>, Key>,
    warned: Option<Instant>,
}

/// What a connection's client told of itself.
pub struct Session {
    guest: Arc<Guest>,
    protocol: Protocol,
    /// Whether it told the password, or needs none.
    pub is_admitted: bool,
    transaction: Transaction,
}

/// A client, whose request is served.
pub struct Client<'a> {
    pub desk: &'a mut Desk,
    pub session: &'a mut Session,
}

#[derive(Clone, Copy, Debug, PartialEq, Eq)]
pub enum Served {
    Done,
    /// Some of its values are told, and the others wait until what is told is sent.
    Begun,
    /// It waits for a transaction, another's or its own: it is served on in the next turn of its connection.
    Later,
    /// It is the last of its connection.
    Last,
    /// It is none: a web page's request was sent here.
    Attack,
}

type Words<'a> = &'a [&'a [u8]];
type Answer = Result<Reply, Refusal>;

/// A command by its name, the least number of its words, whether it takes more, the names that it asks for, and what it does.
struct Command(&'static str, usize, bool, Names, fn(&mut Client<'_>, Words<'_>) -> Answer);

#[derive(Clone, Copy, PartialEq, Eq)]
enum Names {
    None,
    /// Its first word behind the command.
    First,
    /// All its words behind the command.
    Rest,
    /// Every other of them, which it claims.
    Pairs,
    All,
    /// Those of the requests that EXEC does, which it claims.
    Queued,
}

impl Names {
    fn of<'a>(self, words: Words<'a>) -> impl Iterator<Item = &'a [u8]> {
        let (step, most) = match self {
            Names::First => (1, 1),
            Names::Rest => (1, usize::MAX),
            Names::Pairs => (2, usize::MAX),
            Names::None | Names::All | Names::Queued => (1, 0),
        };
        words.iter().skip(1).step_by(step).take(most).copied()
    }

    /// Adds them to what a transaction claims.
    fn claim(self, words: Words<'_>, keyspace: &Keyspace, claimed: &mut Claimed) {
        claimed.is_all |= self == Names::All;
        self.of(words).for_each(|name| keyspace.add(name, claimed));
    }
}

const COMMANDS: &[Command] = &[
    Command("get", 2, false, Names::First, |client, words| Ok(keys::value(client, words[1]))),
    Command("set", 3, true, Names::First, keys::set),
    Command("pexpire", 3, true, Names::First, |client, words| expiry::expire(client, words, Form::PX)),
    Command("expire", 3, true, Names::First, |client, words| expiry::expire(client, words, Form::EX)),
    Command("setex", 4, false, Names::First, |client, words| keys::set_until(client, words, Form::EX)),
    Command("psetex", 4, false, Names::First, |client, words| keys::set_until(client, words, Form::PX)),
    Command("incr", 2, false, Names::First, |client, words| keys::add(client, words[1], 1)),
    Command("incrby", 3, false, Names::First, keys::incr_by),
    Command("decr", 2, false, Names::First, |client, words| keys::add(client, words[1], -1)),
    Command("decrby", 3, false, Names::First, keys::decr_by),
    Command("del", 2, true, Names::Rest, keys::del),
    Command("unlink", 2, true, Names::Rest, keys::del),
    Command(MGET, 2, true, Names::Rest, |_, words| Ok(Reply::Begun(words.len() - 1))),
    Command("mset", 3, true, Names::Pairs, keys::set_all),
    Command("setnx", 3, false, Names::First, keys::set_new),
    Command("getset", 3, false, Names::First, keys::get_and_set),
    Command("exists", 2, true, Names::Rest, keys::exists),
    Command("touch", 2, true, Names::Rest, keys::exists),
    Command("getex", 2, true, Names::First, keys::get_and_expire),
    Command("getdel", 2, false, Names::First, keys::get_and_remove),
    Command("delifeq", 3, false, Names::First, keys::del_if_equal),
    Command("type", 2, false, Names::First, keys::type_of),
    Command("scan", 2, true, Names::All, scan::scan),
    Command("keys", 2, false, Names::All, scan::keys),
    Command("pexpireat", 3, true, Names::First, |client, words| expiry::expire(client, words, Form::PXAT)),
    Command("expireat", 3, true, Names::First, |client, words| expiry::expire(client, words, Form::EXAT)),
    Command("ttl", 2, false, Names::First, |client, words| expiry::life(client, words, Form::EX)),
    Command("pttl", 2, false, Names::First, |client, words| expiry::life(client, words, Form::PX)),
    Command("expiretime", 2, false, Names::First, |client, words| expiry::life(client, words, Form::EXAT)),
    Command("pexpiretime", 2, false, Names::First, |client, words| expiry::life(client, words, Form::PXAT)),
    Command("persist", 2, false, Names::First, keys::persist),
    Command("dbsize", 1, false, Names::All, |client, _| Ok(count(client.desk.keyspace.count()))),
    Command("flushall", 1, true, Names::All, keys::flush),
    Command("flushdb", 1, true, Names::All, keys::flush),
    Command("auth", 2, true, Names::None, connection::auth),
    Command("ping", 1, true, Names::None, connection::ping),
    Command("time", 1, false, Names::None, connection::time),
    Command("echo", 2, false, Names::None, |_, words| Ok(Reply::bulk(words[1]))),
    Command("select", 2, false, Names::None, connection::select),
    Command("hello", 1, true, Names::None, connection::hello),
    Command("client", 2, true, Names::None, connection::client),
    Command("config", 2, true, Names::None, connection::config),
    Command("info", 1, true, Names::All, connection::info),
    Command("command", 1, true, Names::None, connection::command),
    Command("multi", 1, false, Names::None, transaction::multi),
    Command(EXEC, 1, false, Names::Queued, transaction::exec),
    Command("discard", 1, false, Names::None, transaction::discard),
    Command("watch", 2, true, Names::Rest, transaction::watch),
    Command("unwatch", 1, false, Names::None, transaction::unwatch),
    Command(QUIT, 1, true, Names::None, |_, _| Ok(Reply::Status("OK"))),
];
const MGET: &str = "mget";
const QUIT: &str = "quit";
const EXEC: &str = "exec";
/// What is answered before the password is told.
const OPEN: [&str; 3] = ["auth", "hello", QUIT];
/// What a web page's request begins with, and what follows in it: no client of this protocol sends them.
const ATTACKS: [&[u8]; 2] = [b"post", b"host:"];

impl Desk {
    pub fn new(keyspace: Arc<Keyspace>, seats: Arc<Seats>, settings: Arc<Settings>) -> Desk {
        let turn = keyspace.turn();
        Desk { keyspace, seats, settings, turn, known: HashMap::new(), warned: None }
    }

    pub fn session(&self, guest: &Arc<Guest>) -> Session {
        let (guest, transaction) = (guest.clone(), Default::default());
        Session { guest, protocol: Protocol::Two, is_admitted: self.settings.password.is_none(), transaction }
    }

    /// Says that a web page reached for this server, now and then.
    pub fn warn(&mut self, from: Option<SocketAddr>) {
        if self.warned.map_or(true, |it| it.elapsed() >= WARNED_EVERY) {
            self.warned = Some(Instant::now());
            let from = from.map_or("somebody".into(), |it| it.to_string());
            eprintln!("store: {from} sent POST or Host: as a command, as a web page that attacks does: it is closed");
        }
    }

    fn remember(&mut self, name: &[u8], entry: Key) {
        if self.known.len() == KNOWN_LIMIT {
            self.known.clear();
        }
        if name.len() <= KNOWN_LENGTH {
            self.known.insert(name.to_vec(), entry);
        }
    }
}

impl Session {
    /// Whether a transaction has begun that isn't done.
    pub fn is_running(&self) -> bool {
        self.transaction.is_running()
    }

    pub fn held(&self) -> usize {
        self.guest.name().capacity() + self.transaction.held()
    }
}

impl Client<'_> {
    /// Answers a request. The values of an MGET, the replies of an EXEC and the names of KEYS are told one by one: a client
    /// that leaves them unread holds one value, and not all that it named, which others may have overwritten since. `told`
    /// counts what is told of a request from one call to the next.
    pub fn serve(&mut self, words: Words<'_>, told: &mut usize, output: &mut Output) -> Served {
        if *told == 0 && ATTACKS.iter().any(|it| words[0].eq_ignore_ascii_case(it)) {
            return Served::Attack;
        }
        let number = number(words);
        let names = number.map_or(Names::None, |it| COMMANDS[it].3);
        let (turn, _taken, _claim);
        match names {
            Names::Queued if *told == 0 && words.len() == 1 && !transaction::advance(self) => return later(),
            Names::Queued => {}
            Names::Pairs => match self.claim(names, words) {
                None => return later(),
                claim => _claim = claim,
            },
            _ => {
                turn = self.desk.turn.clone();
                _taken = lock(&turn);
                if self.desk.keyspace.is_claimed(names.of(words), names == Names::All) {
                    return later();
                }
            }
        }
        if *told == 0 {
            let reply = self.answer_by(number, words);
            output.protocol = self.session.protocol;
            output.reply(&reply);
            if !matches!(reply, Reply::Begun(_)) {
                let is_last = number.is_some_and(|it| COMMANDS[it].0 == QUIT);
                return if is_last { Served::Last } else { Served::Done };
            }
            *told = 1;
        }
        self.tell(words, told, output)
    }

    /// Tells what follows the beginning of a reply.
    fn tell(&mut self, words: Words<'_>, told: &mut usize, output: &mut Output) -> Served {
        while !output.is_full() {
            let next = self.session.transaction.next_reply();
            match next.or_else(|| named(words).get(*told - 1).map(|name| keys::value(self, name))) {
                None => return Served::Done,
                Some(reply) => output.reply(&reply),
            }
            *told += 1;
        }
        Served::Begun
    }

    /// Does more of a transaction that has begun.
    pub fn go_on(&mut self) {
        if self.session.is_running() {
            transaction::advance(self);
        }
    }

    fn claim(&self, names: Names, words: Words<'_>) -> Option<Claim> {
        let mut claimed = Claimed::default();
        names.claim(words, &self.desk.keyspace, &mut claimed);
        self.desk.keyspace.claim(claimed)
    }

    /// What a request is answered. The values of an MGET aren't among it.
    pub fn answer(&mut self, words: Words<'_>) -> Reply {
        self.answer_by(number(words), words)
    }

    fn answer_by(&mut self, number: Option<usize>, words: Words<'_>) -> Reply {
        let name = || number.map_or("", |it| COMMANDS[it].0);
        self.run(number, words).unwrap_or_else(|refusal| Reply::Error(refusal.text(name())))
    }

    fn run(&mut self, number: Option<usize>, words: Words<'_>) -> Answer {
        let command = number.map(|it| &COMMANDS[it]);
        number.into_iter().for_each(|it| self.session.guest.note_command(it));
        let transaction = &mut self.session.transaction;
        let refusal = match command {
            None => Refusal::Told(unknown(words)),
            Some(it) if words.len() < it.1 || words.len() > it.1 && !it.2 => Refusal::WordCount,
            Some(it) if !self.session.is_admitted && !OPEN.contains(&it.0) => {
                Refusal::Plain("NOAUTH Authentication required.")
            }
            Some(it) if transaction.takes(it.0) => match transaction.queue(it.0, words) {
                Ok(reply) => return Ok(reply),
                Err(refusal) => refusal,
            },
            Some(it) => return it.4(self, words),
        };
        transaction.note_refusal();
        if command.is_some_and(|it| it.0 == EXEC) {
            *transaction = Transaction::default();
            return Err(Refusal::AbortedExec(Box::new(refusal)));
        }
        Err(refusal)
    }
}

fn number(words: Words<'_>) -> Option<usize> {
    COMMANDS.iter().position(|it| words[0].eq_ignore_ascii_case(it.0.as_bytes()))
}

fn names(words: Words<'_>) -> Names {
    number(words).map_or(Names::None, |it| COMMANDS[it].3)
}

/// Another's transaction has to end first. It may wait for this processor.
fn later() -> Served {
    thread::yield_now();
    Served::Later
}

/// The names whose values follow the beginning of a reply.
fn named<'a>(words: Words<'a>) -> Words<'a> {
    if words[0].eq_ignore_ascii_case(MGET.as_bytes()) {
        &words[1..]
    } else {
        &[]
    }
}

fn count(number: usize) -> Reply {
    Reply::Integer(number as i64)
}

/// At most 128 bytes of a word, as a refusal repeats it: up to a zero byte, each as a character.
fn repeated(word: &[u8]) -> String {
    word.iter().take(128).take_while(|it| **it != 0).map(|it| *it as char).collect()
}

/// An unknown request as Redis tells it, at most 128 bytes of its name and of its other words.
fn unknown(words: Words<'_>) -> String {
    let (mut rest, mut count) = (String::new(), 0);
    for word in &words[1..] {
        if count >= 128 {
            break;
        }
        let word = repeated(&word[..word.len().min(128 - count)]);
        count += word.chars().count() + 3;
        rest += &format!("'{word}' ");
    }
    format!("ERR unknown command '{}', with args beginning with: {rest}", repeated(words[0]))
}
