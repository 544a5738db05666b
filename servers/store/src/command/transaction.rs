//! MULTI, EXEC, DISCARD, WATCH and UNWATCH: requests that are queued, and then served while no other is that asks for a
//! name of theirs.

use super::{keys, named, names, Answer, Client, Desk, Refusal, Words};
use crate::connection::SLICE;
use crate::keyspace::{Claim, Claimed, Life, Value};
use crate::resp::{Limits, Reply, PER_WORD};
use std::collections::{HashMap, VecDeque};
use std::time::Instant;
use std::vec;

/// What a connection's client has queued and what it watches.
#[derive(Default)]
pub struct Transaction {
    /// The requests since MULTI.
    queue: Option<Queue>,
    /// What is watched by its name, as it was then.
    watched: HashMap<Vec<u8>, Seen>,
    watched_bytes: usize,
    /// What EXEC does, until it is told.
    running: Option<Running>,
    /// What EXEC or KEYS is answered and isn't written yet.
    replies: VecDeque<Reply>,
    reply_bytes: usize,
}

type Request = Vec<Vec<u8>>;

#[derive(Default)]
struct Queue {
    requests: Vec<Request>,
    bytes: usize,
    /// One of them was refused, so that none is done.
    is_broken: bool,
}

/// A transaction that has begun, and will be done whether its client stays or not.
struct Running {
    /// None once all is done.
    claim: Option<Claim>,
    /// How many requests it has, none where a watched key was changed.
    count: Option<usize>,
    /// Those that aren't done.
    requests: vec::IntoIter<Request>,
    bytes: usize,
}

/// A key as it was when it was watched, none where there was none. While its value is held no other has its address: who
/// sets it, sets another.
type Seen = Option<(Value, Life)>;

/// Whether a key is as it was seen.
fn is_as_seen(desk: &Desk, name: &[u8], seen: &Seen) -> bool {
    let now = desk.keyspace.view(name, |record, life| (record.value.as_ptr(), life));
    now == seen.as_ref().map(|(value, life)| (value.as_ptr(), *life))
}

/// What a watched key takes beside its name and its value.
const PER_WATCHED: usize = 128;
/// Commands that are done at once after MULTI too.
const AT_ONCE: [&str; 5] = ["multi", "exec", "discard", "watch", super::QUIT];

/// Commands whose replies are long whatever they are asked: those of a transaction are all held at a time.
const MANY_NAMES: [&str; 2] = ["scan", "keys"];

impl Transaction {
    pub fn held(&self) -> usize {
        let queued = self.queue.as_ref().map_or(0, |it| it.bytes) + self.running.as_ref().map_or(0, |it| it.bytes);
        queued + self.watched_bytes + self.reply_bytes
    }

    /// Whether a command waits for EXEC.
    pub fn takes(&self, command: &str) -> bool {
        self.queue.is_some() && !AT_ONCE.contains(&command)
    }

    pub fn queue(&mut self, command: &str, words: Words<'_>) -> Answer {
        if MANY_NAMES.contains(&command) {
            return Err(Refusal::InMulti);
        }
        let queue = self.queue.get_or_insert_with(Queue::default);
        queue.bytes += words.iter().map(|word| word.len() + PER_WORD).sum::<usize>();
        if queue.bytes > Limits::MOST.request {
            return Err(Refusal::Plain("ERR the transaction is too long"));
        }
        queue.requests.push(words.iter().map(|word| word.to_vec()).collect());
        Ok(Reply::Status("QUEUED"))
    }

    /// Whether EXEC has done some of it and not all.
    pub fn is_running(&self) -> bool {
        self.running.as_ref().is_some_and(|it| it.claim.is_some())
    }

    pub fn note_refusal(&mut self) {
        self.queue.iter_mut().for_each(|queue| queue.is_broken = true);
    }

    pub fn next_reply(&mut self) -> Option<Reply> {
        let reply = self.replies.pop_front()?;
        self.reply_bytes -= reply.held();
        Some(reply)
    }

    /// Keeps a reply until the others before it are written.
    pub fn keep(&mut self, reply: Reply) {
        self.reply_bytes += reply.held();
        self.replies.push_back(reply);
    }

    fn unwatch(&mut self) -> HashMap<Vec<u8>, Seen> {
        self.watched_bytes = 0;
        std::mem::take(&mut self.watched)
    }
}

pub fn multi(client: &mut Client<'_>, _: Words<'_>) -> Answer {
    let queue = &mut client.session.transaction.queue;
    if queue.is_some() {
        return Err(Refusal::Plain("ERR MULTI calls can not be nested"));
    }
    *queue = Some(Queue::default());
    Ok(Reply::Status("OK"))
}

pub fn discard(client: &mut Client<'_>, words: Words<'_>) -> Answer {
    client.session.transaction.queue.take().ok_or(Refusal::Plain("ERR DISCARD without MULTI"))?;
    unwatch(client, words)
}

pub fn watch(client: &mut Client<'_>, words: Words<'_>) -> Answer {
    let transaction = &mut client.session.transaction;
    if transaction.queue.is_some() {
        return Err(Refusal::InMulti);
    }
    for name in &words[1..] {
        if !transaction.watched.contains_key(*name) {
            let seen = client.desk.keyspace.view(name, |record, life| (record.value.clone(), life));
            transaction.watched_bytes += name.len() + PER_WATCHED + seen.as_ref().map_or(0, |it| it.0.len());
            transaction.watched.insert(name.to_vec(), seen);
        }
    }
    Ok(Reply::Status("OK"))
}

pub fn unwatch(client: &mut Client<'_>, _: Words<'_>) -> Answer {
    client.session.transaction.unwatch();
    Ok(Reply::Status("OK"))
}

/// Does what is queued for a while, with all its names claimed. False where some of it is left for the next turn, or
/// another's transaction has to end first.
pub fn advance(client: &mut Client<'_>) -> bool {
    if client.session.transaction.running.is_none() && !begin(client) {
        return false;
    }
    let begun = Instant::now();
    while let Some(request) = client.session.transaction.running.as_mut().and_then(|it| it.requests.next()) {
        let words: Vec<&[u8]> = request.iter().map(Vec::as_slice).collect();
        let reply = client.answer(&words);
        client.session.transaction.keep(reply);
        for name in named(&words) {
            let value = keys::value(client, name);
            client.session.transaction.keep(value);
        }
        if begun.elapsed() >= SLICE {
            return false;
        }
    }
    // Its names are everybody's again.
    client.session.transaction.running.iter_mut().for_each(|it| it.claim = None);
    true
}

/// Begins with what is queued, if anything is to be done. False where another's transaction has to end first.
fn begin(client: &mut Client<'_>) -> bool {
    let Client { desk, session } = client;
    let Some(queue) = session.transaction.queue.as_ref().filter(|it| !it.is_broken) else { return true };
    let mut claimed = Claimed::default();
    for request in &queue.requests {
        let words: Vec<&[u8]> = request.iter().map(Vec::as_slice).collect();
        names(&words).claim(&words, &desk.keyspace, &mut claimed);
    }
    session.transaction.watched.keys().for_each(|name| desk.keyspace.add(name, &mut claimed));
    let Some(claim) = desk.keyspace.claim(claimed) else { return false };
    let queue = session.transaction.queue.take().unwrap_or_default();
    let watched = session.transaction.unwatch();
    let is_as_seen = watched.iter().all(|(name, seen)| is_as_seen(desk, name, seen));
    let requests = if is_as_seen { queue.requests } else { Vec::new() };
    let count = is_as_seen.then_some(requests.len());
    session.transaction.running =
        Some(Running { claim: Some(claim), count, requests: requests.into_iter(), bytes: queue.bytes });
    true
}

pub fn exec(client: &mut Client<'_>, _: Words<'_>) -> Answer {
    let transaction = &mut client.session.transaction;
    match (transaction.running.take(), transaction.queue.take()) {
        (Some(Running { count: Some(count), .. }), _) => Ok(Reply::Begun(count)),
        (Some(_), _) => Ok(Reply::NilArray),
        (None, None) => Err(Refusal::Plain("ERR EXEC without MULTI")),
        (None, Some(_)) => {
            transaction.unwatch();
            Err(Refusal::Plain("EXECABORT Transaction discarded because of previous errors."))
        }
    }
}
