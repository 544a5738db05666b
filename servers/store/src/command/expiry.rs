//! When keys expire.

use super::{count, repeated, Answer, Client, Desk, Refusal, Words};
use crate::clock::Tick;
use crate::keyspace::Life;
use crate::resp::{integer, Reply};
use hontkhale::parts::owner::LAST_TICK;
use hontkhale::Key;

/// What a time counts: seconds or milliseconds, from now on or since 1970.
#[derive(Clone, Copy, PartialEq, Eq)]
pub struct Form {
    is_seconds: bool,
    is_from_now: bool,
}

impl Form {
    pub const EX: Form = Form { is_seconds: true, is_from_now: true };
    pub const PX: Form = Form { is_seconds: false, is_from_now: true };
    pub const EXAT: Form = Form { is_seconds: true, is_from_now: false };
    pub const PXAT: Form = Form { is_seconds: false, is_from_now: false };

    /// That of an option, which has its name.
    pub fn of(word: &[u8]) -> Option<Form> {
        match word {
            b"ex" => Some(Form::EX),
            b"px" => Some(Form::PX),
            b"exat" => Some(Form::EXAT),
            b"pxat" => Some(Form::PXAT),
            _ => None,
        }
    }

    /// What is told, and it in milliseconds since 1970.
    fn time(self, text: &[u8], now: Tick) -> Result<(i64, i64), Refusal> {
        let time = integer(text).ok_or(Refusal::NOT_AN_INTEGER)?;
        let millis = if self.is_seconds { time.checked_mul(1000) } else { Some(time) };
        let instant = millis.and_then(|it| it.checked_add(if self.is_from_now { now as i64 } else { 0 }));
        Ok((time, instant.filter(|it| *it <= LAST_TICK as i64).ok_or(Refusal::ExpireTime)?))
    }

    /// The same, of a command that takes no time that is nothing or less.
    pub fn positive(self, text: &[u8], now: Tick) -> Result<Tick, Refusal> {
        let (time, instant) = self.time(text, now)?;
        Some(instant as Tick).filter(|_| time > 0).ok_or(Refusal::ExpireTime)
    }
}

/// Which keys get another deadline.
#[derive(Default)]
struct Conditions {
    nx: bool,
    xx: bool,
    gt: bool,
    lt: bool,
}

impl Conditions {
    fn of(words: Words<'_>) -> Result<Conditions, Refusal> {
        let mut only = Conditions::default();
        for word in words {
            match &word.to_ascii_lowercase()[..] {
                b"nx" => only.nx = true,
                b"xx" => only.xx = true,
                b"gt" => only.gt = true,
                b"lt" => only.lt = true,
                _ => return Err(Refusal::Told(format!("ERR Unsupported option {}", repeated(word)))),
            }
        }
        Err(Refusal::Plain(match only {
            Conditions { nx: true, xx, gt, lt } if xx || gt || lt => {
                "ERR NX and XX, GT or LT options at the same time are not compatible"
            }
            Conditions { gt: true, lt: true, .. } => "ERR GT and LT options at the same time are not compatible",
            only => return Ok(only),
        }))
    }

    /// Whether a key of that life gets this deadline. A life without an end is longer than any.
    fn allow(&self, life: Life, when: i64) -> bool {
        match life {
            Life::Endless => !self.xx && !self.gt,
            Life::Until(until) => !self.nx && (!self.gt || when > until as i64) && (!self.lt || when < until as i64),
        }
    }
}

pub fn expire(client: &mut Client<'_>, words: Words<'_>, form: Form) -> Answer {
    let only = Conditions::of(&words[3..])?;
    let (name, now) = (words[1], client.desk.keyspace.clock.now());
    let (_, when) = form.time(words[2], now)?;
    if only.gt && when > now as i64 {
        return Ok(count(extend(client.desk, name, when as Tick) as usize));
    }
    client.desk.keyspace.change(name, |place| {
        let is_allowed = place.life.is_some_and(|life| only.allow(life, when));
        Ok(count(usize::from(is_allowed && place.expire(when.max(0) as Tick)?)))
    })
}

/// Gives a key that expires a later deadline, by one extend that takes no lock where this thread did so before. Two
/// clients that raise it to the same tick at once are both told that they did.
fn extend(desk: &mut Desk, name: &[u8], when: Tick) -> bool {
    if let Some(entry) = desk.known.get(name).copied() {
        if let Some(is_done) = extend_entry(desk, &entry, when) {
            return is_done;
        }
        desk.known.remove(name);
    }
    loop {
        let entry = desk.keyspace.view(name, |record, _| record.entry);
        let Some(entry) = entry.flatten() else { return false };
        if let Some(is_done) = extend_entry(desk, &entry, when) {
            desk.remember(name, entry);
            return is_done;
        }
    }
}

/// None where the entry isn't the name's any more, or is over.
fn extend_entry(desk: &Desk, entry: &Key, when: Tick) -> Option<bool> {
    match desk.keyspace.deadline(entry)? {
        until if desk.keyspace.clock.now() >= until => None,
        until if when <= until => Some(false),
        _ => desk.keyspace.extend(entry, when).map(|in_force| in_force == when),
    }
}

/// What is left of a key's life, or when it ends: -1 where it has no end, -2 where there is no key.
pub fn life(client: &mut Client<'_>, words: Words<'_>, form: Form) -> Answer {
    let keyspace = &client.desk.keyspace;
    let millis = match keyspace.view(words[1], |_, life| life) {
        None => return Ok(Reply::Integer(-2)),
        Some(Life::Endless) => return Ok(Reply::Integer(-1)),
        Some(Life::Until(until)) if form.is_from_now => until.saturating_sub(keyspace.clock.now()),
        Some(Life::Until(until)) => until,
    };
    Ok(Reply::Integer(if form.is_seconds { (millis + 500) / 1000 } else { millis } as i64))
}
