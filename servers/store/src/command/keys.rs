//! Keys and their values.

use super::expiry::Form;
use super::{count, Answer, Client, Refusal, Words};
use crate::clock::Tick;
use crate::keyspace::Lifetime;
use crate::resp::{integer, Reply};

pub fn value(client: &mut Client<'_>, name: &[u8]) -> Reply {
    let value = client.desk.keyspace.view(name, |record, _| record.value.clone());
    value.map_or(Reply::Nil, Reply::Bulk)
}

fn is_there(client: &mut Client<'_>, name: &[u8]) -> bool {
    client.desk.keyspace.view(name, |_, _| ()).is_some()
}

pub fn exists(client: &mut Client<'_>, words: Words<'_>) -> Answer {
    Ok(count(words[1..].iter().filter(|name| is_there(client, name)).count()))
}

pub fn type_of(client: &mut Client<'_>, words: Words<'_>) -> Answer {
    Ok(Reply::Status(if is_there(client, words[1]) { "string" } else { "none" }))
}

pub fn del(client: &mut Client<'_>, words: Words<'_>) -> Answer {
    Ok(count(words[1..].iter().filter(|name| client.desk.keyspace.change(name, |place| place.remove())).count()))
}

/// The holder of a lease ends it, by the value that it set.
pub fn del_if_equal(client: &mut Client<'_>, words: Words<'_>) -> Answer {
    client.desk.keyspace.change(words[1], |place| {
        let is_its = place.value().is_some_and(|value| **value == *words[2]);
        Ok(count(usize::from(is_its && place.remove())))
    })
}

pub fn persist(client: &mut Client<'_>, words: Words<'_>) -> Answer {
    Ok(count(client.desk.keyspace.change(words[1], |place| place.persist()) as usize))
}

pub fn get_and_remove(client: &mut Client<'_>, words: Words<'_>) -> Answer {
    client.desk.keyspace.change(words[1], |place| {
        let value = place.value().cloned();
        place.remove();
        Ok(value.map_or(Reply::Nil, Reply::Bulk))
    })
}

pub fn add(client: &mut Client<'_>, name: &[u8], by: i64) -> Answer {
    client.desk.keyspace.change(name, |place| {
        let old = place.value().map_or(Some(0), |value| integer(value)).ok_or(Refusal::NOT_AN_INTEGER)?;
        let new = old.checked_add(by).ok_or(Refusal::Plain("ERR increment or decrement would overflow"))?;
        place.set(new.to_string().as_bytes(), Lifetime::Kept)?;
        Ok(Reply::Integer(new))
    })
}

pub fn incr_by(client: &mut Client<'_>, words: Words<'_>) -> Answer {
    add(client, words[1], integer(words[2]).ok_or(Refusal::NOT_AN_INTEGER)?)
}

pub fn decr_by(client: &mut Client<'_>, words: Words<'_>) -> Answer {
    let by = integer(words[2]).ok_or(Refusal::NOT_AN_INTEGER)?;
    add(client, words[1], by.checked_neg().ok_or(Refusal::Plain("ERR decrement would overflow"))?)
}

pub fn flush(client: &mut Client<'_>, words: Words<'_>) -> Answer {
    let is_known = |mode: &&[u8]| mode.eq_ignore_ascii_case(b"sync") || mode.eq_ignore_ascii_case(b"async");
    if words.len() > 2 || !words[1..].iter().all(is_known) {
        return Err(Refusal::SYNTAX);
    }
    client.desk.keyspace.clear();
    Ok(Reply::Status("OK"))
}

/// Which old value a SET wants.
#[derive(Default)]
enum Only<'a> {
    #[default]
    Any,
    None,
    Some,
    Equal(&'a [u8]),
}

impl Only<'_> {
    fn allows(&self, old: Option<&[u8]>) -> bool {
        match self {
            Only::Any => true,
            Only::None => old.is_none(),
            Only::Some => old.is_some(),
            Only::Equal(value) => old == Some(value),
        }
    }
}

/// What a SET or a GETEX is asked beside the key and the value.
#[derive(Default)]
struct Options<'a> {
    only: Only<'a>,
    is_get: bool,
    /// KEEPTTL of a SET, or PERSIST of a GETEX: no time stands beside it.
    is_timeless: bool,
    time: Option<(Form, &'a [u8])>,
}

impl<'a> Options<'a> {
    /// Compiled for each command by itself, which takes fewer instructions.
    fn of<const IS_SET: bool>(words: Words<'a>) -> Result<Options<'a>, Refusal> {
        let mut options = Options::default();
        let mut rest = words.iter().copied();
        while let Some(word) = rest.next() {
            match (&word.to_ascii_lowercase()[..], &options.only) {
                (b"nx", Only::Any | Only::None) if IS_SET => options.only = Only::None,
                (b"xx", Only::Any | Only::Some) if IS_SET => options.only = Only::Some,
                (b"ifeq", Only::Any) if IS_SET => options.only = Only::Equal(rest.next().ok_or(Refusal::SYNTAX)?),
                (b"get", _) if IS_SET => options.is_get = true,
                (b"keepttl", _) if IS_SET && options.time.is_none() => options.is_timeless = true,
                (b"persist", _) if !IS_SET && options.time.is_none() => options.is_timeless = true,
                _ if options.is_timeless => return Err(Refusal::SYNTAX),
                (word, _) => {
                    // Of two times in one form the last counts.
                    let is_first = |form: &Form| options.time.map_or(true, |(other, _)| other == *form);
                    let form = Form::of(word).filter(is_first).ok_or(Refusal::SYNTAX)?;
                    options.time = Some((form, rest.next().ok_or(Refusal::SYNTAX)?));
                }
            }
        }
        Ok(options)
    }

    /// What becomes of the deadline: one that is told, the old one, or none.
    fn lifetime(&self, now: Tick) -> Result<Lifetime, Refusal> {
        match self.time {
            None if self.is_timeless => Ok(Lifetime::Kept),
            None => Ok(Lifetime::Endless),
            Some((form, time)) => form.positive(time, now).map(Lifetime::Until),
        }
    }
}

pub fn set(client: &mut Client<'_>, words: Words<'_>) -> Answer {
    let options = Options::of::<true>(&words[3..])?;
    client.desk.keyspace.change(words[1], |place| {
        let lifetime = options.lifetime(place.now)?;
        let old = place.value().cloned();
        let is_done = options.only.allows(old.as_deref());
        if is_done {
            place.set(words[2], lifetime)?;
        }
        Ok(match old {
            Some(old) if options.is_get => Reply::Bulk(old),
            _ if is_done && !options.is_get => Reply::Status("OK"),
            _ => Reply::Nil,
        })
    })
}

pub fn set_new(client: &mut Client<'_>, words: Words<'_>) -> Answer {
    client.desk.keyspace.change(words[1], |place| {
        let is_new = place.value().is_none();
        if is_new {
            place.set(words[2], Lifetime::Endless)?;
        }
        Ok(count(usize::from(is_new)))
    })
}

pub fn get_and_set(client: &mut Client<'_>, words: Words<'_>) -> Answer {
    client.desk.keyspace.change(words[1], |place| {
        let old = place.value().cloned();
        place.set(words[2], Lifetime::Endless)?;
        Ok(old.map_or(Reply::Nil, Reply::Bulk))
    })
}

/// Sets each key. What was set before one that is refused stays.
pub fn set_all(client: &mut Client<'_>, words: Words<'_>) -> Answer {
    if words.len() % 2 == 0 {
        return Err(Refusal::WordCount);
    }
    for pair in words[1..].chunks(2) {
        client.desk.keyspace.change(pair[0], |place| place.set(pair[1], Lifetime::Endless))?;
    }
    Ok(Reply::Status("OK"))
}

/// SETEX or PSETEX: the time stands before the value.
pub fn set_until(client: &mut Client<'_>, words: Words<'_>, form: Form) -> Answer {
    client.desk.keyspace.change(words[1], |place| {
        place.set(words[3], Lifetime::Until(form.positive(words[2], place.now)?))?;
        Ok(Reply::Status("OK"))
    })
}

pub fn get_and_expire(client: &mut Client<'_>, words: Words<'_>) -> Answer {
    let options = Options::of::<false>(&words[2..])?;
    client.desk.keyspace.change(words[1], |place| {
        let Some(value) = place.value().cloned() else { return Ok(Reply::Nil) };
        if options.is_timeless {
            place.persist();
        } else if let Some((form, time)) = options.time {
            if !place.expire(form.positive(time, place.now)?)? {
                return Ok(Reply::Nil);
            }
        }
        Ok(Reply::Bulk(value))
    })
}
