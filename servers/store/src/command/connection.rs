//! What a client asks of its connection and of the server.

use super::scan::is_match;
use super::{count, repeated, Answer, Client, Refusal, Words, COMMANDS};
use crate::keyspace::Held;
use crate::resp::{integer, Limits, Protocol, Reply};
use crate::seats::Guest;
use std::time::{Duration, SystemTime};

/// The version of Redis whose replies these are. Clients ask for it to know which commands there are.
const REDIS_VERSION: &str = "7.0.15";

pub fn ping(_: &mut Client<'_>, words: Words<'_>) -> Answer {
    match words {
        [_] => Ok(Reply::Status("PONG")),
        [_, text] => Ok(Reply::bulk(text)),
        _ => Err(Refusal::WordCount),
    }
}

/// The seconds since 1970, and the microseconds of this one.
pub fn time(_: &mut Client<'_>, _: Words<'_>) -> Answer {
    let since = SystemTime::now().duration_since(SystemTime::UNIX_EPOCH).unwrap_or_default();
    let text = |number: u64| Reply::bulk(number.to_string().as_bytes());
    Ok(Reply::Array(vec![text(since.as_secs()), text(since.subsec_micros().into())]))
}

/// There is one database.
pub fn select(_: &mut Client<'_>, words: Words<'_>) -> Answer {
    match integer(words[1]) {
        Some(0) => Ok(Reply::Status("OK")),
        Some(number) if i32::try_from(number).is_ok() => Err(Refusal::Plain("ERR DB index is out of range")),
        Some(_) => Err(Refusal::Plain("ERR value is out of range, value must between -2147483648 and 2147483647")),
        None => Err(Refusal::NOT_AN_INTEGER),
    }
}

/// Tells the protocol, its client's name and a password, all at once.
pub fn hello(client: &mut Client<'_>, words: Words<'_>) -> Answer {
    let protocol = match words.get(1).map(|it| integer(it)) {
        None => client.session.protocol,
        Some(None) => return Err(Refusal::Plain("ERR Protocol version is not an integer or out of range")),
        Some(Some(2)) => Protocol::Two,
        Some(Some(3)) => Protocol::Three,
        Some(Some(_)) => return Err(Refusal::Plain("NOPROTO unsupported protocol version")),
    };
    let (mut rest, mut name, mut is_admitted) = (words.get(2..).unwrap_or(&[]), None, client.session.is_admitted);
    while let Some((option, others)) = rest.split_first() {
        rest = match (&option.to_ascii_lowercase()[..], others) {
            (b"auth", [user, password, others @ ..]) => {
                is_admitted = is_password(client, user, password)?;
                others
            }
            (b"setname", [new, others @ ..]) => {
                name = Some(*new);
                others
            }
            _ => return Err(Refusal::Told(format!("ERR Syntax error in HELLO option '{}'", repeated(option)))),
        };
    }
    if !is_admitted {
        return Err(Refusal::HELLO_NO_AUTH);
    }
    client.session.is_admitted = true;
    if let Some(name) = name {
        set_name(client, name)?;
    }
    client.session.protocol = protocol;
    Ok(about(client))
}

/// Whether a user is told with its password: there is the one of Redis's, for whom any is good where none is set.
fn is_password(client: &Client<'_>, user: &[u8], password: &[u8]) -> Result<bool, Refusal> {
    let is_right = client.desk.settings.password.as_ref().map_or(true, |it| it.is(password));
    (user == b"default" && is_right).then_some(true).ok_or(Refusal::PASSWORD)
}

pub fn auth(client: &mut Client<'_>, words: Words<'_>) -> Answer {
    client.session.is_admitted |= match words {
        [_, _] if client.desk.settings.password.is_none() => return Err(Refusal::NO_PASSWORD),
        [_, password] => is_password(client, b"default", password)?,
        [_, user, password] => is_password(client, user, password)?,
        _ => return Err(Refusal::SYNTAX),
    };
    Ok(Reply::Status("OK"))
}

fn about(client: &Client<'_>) -> Reply {
    let text = |text: &str| Reply::bulk(text.as_bytes());
    let proto = if client.session.protocol == Protocol::Three { 3 } else { 2 };
    let fields = [
        ("server", text("redis")),
        ("version", text(REDIS_VERSION)),
        ("proto", Reply::Integer(proto)),
        ("id", Reply::Integer(client.session.guest.id as i64)),
        ("mode", text("standalone")),
        ("role", text("master")),
        ("modules", Reply::Array(Vec::new())),
    ];
    Reply::Map(fields.into_iter().map(|(name, value)| (text(name), value)).collect())
}

fn set_name(client: &mut Client<'_>, name: &[u8]) -> Result<(), Refusal> {
    if !name.iter().all(u8::is_ascii_graphic) {
        return Err(Refusal::Plain("ERR Client names cannot contain spaces, newlines or special characters."));
    }
    *client.session.guest.name() = name.to_vec();
    Ok(())
}

/// The parts of CLIENT that have a number of words.
const PARTS: [&str; 5] = ["id", "getname", "setname", "info", "kill"];

pub fn client(client: &mut Client<'_>, words: Words<'_>) -> Answer {
    match (&words[1].to_ascii_lowercase()[..], &words[2..]) {
        (b"id", []) => Ok(Reply::Integer(client.session.guest.id as i64)),
        (b"getname", []) => match &client.session.guest.name()[..] {
            [] => Ok(Reply::Nil),
            name => Ok(Reply::bulk(name)),
        },
        (b"setname", [name]) => set_name(client, name).map(|()| Reply::Status("OK")),
        (b"info", []) => Ok(Reply::Text(told_of(&client.session.guest))),
        (b"list", rest) => list(client, rest),
        (b"kill", [address]) => kill_at(client, address),
        (b"kill", [_, _, ..]) => kill(client, &words[2..]),
        (part, _) => Err(match PARTS.iter().find(|it| it.as_bytes() == part) {
            Some(part) => Refusal::PartWordCount(part),
            None => Refusal::UnknownPart("CLIENT", repeated(words[1])),
        }),
    }
}

/// A connection in a line, by Redis's words, as far as there is something to say.
fn told_of(guest: &Guest) -> String {
    let (id, address, held) = (guest.id, guest.address, guest.held());
    let (age, idle) = (guest.since.elapsed().as_secs(), guest.idle().as_secs());
    let (name, command) = (String::from_utf8_lossy(&guest.name()).into_owned(), COMMANDS[guest.command()].0);
    format!(
        "id={id} addr={address} name={name} age={age} idle={idle} flags=N db=0 sub=0 psub=0 tot-mem={held} \
         cmd={command} user=default\n"
    )
}

/// All connections, or those of some numbers. Each is of the one kind that there is.
fn list(client: &Client<'_>, words: Words<'_>) -> Answer {
    let ids: Option<Vec<u64>> = match words {
        [] => None,
        [word, kind] if word.eq_ignore_ascii_case(b"type") => (!is_normal(kind)?).then(Vec::new),
        [word, ids @ ..] if word.eq_ignore_ascii_case(b"id") && !ids.is_empty() => {
            Some(ids.iter().map(|it| client_id(it, "ERR Invalid client ID")).collect::<Result<_, _>>()?)
        }
        _ => return Err(Refusal::SYNTAX),
    };
    let guests = client.desk.seats.guests();
    let asked = guests.iter().filter(|it| ids.as_ref().map_or(true, |ids| ids.contains(&it.id)));
    Ok(Reply::Text(asked.map(|it| told_of(it)).collect()))
}

fn client_id(word: &[u8], refusal: &'static str) -> Result<u64, Refusal> {
    integer(word).filter(|it| *it > 0).map(|it| it as u64).ok_or(Refusal::Plain(refusal))
}

fn is_normal(kind: &[u8]) -> Result<bool, Refusal> {
    match &kind.to_ascii_lowercase()[..] {
        b"normal" => Ok(true),
        b"master" | b"replica" | b"slave" | b"pubsub" => Ok(false),
        _ => Err(Refusal::Told(format!("ERR Unknown client type '{}'", repeated(kind)))),
    }
}

/// Closes the connection of an address.
fn kill_at(client: &Client<'_>, address: &[u8]) -> Answer {
    let mut guests = client.desk.seats.guests();
    guests.retain(|it| it.address.to_string().as_bytes() == address);
    if guests.is_empty() {
        return Err(Refusal::Plain("ERR No such client"));
    }
    client.desk.seats.send_away(&guests);
    Ok(Reply::Status("OK"))
}

/// Closes the connections that fit all that is said, but for its own where nothing else is said, and tells how many.
fn kill(client: &Client<'_>, mut words: Words<'_>) -> Answer {
    let (mut guests, mut spares_own) = (client.desk.seats.guests(), true);
    while let [word, value, rest @ ..] = words {
        match &word.to_ascii_lowercase()[..] {
            b"id" => {
                let id = client_id(value, "ERR client-id should be greater than 0")?;
                guests.retain(|it| it.id == id);
            }
            b"addr" => guests.retain(|it| it.address.to_string().as_bytes() == *value),
            b"type" if !is_normal(value)? => guests.clear(),
            b"type" => {}
            b"skipme" if value.eq_ignore_ascii_case(b"yes") => spares_own = true,
            b"skipme" if value.eq_ignore_ascii_case(b"no") => spares_own = false,
            _ => return Err(Refusal::SYNTAX),
        }
        words = rest;
    }
    if !words.is_empty() {
        return Err(Refusal::SYNTAX);
    }
    guests.retain(|it| !spares_own || it.id != client.session.guest.id);
    client.desk.seats.send_away(&guests);
    Ok(count(guests.len()))
}

/// What is set and can't be changed, by the names of Redis.
pub fn config(client: &mut Client<'_>, words: Words<'_>) -> Answer {
    if !words[1].eq_ignore_ascii_case(b"get") {
        return Err(Refusal::UnknownPart("CONFIG", repeated(words[1])));
    }
    if words.len() < 3 {
        return Err(Refusal::PartWordCount("get"));
    }
    let bytes = client.desk.keyspace.room.most + client.desk.seats.room;
    let settings = &client.desk.settings;
    let seconds = |time: Option<Duration>| time.map_or(0, |it| it.as_secs()).to_string();
    let settings = [
        ("appendonly", "no".into()),
        ("databases", "1".into()),
        ("maxclients", client.desk.seats.limit.to_string()),
        ("maxmemory", bytes.to_string()),
        ("maxmemory-policy", "noeviction".to_string()),
        ("proto-max-bulk-len", Limits::MOST.bulk.to_string()),
        ("save", String::new()),
        ("tcp-keepalive", seconds(settings.keepalive)),
        ("timeout", seconds(settings.timeout)),
    ];
    let asked = settings.iter().filter_map(|(name, value)| {
        let name = name.as_bytes();
        let word = words[2..].iter().find(|it| is_match(&it.to_ascii_lowercase(), name))?;
        // A name that is asked for as such is told as it was written.
        let name = if word.eq_ignore_ascii_case(name) { word } else { name };
        Some((Reply::bulk(name), Reply::bulk(value.as_bytes())))
    });
    Ok(Reply::Map(asked.collect()))
}

/// No command is described, and clients do without.
pub fn command(_: &mut Client<'_>, words: Words<'_>) -> Answer {
    match words.get(1) {
        Some(part) if part.eq_ignore_ascii_case(b"count") => Ok(count(COMMANDS.len())),
        _ => Ok(Reply::Array(Vec::new())),
    }
}

/// It takes nothing out, so that it tells what the keepers did by themselves.
pub fn info(client: &mut Client<'_>, _: Words<'_>) -> Answer {
    let (keyspace, seats) = (&client.desk.keyspace, &client.desk.seats);
    let Held { keys, expires, bytes, expired, late } = keyspace.held();
    let (version, held, room) = (env!("CARGO_PKG_VERSION"), seats.bytes(), keyspace.room.most + seats.room);
    let (clients, resident) = (seats.taken(), keyspace.room.resident().unwrap_or(0));
    Ok(Reply::Text(format!(
        "# Server\r\nredis_version:{REDIS_VERSION}\r\nstore_version:{version}\r\nredis_mode:standalone\r\n\r\n\
         # Clients\r\nconnected_clients:{clients}\r\n\r\n\
         # Memory\r\nused_memory:{}\r\nused_memory_keys:{bytes}\r\nused_memory_clients:{held}\r\n\
         used_memory_rss:{resident}\r\nmaxmemory:{room}\r\n\r\n\
         # Stats\r\nexpired_keys:{expired}\r\n\r\n\
         # Replication\r\nrole:master\r\n\r\n\
         # Queue\r\nwaiting:{expires}\r\nlate_ms:{late}\r\n\r\n\
         # Keyspace\r\n{}",
        bytes + held,
        if keys > 0 { format!("db0:keys={keys},expires={expires},avg_ttl=0\r\n") } else { String::new() }
    )))
}
