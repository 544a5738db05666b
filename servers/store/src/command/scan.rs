//! SCAN, which goes from name to name by their places, and the patterns that it takes.

use super::{Answer, Client, Refusal, Words};
use crate::resp::{integer, Reply};
use std::str;

/// How many names a call is asked for where it doesn't say, and how many it tells at most.
const ASKED: usize = 10;
const MOST: usize = 1_024;
/// How many names KEYS tells at most: they are all held at a time.
const MOST_KEYS: usize = 1 << 16;

pub fn scan(client: &mut Client<'_>, words: Words<'_>) -> Answer {
    let cursor = cursor(words[1]).ok_or(Refusal::Plain("ERR invalid cursor"))?;
    let (mut pattern, mut asked, mut is_strings) = (&b"*"[..], ASKED, true);
    for option in words[2..].chunks(2) {
        let (name, value) = match option {
            [name, value] => (name.to_ascii_lowercase(), *value),
            _ => return Err(Refusal::SYNTAX),
        };
        match &name[..] {
            b"match" => pattern = value,
            b"count" => {
                let count = integer(value).ok_or(Refusal::NOT_AN_INTEGER)?;
                asked = usize::try_from(count).ok().filter(|it| *it > 0).ok_or(Refusal::SYNTAX)?;
            }
            b"type" => is_strings = value.eq_ignore_ascii_case(b"string"),
            _ => return Err(Refusal::SYNTAX),
        }
    }
    let (next, names) = client.desk.keyspace.names_from(cursor, asked.min(MOST));
    let names = names.into_iter().filter(|name| is_strings && is_match(pattern, name));
    let names = names.map(Reply::Bulk).collect();
    Ok(Reply::Array(vec![Reply::bulk(next.to_string().as_bytes()), Reply::Array(names)]))
}

/// A cursor as C's strtoul takes it: nothing is 0, a minus counts from above, and what follows a zero byte doesn't count.
fn cursor(text: &[u8]) -> Option<u64> {
    let text = text.split(|it| *it == 0).next()?;
    let (is_negative, digits) = match text {
        [] => return Some(0),
        [b'-', digits @ ..] => (true, digits),
        [b'+', digits @ ..] | digits => (false, digits),
    };
    let number: u64 = str::from_utf8(digits).ok().filter(|it| !it.starts_with('+'))?.parse().ok()?;
    Some(if is_negative { number.wrapping_neg() } else { number })
}

/// The names of all keys that fit a pattern, which are told one by one.
pub fn keys(client: &mut Client<'_>, words: Words<'_>) -> Answer {
    let names = client.desk.keyspace.names(|name| is_match(words[1], name), MOST_KEYS);
    let names = names.ok_or_else(|| Refusal::Told(format!("ERR more than {MOST_KEYS} names fit: SCAN tells them")))?;
    let count = names.len();
    names.into_iter().for_each(|name| client.session.transaction.keep(Reply::Bulk(name)));
    Ok(Reply::Begun(count))
}

/// Whether a text is as a pattern says, where `*` stands for any bytes, `?` for one, `[a-z]` for one of these,
/// `[^a-z]` for any other, and a backslash takes the meaning off what follows it.
pub fn is_match(pattern: &[u8], text: &[u8]) -> bool {
    if text.is_empty() {
        // Redis takes no two stars for nothing.
        return matches!(pattern, b"" | b"*");
    }
    let (mut rest, mut left) = (pattern, text);
    // Where to go on once what follows the last star doesn't fit: the star takes another byte.
    let mut star: Option<(&[u8], &[u8])> = None;
    loop {
        if let Some((b'*', others)) = rest.split_first() {
            star = Some((others, left));
            rest = others;
            continue;
        }
        match one(rest, left) {
            Some((pattern_rest, text_rest)) => (rest, left) = (pattern_rest, text_rest),
            None if rest.is_empty() && left.is_empty() => return true,
            None => match star {
                Some((after, [_, others @ ..])) => {
                    star = Some((after, others));
                    (rest, left) = (after, others);
                }
                _ => return false,
            },
        }
    }
}

/// What follows the first byte and the part of the pattern that it fits, none where it fits not.
fn one<'a, 'b>(pattern: &'a [u8], text: &'b [u8]) -> Option<(&'a [u8], &'b [u8])> {
    let (byte, left) = text.split_first()?;
    let (is_fit, rest) = match pattern {
        [] => return None,
        [b'?', rest @ ..] => (true, rest),
        [b'[', rest @ ..] => class(rest, *byte),
        [b'\\', it, rest @ ..] => (it == byte, rest),
        [it, rest @ ..] => (it == byte, rest),
    };
    Some((rest, left)).filter(|_| is_fit)
}

/// Whether a byte is in a class, and what follows it. A class without its end goes to the pattern's.
fn class(pattern: &[u8], byte: u8) -> (bool, &[u8]) {
    let is_negated = pattern.first() == Some(&b'^');
    let mut rest = &pattern[is_negated as usize..];
    let mut is_in = false;
    loop {
        let (is_fit, others) = match rest {
            [] => return (is_in != is_negated, rest),
            [b']', others @ ..] => return (is_in != is_negated, others),
            [b'\\', it, others @ ..] => (*it == byte, others),
            [from, b'-', to, others @ ..] => ((*from.min(to)..=*from.max(to)).contains(&byte), others),
            [it, others @ ..] => (*it == byte, others),
        };
        is_in |= is_fit;
        rest = others;
    }
}
