//! The commands of a script, and how a line says them.

use crate::replay::fault::FaultKind;
use crate::replay::name::Name;

/// What a line of a script asks for.
pub enum Command {
    /// A new name, to expire at a tick.
    Insert { name: Name, when: u64 },
    /// Another tick for a live name to expire at.
    Reset { name: Name, when: u64 },
    /// A later tick for a live name to expire at.
    Extend { name: Name, when: u64 },
    /// The end of a live name, by whoever holds it.
    Cancel { name: Name },
    /// The end of a live name, by the queue's owner.
    Remove { name: Name },
    /// The deadline of a live name.
    Deadline { name: Name },
    /// The number of live names.
    Live,
    /// The end of all live names.
    Clear,
    /// The tick that was reached.
    Tick { to: u64 },
}

/// What a line's first token asks for.
#[derive(Clone, Copy)]
pub enum Verb {
    ToInsert,
    ToReset,
    ToExtend,
    ToCancel,
    ToRemove,
    ToTell,
    ToCount,
    ToClear,
    ToTick,
}

/// The command that a line says.
pub fn parse(line: &[u8]) -> Result<Command, FaultKind> {
    let mut tokens = Tokens::of(line);
    let Some(first) = tokens.next() else {
        return Err(FaultKind::UnknownCommand);
    };
    let Some(verb) = verb_of(first) else {
        return Err(FaultKind::UnknownCommand);
    };
    complete(verb, &mut tokens)
}

fn verb_of(token: &[u8]) -> Option<Verb> {
    if token == b"insert".as_slice() {
        Some(Verb::ToInsert)
    } else if token == b"reset".as_slice() {
        Some(Verb::ToReset)
    } else if token == b"extend".as_slice() {
        Some(Verb::ToExtend)
    } else if token == b"cancel".as_slice() {
        Some(Verb::ToCancel)
    } else if token == b"remove".as_slice() {
        Some(Verb::ToRemove)
    } else if token == b"deadline".as_slice() {
        Some(Verb::ToTell)
    } else if token == b"live".as_slice() {
        Some(Verb::ToCount)
    } else if token == b"clear".as_slice() {
        Some(Verb::ToClear)
    } else if token == b"tick".as_slice() {
        Some(Verb::ToTick)
    } else {
        None
    }
}

// The command that the tokens behind the first complete.
fn complete(verb: Verb, tokens: &mut Tokens<'_>) -> Result<Command, FaultKind> {
    match verb {
        Verb::ToInsert => {
            let (name, when) = name_and_number(tokens)?;
            Ok(Command::Insert { name, when })
        }
        Verb::ToReset => {
            let (name, when) = name_and_number(tokens)?;
            Ok(Command::Reset { name, when })
        }
        Verb::ToExtend => {
            let (name, when) = name_and_number(tokens)?;
            Ok(Command::Extend { name, when })
        }
        Verb::ToCancel => Ok(Command::Cancel {
            name: one_name(tokens)?,
        }),
        Verb::ToRemove => Ok(Command::Remove {
            name: one_name(tokens)?,
        }),
        Verb::ToTell => Ok(Command::Deadline {
            name: one_name(tokens)?,
        }),
        Verb::ToCount => alone(tokens, Command::Live),
        Verb::ToClear => alone(tokens, Command::Clear),
        Verb::ToTick => Ok(Command::Tick {
            to: one_number(tokens)?,
        }),
    }
}

fn name_and_number(tokens: &mut Tokens<'_>) -> Result<(Name, u64), FaultKind> {
    let (Some(name), Some(number), None) = (tokens.next(), tokens.next(), tokens.next()) else {
        return Err(FaultKind::BadShape);
    };
    let Some(name) = Name::parse(name) else {
        return Err(FaultKind::BadName);
    };
    let Some(number) = number_of(number) else {
        return Err(FaultKind::BadNumber);
    };
    Ok((name, number))
}

fn one_name(tokens: &mut Tokens<'_>) -> Result<Name, FaultKind> {
    let (Some(name), None) = (tokens.next(), tokens.next()) else {
        return Err(FaultKind::BadShape);
    };
    Name::parse(name).ok_or(FaultKind::BadName)
}

fn one_number(tokens: &mut Tokens<'_>) -> Result<u64, FaultKind> {
    let (Some(number), None) = (tokens.next(), tokens.next()) else {
        return Err(FaultKind::BadShape);
    };
    number_of(number).ok_or(FaultKind::BadNumber)
}

fn alone(tokens: &mut Tokens<'_>, command: Command) -> Result<Command, FaultKind> {
    match tokens.next() {
        None => Ok(command),
        Some(_) => Err(FaultKind::BadShape),
    }
}

// The tokens of a line that are left, between single spaces.
struct Tokens<'t> {
    rest: Option<&'t [u8]>,
}

impl<'t> Tokens<'t> {
    fn of(line: &'t [u8]) -> Tokens<'t> {
        Tokens { rest: Some(line) }
    }

    fn next(&mut self) -> Option<&'t [u8]> {
        let (token, rest) = split_token(self.rest?);
        self.rest = rest;
        Some(token)
    }
}

// The first token of a line, and what stands behind the space that ends it.
fn split_token(text: &[u8]) -> (&[u8], Option<&[u8]>) {
    match space_at(text) {
        Some(at) => (&text[..at], Some(&text[at + 1..])),
        None => (text, None),
    }
}

fn space_at(text: &[u8]) -> Option<usize> {
    text.iter().position(|b| *b == b' ')
}

// The number that a token is: digits, of which the first of several isn't `0`.
fn number_of(token: &[u8]) -> Option<u64> {
    match token {
        [] | [b'0', _, ..] => None,
        _ => digits(token),
    }
}

// The number that digits make, where it is below `2^64`.
fn digits(token: &[u8]) -> Option<u64> {
    let mut value = 0;
    for byte in token {
        match push_digit(value, *byte) {
            Some(next) => value = next,
            None => return None,
        }
    }
    Some(value)
}

fn push_digit(value: u64, byte: u8) -> Option<u64> {
    if !byte.is_ascii_digit() {
        return None;
    }
    value.checked_mul(10)?.checked_add(u64::from(byte - b'0'))
}
