//! The replay of a script.

use crate::replay::command::parse;
use crate::replay::fault::{FaultKind, ReplayFault};
use crate::replay::header::limit_of;
use crate::replay::line::{next_byte, next_line, LineEnd, LAST_LINE};
use crate::replay::output::write_whole;
use crate::replay::session::Session;
use crate::ticks::CAPACITY_LIMIT;
use alloc::string::String;
use alloc::vec::Vec;
use std::io::{Read, Write};

/// Reads a script and writes its answers, with at most `capacity` live names, 1 to [`CAPACITY_LIMIT`].
///
/// The reader is asked for one byte at a time, so that no byte is taken behind the one that decides the answer.
/// Neither a read nor a write is tried again. The writer is flushed once, before the script's end or its fault is
/// answered.
///
/// # Errors
///
/// `BadConfig` where the capacity is out of range: then nothing was read or written. `Script` where a line is wrong,
/// `Read` and `Write` where the reader or the writer answered an error, `NoMemory` where an allocation was refused.
pub fn run<R: Read, W: Write>(reader: &mut R, writer: &mut W, capacity: usize) -> Result<(), ReplayFault> {
    if capacity == 0 || capacity > CAPACITY_LIMIT {
        return Err(ReplayFault::BadConfig);
    }
    match replay(reader, writer, capacity) {
        Ok(()) => {
            flush(writer)?;
            Ok(())
        }
        Err(ReplayFault::Script { line, kind }) => {
            flush(writer)?;
            Err(ReplayFault::Script { line, kind })
        }
        Err(fault) => Err(fault),
    }
}

fn flush<W: Write>(writer: &mut W) -> Result<(), ReplayFault> {
    match writer.flush() {
        Ok(()) => Ok(()),
        Err(_) => Err(ReplayFault::Write),
    }
}

fn replay<R: Read, W: Write>(reader: &mut R, writer: &mut W, capacity: usize) -> Result<(), ReplayFault> {
    // requires 0 < capacity
    // requires capacity ≤ CAPACITY_LIMIT
    let mut session = Session::new(capacity)?;
    let mut line = Vec::new();
    for number in 1..LAST_LINE + 1 {
        if !replay_line(reader, writer, &mut session, &mut line, number)? {
            return Ok(());
        }
    }
    match next_byte(reader)? {
        None => Ok(()),
        Some(_) => Err(script_fault(LAST_LINE + 1, FaultKind::TooManyLines)),
    }
}

// Reads and answers one line, and tells whether the script goes on.
fn replay_line<R: Read, W: Write>(
    reader: &mut R,
    writer: &mut W,
    session: &mut Session,
    line: &mut Vec<u8>,
    number: u32,
) -> Result<bool, ReplayFault> {
    // requires number ≤ LAST_LINE
    // requires session.old.given < number
    match next_line(reader, line)? {
        LineEnd::Whole => {
            let text = answer(session, number, line)?;
            write_whole(writer, text.as_bytes())?;
            Ok(true)
        }
        LineEnd::Nothing if number == 1 => Err(script_fault(number, FaultKind::BadHeader)),
        LineEnd::Nothing => Ok(false),
        LineEnd::Unfinished => Err(script_fault(number, FaultKind::UnfinishedLine)),
        LineEnd::TooLong => Err(script_fault(number, FaultKind::LineTooLong)),
    }
}

// Does what one whole line says, and gives the text of its answer.
fn answer(session: &mut Session, number: u32, line: &[u8]) -> Result<String, ReplayFault> {
    // requires number ≤ LAST_LINE
    // requires length line.now ≤ LINE_LIMIT
    // requires session.old.given < number
    if number == 1 {
        let Some(limit) = limit_of(line) else {
            return Err(script_fault(number, FaultKind::BadHeader));
        };
        session.set_limit(limit);
        return Ok(String::new());
    }
    match parse(line) {
        Ok(command) => Ok(session.answer(command)?),
        Err(kind) => Err(script_fault(number, kind)),
    }
}

fn script_fault(line: u32, kind: FaultKind) -> ReplayFault {
    ReplayFault::Script { line, kind }
}
