//! The lines of a reader, each read to its end and no further.

use crate::memory::TryPush;
use crate::replay::fault::ReplayFault;
use alloc::vec::Vec;
use std::io::Read;

/// The longest line, in bytes, without its end.
pub const LINE_LIMIT: usize = 128;

/// The most lines that a script may have, the first included.
pub const LAST_LINE: u32 = 1_000_000;

/// How a line came to its end.
#[derive(Clone, Copy, Debug, PartialEq, Eq)]
pub enum LineEnd {
    /// It was ended.
    Whole,
    /// The input ends in it, behind at least one byte.
    Unfinished,
    /// The input ends before it.
    Nothing,
    /// It has more bytes than a line may have.
    TooLong,
}

/// The next byte, or `None` at the end.
pub fn next_byte<R: Read>(reader: &mut R) -> Result<Option<u8>, ReplayFault> {
    let mut buffer = [0u8; 1];
    match reader.read(&mut buffer) {
        Ok(0) => Ok(None),
        Ok(_) => Ok(Some(buffer[0])),
        Err(_) => Err(ReplayFault::Read),
    }
}

/// Reads the next line into `line`, without its end.
pub fn next_line<R: Read>(reader: &mut R, line: &mut Vec<u8>) -> Result<LineEnd, ReplayFault> {
    line.clear();
    for _ in 0..LINE_LIMIT {
        match next_byte(reader)? {
            Some(b'\n') => return Ok(LineEnd::Whole),
            Some(byte) => line.try_push(byte)?,
            None if line.is_empty() => return Ok(LineEnd::Nothing),
            None => return Ok(LineEnd::Unfinished),
        }
    }
    match next_byte(reader)? {
        Some(b'\n') => Ok(LineEnd::Whole),
        Some(_) => Ok(LineEnd::TooLong),
        None => Ok(LineEnd::Unfinished),
    }
}
