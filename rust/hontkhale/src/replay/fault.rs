//! Why a replay ends early.

use crate::memory::AllocError;
use core::fmt;
use std::error::Error;

/// What is wrong with a line of a script. Of several faults of one line the first is told.
#[derive(Clone, Copy, Debug, PartialEq, Eq)]
#[non_exhaustive]
pub enum FaultKind {
    /// The script has more than 1,000,000 lines.
    TooManyLines,
    /// More than 128 bytes stand before the line's end.
    LineTooLong,
    /// The input ends inside the line, behind at least one byte of it.
    UnfinishedLine,
    /// The first line names no edition, or the input is empty.
    BadHeader,
    /// The line's first token is no command.
    UnknownCommand,
    /// The command has another number of tokens.
    BadShape,
    /// A name isn't 1 to 32 bytes of `a` to `z`, `0` to `9`, `_` and `-`.
    BadName,
    /// A number isn't `0`, or digits that don't begin with `0`, of a value below `2^64`.
    BadNumber,
}

/// Why `run` gave up. Lines count from 1.
#[derive(Clone, Copy, Debug, PartialEq, Eq)]
#[non_exhaustive]
pub enum ReplayFault {
    /// The capacity isn't from 1 to 65536.
    BadConfig,
    /// An allocation was refused.
    NoMemory,
    /// A line of the script is wrong.
    Script {
        /// The line's number.
        line: u32,
        /// What is wrong with it.
        kind: FaultKind,
    },
    /// The reader answered an error.
    Read,
    /// The writer answered an error, or took nothing.
    Write,
}

impl fmt::Display for FaultKind {
    fn fmt(&self, f: &mut fmt::Formatter<'_>) -> fmt::Result {
        match self {
            FaultKind::TooManyLines => write!(f, "too many lines"),
            FaultKind::LineTooLong => write!(f, "line too long"),
            FaultKind::UnfinishedLine => write!(f, "unfinished line"),
            FaultKind::BadHeader => write!(f, "bad header"),
            FaultKind::UnknownCommand => write!(f, "unknown command"),
            FaultKind::BadShape => write!(f, "wrong number of words"),
            FaultKind::BadName => write!(f, "bad name"),
            FaultKind::BadNumber => write!(f, "bad number"),
        }
    }
}

impl fmt::Display for ReplayFault {
    fn fmt(&self, f: &mut fmt::Formatter<'_>) -> fmt::Result {
        match self {
            ReplayFault::BadConfig => write!(f, "bad capacity"),
            ReplayFault::NoMemory => write!(f, "out of memory"),
            ReplayFault::Script { line, kind } => write!(f, "line {line}: {kind}"),
            ReplayFault::Read => write!(f, "read fault"),
            ReplayFault::Write => write!(f, "write fault"),
        }
    }
}

impl Error for FaultKind {}

impl Error for ReplayFault {}

impl From<AllocError> for ReplayFault {
    fn from(_: AllocError) -> ReplayFault {
        ReplayFault::NoMemory
    }
}
