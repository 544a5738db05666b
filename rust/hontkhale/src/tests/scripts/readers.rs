//! Readers that fail, and readers without an end.

use crate::tests::kit::Fail;
use super::scripts::THREE_NAMES;
use super::table::{fault_at, is_text, joined};
use super::writers::Count;
use crate::replay::{FaultKind, ReplayFault, run};
use std::io::Read;
use std::{io, str};

// A reader that gives its bytes, and then errors.
struct Broken<'a> {
    left: &'a [u8],
    errors: &'a mut u32,
}

impl Read for Broken<'_> {
    fn read(&mut self, buf: &mut [u8]) -> io::Result<usize> {
        match (self.left.split_first(), buf.first_mut()) {
            (Some((byte, left)), Some(place)) => {
                *place = *byte;
                self.left = left;
                Ok(1)
            }
            (None, _) => {
                *self.errors = self.errors.saturating_add(1);
                Err(io::Error::from(io::ErrorKind::Interrupted))
            }
            (_, None) => Ok(0),
        }
    }
}

// A read fails behind those bytes: it isn't tried again, and what was read is answered.
fn fails_behind(bytes: &[u8], answers: &str) {
    let mut errors = 0;
    let mut written = Vec::new();
    let end = {
        let mut reader = Broken {
            left: bytes,
            errors: &mut errors,
        };
        run(&mut reader, &mut written, 3)
    };
    assert_eq!(end, Err(ReplayFault::Read));
    is_text(&written, answers);
    assert_eq!(errors, 1);
}

// promise: replay.read-fault replay.faults-reader
#[test]
fn read_error_mid_line() {
    for (bytes, answers) in [
        ("delay 1\ninsert a 5\ninsert b", "a at 5\n"),
        ("delay 1\ninsert a 5\n", "a at 5\n"),
        ("", ""),
    ] {
        fails_behind(bytes.as_bytes(), answers);
    }
}

// Behind each byte of a script; the last such read is the one that would find the input's end.
// promise: replay.write-fault
#[test]
fn fault_at_each_read() -> Result<(), Fail> {
    let (script, _) = joined("delay 1", &THREE_NAMES)?;
    let script = script.as_bytes();
    for read in 0..script.len() + 1 {
        let front = &script[..read];
        let ends = front.iter().filter(|byte| **byte == b'\n').count();
        let answered = &THREE_NAMES[..ends.saturating_sub(1).min(10)];
        let (_, answers) = joined("delay 1", answered)?;
        fails_behind(front, &answers);
    }
    Ok(())
}

// A reader of a first line, and then of one line again and again, up to so many bytes.
struct Again {
    given: usize,
    end: usize,
}

impl Read for Again {
    fn read(&mut self, buf: &mut [u8]) -> io::Result<usize> {
        let header = b"delay 1\n";
        let line = b"tick 0\n";
        let byte = match header.get(self.given) {
            Some(byte) => *byte,
            None => line[(self.given - header.len()) % line.len()],
        };
        match buf.first_mut() {
            Some(place) if self.given < self.end => {
                *place = byte;
                self.given += 1;
                Ok(1)
            }
            _ => Ok(0),
        }
    }
}

// promise: replay.run-returns
#[test]
fn endless_lines() {
    let mut count = 0;
    let mut reader = Again {
        given: 0,
        end: usize::MAX,
    };
    let end = run(&mut reader, &mut Count(&mut count), 4);
    assert_eq!(end, fault_at(1_000_001, FaultKind::TooManyLines));
    assert_eq!(count, 999_999 * 7);
    assert_eq!(reader.given, 8 + 999_999 * 7 + 1);
}

// A script may end behind its last possible line.
// promise: replay.run-returns
#[test]
fn greatest_number_of_lines() {
    let mut count = 0;
    let mut reader = Again {
        given: 0,
        end: 8 + 999_999 * 7,
    };
    let end = run(&mut reader, &mut Count(&mut count), 4);
    assert_eq!(end, Ok(()));
    assert_eq!(count, 999_999 * 7);
}

// promise: replay.run-returns
#[test]
fn endless_line() {
    let mut written = Vec::new();
    let end = run(&mut io::repeat(b'a'), &mut written, 4);
    assert_eq!(end, fault_at(1, FaultKind::LineTooLong));
    assert!(written.is_empty());
}
