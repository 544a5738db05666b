//! Writers that take little or nothing, and writers that fail.

use crate::tests::kit::Fail;
use super::faults::FAULTY;
use super::scripts::{THREE_NAMES, TWO_NAMES};
use super::table::{fault_at, is_text, joined};
use crate::replay::{FaultKind, ReplayFault, run};
use std::io::Write;
use std::{io, str};

/// A writer that only counts.
pub struct Count<'a>(pub &'a mut usize);

impl Write for Count<'_> {
    fn write(&mut self, buf: &[u8]) -> io::Result<usize> {
        *self.0 = self.0.saturating_add(buf.len());
        Ok(buf.len())
    }

    fn flush(&mut self) -> io::Result<()> {
        Ok(())
    }
}

/// A writer that takes nothing, and that counts what it is asked.
pub struct Full<'a>(pub &'a mut u32);

impl Write for Full<'_> {
    fn write(&mut self, _buf: &[u8]) -> io::Result<usize> {
        *self.0 = self.0.saturating_add(1);
        Ok(0)
    }

    fn flush(&mut self) -> io::Result<()> {
        Ok(())
    }
}

// promise: replay.write-fault replay.faults-reader
#[test]
fn zero_byte_write() -> Result<(), Fail> {
    let (script, _) = joined("delay 1", &TWO_NAMES)?;
    let mut asked = 0;
    let mut reader = script.as_bytes();
    let end = run(&mut reader, &mut Full(&mut asked), 1024);
    assert_eq!(end, Err(ReplayFault::Write));
    assert_eq!(asked, 1);
    Ok(())
}

// A writer that takes one byte a call, up to a call from which on it answers errors, and that counts them.
struct Slow<'a> {
    taken: &'a mut Vec<u8>,
    calls_left: usize,
    errors: &'a mut u32,
}

impl Write for Slow<'_> {
    fn write(&mut self, buf: &[u8]) -> io::Result<usize> {
        self.calls_left = self.calls_left.saturating_sub(1);
        if self.calls_left == 0 {
            *self.errors = self.errors.saturating_add(1);
            return Err(io::Error::from(io::ErrorKind::Interrupted));
        }
        match buf.first() {
            Some(byte) => {
                self.taken.push(*byte);
                Ok(1)
            }
            None => Ok(0),
        }
    }

    fn flush(&mut self) -> io::Result<()> {
        Ok(())
    }
}

// A write fails behind those of the answers' bytes, and isn't tried again.
fn fails_behind(script: &[u8], written: &[u8]) {
    let mut taken = Vec::new();
    let mut errors = 0;
    let mut reader = script;
    let end = {
        let mut writer = Slow {
            taken: &mut taken,
            calls_left: written.len() + 1,
            errors: &mut errors,
        };
        run(&mut reader, &mut writer, 3)
    };
    assert_eq!(end, Err(ReplayFault::Write));
    assert!(
        taken.as_slice() == written,
        "behind {} bytes",
        written.len()
    );
    assert_eq!(errors, 1);
}

// promise: replay.write-fault
#[test]
fn short_writes_then_error() -> Result<(), Fail> {
    let (script, _) = joined("delay 1", &TWO_NAMES)?;
    fails_behind(script.as_bytes(), b"a at 5\nb ");
    Ok(())
}

// promise: replay.write-fault
#[test]
fn fault_at_each_write() -> Result<(), Fail> {
    let (script, answers) = joined("delay 1", &THREE_NAMES)?;
    let answers = answers.as_bytes();
    for write in 0..answers.len() {
        fails_behind(script.as_bytes(), &answers[..write]);
    }
    Ok(())
}

// A writer whose flush may be an error, and that counts its flushes.
struct Unflushed<'a> {
    taken: &'a mut Vec<u8>,
    flushes: &'a mut u32,
    fails: bool,
}

impl Write for Unflushed<'_> {
    fn write(&mut self, buf: &[u8]) -> io::Result<usize> {
        self.taken.extend_from_slice(buf);
        Ok(buf.len())
    }

    fn flush(&mut self) -> io::Result<()> {
        *self.flushes = self.flushes.saturating_add(1);
        if self.fails {
            return Err(io::Error::from(io::ErrorKind::Interrupted));
        }
        Ok(())
    }
}

// A script's answers are flushed once, and where that fails, it ends so.
fn flushes_once(
    script: &[u8],
    answers: &str,
    fails: bool,
    end: Result<(), ReplayFault>,
) {
    let mut taken = Vec::new();
    let mut flushes = 0;
    let mut reader = script;
    let ended = {
        let mut writer = Unflushed {
            taken: &mut taken,
            flushes: &mut flushes,
            fails,
        };
        run(&mut reader, &mut writer, 1024)
    };
    assert_eq!(ended, end);
    is_text(&taken, answers);
    assert_eq!(flushes, 1);
}

// promise: replay.write-fault replay.faults-reader
#[test]
fn flush_error() -> Result<(), Fail> {
    let (script, answers) = joined("delay 1", &TWO_NAMES)?;
    let fault = fault_at(3, FaultKind::BadShape);
    for (script, answers, end) in [(FAULTY.0, FAULTY.1, fault), (&script, &answers, Ok(()))] {
        flushes_once(script.as_bytes(), answers, false, end);
        flushes_once(
            script.as_bytes(),
            answers,
            true,
            Err(ReplayFault::Write),
        );
    }
    Ok(())
}
