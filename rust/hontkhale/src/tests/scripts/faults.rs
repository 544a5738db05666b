//! Scripts with a fault, bad capacities, and what is told of each fault.

use crate::tests::kit::Fail;
use super::table::{fault_at, is_text, runs};
use super::writers::Full;
use crate::replay::{FaultKind, ReplayFault, report, run};
use crate::ticks::CAPACITY_LIMIT;

// promise: replay.written-function
#[test]
fn unfinished_and_bad_header() {
    for (script, line, kind) in [
        ("delay 1\ninsert a", 2, FaultKind::UnfinishedLine),
        ("insert a 5\n", 1, FaultKind::BadHeader),
        ("", 1, FaultKind::BadHeader),
        ("delay 3\n", 1, FaultKind::BadHeader),
        ("delay 3\ninsert a 1\n", 1, FaultKind::BadHeader),
        ("delay 1", 1, FaultKind::UnfinishedLine),
    ] {
        runs(4, script.as_bytes(), "", fault_at(line, kind));
    }
}

/// A script whose third line has a fault, and what is answered before it.
pub const FAULTY: (&str, &str) = ("delay 1\ninsert a 5\ninsert b\n", "a at 5\n");

// promise: replay.written-function
#[test]
fn stops_at_fault() {
    let fault = fault_at(3, FaultKind::BadShape);
    runs(4, FAULTY.0.as_bytes(), FAULTY.1, fault);
}

// promise: replay.written-function
#[test]
fn one_fault_each() -> Result<(), Fail> {
    for (line, kind) in [
        ("insert  a 5", FaultKind::BadShape),
        ("insert A 5", FaultKind::BadName),
        ("tick 05", FaultKind::BadNumber),
        ("tick 18446744073709551616", FaultKind::BadNumber),
        ("", FaultKind::UnknownCommand),
        ("lives", FaultKind::UnknownCommand),
        ("insert  5", FaultKind::BadName),
        (
            "insert aaaaaaaaaaaaaaaaaaaaaaaaaaaaaaaaa 5",
            FaultKind::BadName,
        ),
        ("insert A x", FaultKind::BadName),
        ("tick ", FaultKind::BadNumber),
        ("tick +1", FaultKind::BadNumber),
        ("tick 1 ", FaultKind::BadShape),
    ] {
        let script = format!("delay 1\n{line}\n");
        runs(4, script.as_bytes(), "", fault_at(2, kind));
    }
    Ok(())
}

// promise: replay.written-function
#[test]
fn lines_of_128_bytes_and_more() -> Result<(), Fail> {
    for (line, kind) in [
        ([b'a'; 129].as_slice(), FaultKind::LineTooLong),
        ([b'a'; 128].as_slice(), FaultKind::UnknownCommand),
    ] {
        let mut script = Vec::from(b"delay 1\n");
        script.extend_from_slice(line);
        script.push(b'\n');
        runs(4, &script, "", fault_at(2, kind));
    }
    Ok(())
}

// promise: replay.capacity-refused
#[test]
fn bad_capacities() {
    let script = b"delay 1\ninsert a 5\n".as_slice();
    for capacity in [0, CAPACITY_LIMIT + 1, usize::MAX] {
        let mut reader = script;
        let mut written = Vec::new();
        let end = run(&mut reader, &mut written, capacity);
        assert_eq!(end, Err(ReplayFault::BadConfig));
        assert!(reader == script);
        assert!(written.is_empty());
    }
}

// promise: replay.capacity-refused
#[test]
fn greatest_capacity() {
    runs(65536, b"delay 1\ninsert a 5\n", "a at 5\n", Ok(()));
}

// What a fault is told as, and its status, which is the same where nobody can be told.
fn tells(fault: ReplayFault, text: &str, status: u8) {
    let line = format!("delay-replay: {text}\n");
    let mut told = Vec::new();
    assert_eq!(report(&fault, &mut told), status);
    is_text(&told, &line);
    assert_eq!(report(&fault, &mut Full(&mut 0)), status);
}

// promise: replay.status-fault replay.faults-reader
#[test]
fn reports() {
    let kind = FaultKind::TooManyLines;
    let line = 1_000_001;
    for (fault, text, status) in [
        (
            ReplayFault::Script { line, kind },
            "line 1000001: too many lines",
            1,
        ),
        (ReplayFault::BadConfig, "bad capacity", 2),
        (ReplayFault::Read, "read fault", 3),
        (ReplayFault::Write, "write fault", 3),
        (ReplayFault::NoMemory, "out of memory", 4),
    ] {
        tells(fault, text, status);
    }
}

// promise: replay.status-fault
#[test]
fn reports_each_kind() {
    for (kind, text) in [
        (FaultKind::TooManyLines, "line 7: too many lines"),
        (FaultKind::LineTooLong, "line 7: line too long"),
        (FaultKind::UnfinishedLine, "line 7: unfinished line"),
        (FaultKind::BadHeader, "line 7: bad header"),
        (FaultKind::UnknownCommand, "line 7: unknown command"),
        (FaultKind::BadShape, "line 7: wrong number of words"),
        (FaultKind::BadName, "line 7: bad name"),
        (FaultKind::BadNumber, "line 7: bad number"),
    ] {
        tells(ReplayFault::Script { line: 7, kind }, text, 1);
    }
}
