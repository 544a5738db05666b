//! Scripts as tables: behind a first line, each line beside its answer.

use crate::tests::kit::AllocError;
use crate::replay::{FaultKind, ReplayFault, run};
use std::str;

/// A line and its answer, which has several lines where names expire.
pub type Row<'t> = (&'t str, &'t str);

/// How a script ends that has a fault at a line.
pub fn fault_at(line: u32, kind: FaultKind) -> Result<(), ReplayFault> {
    Err(ReplayFault::Script { line, kind })
}

fn push_line(text: &mut String, line: &str) -> Result<(), AllocError> {
    text.push_str(line);
    text.push('\n');
    Ok(())
}

/// The script that a first line and a table's lines make, and its answers.
pub fn joined(first: &str, rows: &[Row]) -> Result<(String, String), AllocError> {
    let mut script = String::new();
    let mut answers = String::new();
    push_line(&mut script, first)?;
    for (line, answer) in rows {
        push_line(&mut script, line)?;
        push_line(&mut answers, answer)?;
    }
    Ok((script, answers))
}

/// A script gets those answers, and ends so.
pub fn runs(
    capacity: usize,
    script: &[u8],
    answers: &str,
    end: Result<(), ReplayFault>,
) {
    let mut reader = script;
    let mut written = Vec::new();
    assert_eq!(run(&mut reader, &mut written, capacity), end);
    is_text(&written, answers);
}

/// What was written is that text.
pub fn is_text(written: &[u8], text: &str) {
    match str::from_utf8(written) {
        Ok(written) => assert_eq!(written, text),
        Err(_) => assert!(false, "what was written isn't text"),
    }
}

/// Each line of a table gets its answer, and none has a fault.
pub fn answers(capacity: usize, first: &str, rows: &[Row]) {
    let Ok((script, answers)) = joined(first, rows) else {
        panic!("no memory is left")
    };
    runs(capacity, script.as_bytes(), &answers, Ok(()));
}
