//! `delay-replay`: reads a script of delays from standard input and writes its answers to standard output.
//!
//! The replay is the proved one. What is read of the command line is this file's.

use std::env;
use std::io::{self, BufReader, BufWriter, IsTerminal, Write};
use std::process::ExitCode;

use hontkhale::parts::replay::{report, run, ReplayFault};

/// The capacity where none is given.
const DEFAULT_CAPACITY: usize = 1024;

const HELP: &str = "\
Replays a script of delays from standard input and writes its answers to standard output

Usage: delay-replay [OPTIONS]

Options:
      --capacity <N>  The most names that may be live, 1 to 65536 [default: 1024]
  -h, --help          Print help

A script begins with the line `delay 1`. Each later line is a command. Here each has its answers beside it:

  delay 1
  insert a 5          a at 5
  insert b 3          b at 3
  extend a 7          a at 7
  tick 4              b expired 3
                      tick 4

Without that first line the script ends with `line 1: bad header`. A line ends with a line feed alone:
a carriage return before it counts as part of the last word, so `delay 1` is then a bad header too.
docs/SCRIPT.md has every command. Ctrl-D ends a script that is typed in a terminal.
";

/// What a command line asks for.
enum Asked {
    Replay(usize),
    Help,
}

/// What the words of a command line ask for, or what is wrong with them.
fn asked(words: impl Iterator<Item = String>) -> Result<Asked, String> {
    let mut words = words;
    let mut capacity = DEFAULT_CAPACITY;
    while let Some(word) = words.next() {
        if word == "--help" || word == "-h" {
            return Ok(Asked::Help);
        }
        let number = match word.strip_prefix("--capacity") {
            Some("") => words.next().ok_or("a value is required for '--capacity <N>'")?,
            Some(rest) if rest.starts_with('=') => rest[1..].to_owned(),
            _ => return Err(format!("unexpected argument '{word}' found")),
        };
        capacity = match number.parse() {
            Ok(capacity @ 1..=65536) => capacity,
            _ => {
                return Err(format!(
                    "invalid value '{number}' for '--capacity <N>': it is not 1 to 65536"
                ))
            }
        };
    }
    Ok(Asked::Replay(capacity))
}

/// Replays standard input. What was answered is handed on before this returns, and line by line if it is typed.
fn replay(capacity: usize) -> Result<(), ReplayFault> {
    let is_typed = io::stdin().is_terminal();
    let mut reader = BufReader::new(io::stdin().lock());
    let mut output = io::stdout().lock();
    if is_typed {
        run(&mut reader, &mut output, capacity)
    } else {
        run(&mut reader, &mut BufWriter::new(output), capacity)
    }
}

fn main() -> ExitCode {
    let mut errors = io::stderr();
    let status = match asked(env::args().skip(1)) {
        Ok(Asked::Replay(capacity)) => match replay(capacity) {
            Ok(()) => 0,
            Err(fault) => report(&fault, &mut errors),
        },
        Ok(Asked::Help) => match io::stdout().write_all(HELP.as_bytes()) {
            Ok(()) => 0,
            Err(_) => report(&ReplayFault::Write, &mut errors),
        },
        Err(wrong) => {
            eprintln!("error: {wrong}\n\nFor more information, try '--help'.");
            2
        }
    };
    ExitCode::from(status)
}
