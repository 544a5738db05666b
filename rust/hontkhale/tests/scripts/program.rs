//! The program `delay-replay`: what it reads, what it tells, and the status that it ends with.

use super::random::script;
use std::io::Write;
use std::path::PathBuf;
use std::process::{Command, Output, Stdio};
use std::{env, thread};

// The example beside this test's own program, where cargo built it.
fn program() -> PathBuf {
    let own = env::current_exe().expect("a program");
    let folder = own.parent().and_then(|deps| deps.parent()).expect("a folder");
    let program = folder
        .join("examples")
        .join(format!("delay-replay{}", env::consts::EXE_SUFFIX));
    assert!(
        program.is_file(),
        "cargo build --example delay-replay makes {}",
        program.display()
    );
    program
}

// What becomes of a script on standard input.
fn replays(arguments: &[&str], input: &str) -> Output {
    let mut running = Command::new(program())
        .args(arguments)
        .stdin(Stdio::piped())
        .stdout(Stdio::piped())
        .stderr(Stdio::piped())
        .spawn()
        .expect("the program runs");
    let mut writes_to = running.stdin.take().expect("standard input");
    let input = input.to_owned();
    // A program that ends early doesn't read all of it.
    let writes = thread::spawn(move || drop(writes_to.write_all(input.as_bytes())));
    let output = running.wait_with_output().expect("the program ends");
    writes.join().expect("a thread");
    output
}

fn is_told(arguments: &[&str], input: &str, output: &str, errors: &str, status: i32) {
    let told = replays(arguments, input);
    assert_eq!(String::from_utf8_lossy(&told.stdout), output, "{arguments:?}");
    assert_eq!(String::from_utf8_lossy(&told.stderr), errors, "{arguments:?}");
    assert_eq!(told.status.code(), Some(status), "{arguments:?}");
}

const FIVE_LINES: &str = "delay 1\ninsert a 5\ninsert b 3\ntick 4\ntick 9\n";

#[test]
fn the_five_lines_are_answered() {
    let answers = "a at 5\nb at 3\nb expired 3\ntick 4\na expired 5\ntick 9\n";
    is_told(&[], FIVE_LINES, answers, "", 0);
    is_told(&["--capacity", "2"], FIVE_LINES, answers, "", 0);
    let full = "a at 5\nrefused full\ntick 4\na expired 5\ntick 9\n";
    is_told(&["--capacity=1"], FIVE_LINES, full, "", 0);
}

#[test]
fn random_scripts_are_answered_by_the_program() {
    for seed in 0..10 {
        let script = script(seed, 2_000);
        let capacity = format!("--capacity={}", script.capacity);
        is_told(&[&capacity], &script.text, &script.answers, "", 0);
    }
}

#[test]
fn a_fault_is_told_behind_the_answers() {
    let script = "delay 1\ninsert a 5\ninsert b\ntick 9\n";
    is_told(
        &[],
        script,
        "a at 5\n",
        "delay-replay: line 3: wrong number of words\n",
        1,
    );
    is_told(&[], "", "", "delay-replay: line 1: bad header\n", 1);
}

const HELP: &str = "\
Replays a script of delays from standard input and writes its answers to standard output

Usage: delay-replay [OPTIONS]

Options:
      --capacity <N>  The most names that may be live, 1 to 65536 [default: 1024]
  -h, --help          Print help

A script begins with the line `delay 1`. Each later line is a command. Here each has its answers beside it:

  delay 1
  insert a 5          a at 5
  insert b 3          b at 3
  extend a 7          a at 7
  tick 4              b expired 3
                      tick 4

Without that first line the script ends with `line 1: bad header`. A line ends with a line feed alone:
a carriage return before it counts as part of the last word, so `delay 1` is then a bad header too.
docs/SCRIPT.md has every command. Ctrl-D ends a script that is typed in a terminal.
";

// promise: replay.program-main
#[test]
fn help_goes_to_standard_output() {
    is_told(&["--help"], "", HELP, "", 0);
    is_told(&["-h"], FIVE_LINES, HELP, "", 0);
}

// promise: replay.capacity-refused
#[test]
fn capacities() {
    for capacity in ["1", "65536"] {
        is_told(&["--capacity", capacity], "delay 2\nlive\n", "live 0\n", "", 0);
    }
}

// promise: replay.program-main
#[test]
fn refused_words_are_told_on_standard_error() {
    let refused = [
        &["--capacity=0"][..],
        &["--capacity=65537"],
        &["--capacity=-1"],
        &["--capacity=ten"],
        &["--capacity"],
        &["script"],
    ];
    for words in refused {
        let told = replays(words, FIVE_LINES);
        assert_eq!((told.status.code(), told.stdout.len()), (Some(2), 0), "{words:?}");
        let errors = String::from_utf8_lossy(&told.stderr).into_owned();
        assert!(
            errors.starts_with("error: ") && errors.ends_with("try '--help'.\n"),
            "{words:?}: {errors}"
        );
    }
}
