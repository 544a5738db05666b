//! What safe Rust can't reach: no program calls a function whose proof asks something of its arguments, makes words
//! of its own, or sends what isn't to be sent.
//!
//! The crate is compiled once by itself, and each program against it, as far as the types go. A program is refused
//! for the reason that is told, and taken without its last line.

// The tests ask for a newer Rust than the crate, and an error is shown without the value that came back.
#![allow(clippy::incompatible_msrv, clippy::ok_expect)]

use std::collections::BTreeMap;
use std::ffi::OsString;
use std::path::{Path, PathBuf};
use std::process::{Command, Output};
use std::{env, fs};

// What stands before the last line, which is refused for a reason of the compiler.
struct Program {
    name: &'static str,
    front: &'static str,
    last: &'static str,
    reason: &'static str,
}

const NO_SUCH_ITEM: &str = "E0432";
const PRIVATE: &str = "E0603";
const PRIVATE_METHOD: &str = "E0624";
const NO_SUCH_METHOD: &str = "E0599";
const NO_SUCH_BOUND: &str = "E0277";

const CORE: &str =
    "use hontkhale::parts::owner::*; fn f(mut queue: DelayCore<char, VecWords>, mut words: VecWords, mut keeper: Keeper) {";
const ANY_WORDS: &str = "use hontkhale::parts::owner::*;
    fn f<T, W: Words>(queue: &mut DelayCore<T, W>, mut words: W) { queue.poll(5);";
const ANY_SHARDS: &str = "use hontkhale::parts::streams::*;
    fn f<Q: Shards>(queue: &Q, stream: &ShardStream<'_, Q, MillisecondTicks>) {";
const SHARED: &str =
    "use hontkhale::parts::shards::*; fn f(queue: &'static SharedDelayQueue<u64>) { let shard = queue.enter(0).unwrap();";

const PROGRAMS: &[Program] = &[
    // Two that once read memory of others: the value of a slot, and a word, far behind the last.
    Program {
        name: "slots",
        front: "",
        last: "use hontkhale::parts::owner::Slots;",
        reason: NO_SUCH_ITEM,
    },
    Program {
        name: "slots_of_core",
        front: "",
        last: "use hontkhale::core::slots::Slots;",
        reason: PRIVATE,
    },
    Program {
        name: "begin",
        front: CORE,
        last: "words.begin(1_000_000_000, 1, 5);",
        reason: NO_SUCH_METHOD,
    },
    Program {
        name: "keeper_begin",
        front: CORE,
        last: "keeper.begin(1_000_000_000, 1, 5);",
        reason: NO_SUCH_METHOD,
    },
    Program {
        name: "settle",
        front: CORE,
        last: "keeper.settle(0, 1, 5);",
        reason: NO_SUCH_METHOD,
    },
    Program {
        name: "renew_a_word",
        front: CORE,
        last: "keeper.renew(0, 1, 5);",
        reason: NO_SUCH_METHOD,
    },
    Program {
        name: "finish",
        front: CORE,
        last: "words.finish(0, 1);",
        reason: NO_SUCH_METHOD,
    },
    // A program names the bound of the words, and calls a queue over any words, but none of their steps.
    Program {
        name: "a_step_by_the_bound",
        front: ANY_WORDS,
        last: "words.begin(1_000_000_000, 1, 5);",
        reason: PRIVATE_METHOD,
    },
    // So does it name the bound of what a stream is of, and doesn't reach the row, whose calls require something.
    Program {
        name: "a_row_by_the_bound",
        front: ANY_SHARDS,
        last: "queue.row();",
        reason: PRIVATE_METHOD,
    },
    Program {
        name: "words_of_its_own",
        front: "mod own { pub struct Mine;",
        last: "impl hontkhale::parts::owner::Words for Mine {}",
        reason: NO_SUCH_BOUND,
    },
    Program {
        name: "steps",
        front: "",
        last: "use hontkhale::parts::owner::Steps;",
        reason: NO_SUCH_ITEM,
    },
    Program {
        name: "words_of_core",
        front: "",
        last: "use hontkhale::core::Words;",
        reason: PRIVATE,
    },
    Program {
        name: "words_of_words",
        front: "",
        last: "use hontkhale::words::Keeper;",
        reason: PRIVATE,
    },
    Program {
        name: "the_wheel_inside",
        front: "",
        last: "use hontkhale::wheels::Wheel;",
        reason: PRIVATE,
    },
    Program {
        name: "digits",
        front: "",
        last: "use hontkhale::ticks::digit;",
        reason: PRIVATE,
    },
    Program {
        name: "packed_words",
        front: "",
        last: "use hontkhale::ticks::pack;",
        reason: PRIVATE,
    },
    Program {
        name: "locked_shards",
        front: "",
        last: "use hontkhale::parts::owner::locked_shards;",
        reason: NO_SUCH_ITEM,
    },
    Program {
        name: "rows",
        front: "",
        last: "use hontkhale::index as rows;",
        reason: PRIVATE,
    },
    Program {
        name: "settle_due",
        front: CORE,
        last: "queue.settle_due();",
        reason: PRIVATE_METHOD,
    },
    Program {
        name: "note",
        front: CORE,
        last: "queue.note(u64::MAX);",
        reason: PRIVATE_METHOD,
    },
    Program {
        name: "find",
        front: CORE,
        last: "queue.find(&EntryId::new(0, 0, 1));",
        reason: PRIVATE_METHOD,
    },
    // A shard is unlocked by the thread that locked it.
    Program {
        name: "a_locked_shard",
        front: SHARED,
        last: "std::thread::spawn(move || shard.len());",
        reason: NO_SUCH_BOUND,
    },
    Program {
        name: "a_counted_value",
        front: "use hontkhale::parts::shards::*; fn f(queue: &'static SharedDelayQueue<std::rc::Rc<u64>>) {",
        last: "std::thread::spawn(move || queue.shards());",
        reason: NO_SUCH_BOUND,
    },
    Program {
        name: "a_source_that_stays",
        front: "use hontkhale::parts::streams::*; struct At(std::rc::Rc<u64>);
            impl TickSource for At { fn now(&mut self) -> u64 { *self.0 } }
            fn sent<T: Send>(_: T) {} fn f(stream: ExpiredStream<'static, u64, At>) {",
        last: "sent(stream);",
        reason: NO_SUCH_BOUND,
    },
];

// The folder of this run's files.
fn room() -> PathBuf {
    let room = Path::new(env!("CARGO_TARGET_TMPDIR")).join(format!("compile_fail.{}", std::process::id()));
    fs::create_dir_all(&room).expect("a folder");
    room
}

fn rustc(room: &Path, name: &str, source: &Path, arguments: &[OsString]) -> Output {
    Command::new(env::var_os("RUSTC").unwrap_or("rustc".into()))
        .args([
            "--edition",
            "2021",
            "--emit",
            "metadata",
            "--crate-type",
            "rlib",
            "--cap-lints",
            "allow",
        ])
        .args(["--crate-name", name])
        .args(arguments)
        .arg("--out-dir")
        .arg(room)
        .arg(source)
        .output()
        .expect("rustc")
}

fn told(output: &Output) -> String {
    String::from_utf8_lossy(&output.stderr).into_owned()
}

// Compiles a program against the crate.
fn compiles(room: &Path, name: &str, text: &str) -> Output {
    let source = room.join(format!("{name}.rs"));
    fs::write(&source, text).expect("a file");
    let mut library = OsString::from("hontkhale=");
    library.push(room.join("libhontkhale.rmeta"));
    rustc(room, name, &source, &["--extern".into(), library])
}

// The whole text of a program, with its last line or without it.
fn text_of(program: &Program, last: &str) -> String {
    let end = if program.front.ends_with(['{', ';']) && !program.front.is_empty() {
        "}"
    } else {
        ""
    };
    format!("{}\n{last}\n{end}\n", program.front)
}

fn is_refused(room: &Path, program: &Program) {
    let (name, reason) = (program.name, format!("error[{}]", program.reason));
    let refused = compiles(room, name, &text_of(program, program.last));
    assert!(!refused.status.success(), "{name} is taken");
    assert!(
        told(&refused).contains(&reason),
        "{name}, not by {reason}:\n{}",
        told(&refused)
    );
    assert_eq!(
        told(&refused).matches("error[").count(),
        1,
        "{name}, for more reasons:\n{}",
        told(&refused)
    );
}

// Whatever stands before a last line is taken without it.
fn is_taken(room: &Path, program: &Program) {
    let taken = compiles(room, program.name, &text_of(program, ""));
    assert!(
        taken.status.success(),
        "{} without its last line:\n{}",
        program.name,
        told(&taken)
    );
}

#[test]
#[cfg_attr(not(debug_assertions), ignore = "the types are those of the debug build")]
fn what_is_proved_of_its_arguments_is_out_of_reach() {
    let room = room();
    let library = Path::new(env!("CARGO_MANIFEST_DIR")).join("src/lib.rs");
    let features = ["std", "all-parts"].map(|it| ["--cfg".into(), format!("feature=\"{it}\"").into()]);
    let built = rustc(&room, "hontkhale", &library, &features.concat());
    assert!(built.status.success(), "{}", told(&built));
    let fronts: BTreeMap<&str, &Program> = PROGRAMS.iter().map(|program| (program.front, program)).collect();
    fronts.values().for_each(|program| is_taken(&room, program));
    PROGRAMS.iter().for_each(|program| is_refused(&room, program));
    fs::remove_dir_all(&room).expect("the folder");
}
