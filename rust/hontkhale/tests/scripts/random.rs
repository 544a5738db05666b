//! Random scripts, which the library answers as the model does.

use super::draw::{calls, Draw};
use super::model::Model;
use hontkhale::parts::replay::run;

/// A script and its answers, byte for byte.
pub struct Script {
    pub capacity: usize,
    pub text: String,
    pub answers: String,
}

const NAMES: &[&str] = &[
    "a",
    "b",
    "c",
    "d",
    "e",
    "f",
    "lease-1",
    "lease-2",
    "0",
    "_",
    "-",
    "the_longest_name_has_32_bytes_-0",
    "z9",
];

// A number, mostly near the noted tick, at times behind it, a lap ahead or beyond the last tick.
fn number(draw: &mut Draw, noted: u64, last_tick: u64) -> u64 {
    match draw.below(30) {
        0 => last_tick + draw.below(3),
        1 => u64::MAX - draw.below(2),
        2..=4 => draw.below(noted + 1),
        5 => (noted + draw.of_bits(37)).min(last_tick),
        _ => (noted + draw.of_bits(10)).min(last_tick),
    }
}

// A tick, so that the ticks of a script don't come to the last one.
fn tick(draw: &mut Draw, noted: u64, last_tick: u64) -> u64 {
    match draw.below(60) {
        0 => last_tick + 1 + draw.below(3),
        1..=5 => draw.below(noted + 1),
        6 => (noted + draw.of_bits(24)).min(last_tick),
        _ => (noted + draw.of_bits(8)).min(last_tick),
    }
}

/// A script of so many lines behind the first.
pub fn script(seed: u64, lines: u64) -> Script {
    let mut draw = Draw::new(seed);
    let (first, last_tick) = draw.one_of(&[("delay 1\n", (1 << 36) - 1), ("delay 2\n", (1 << 42) - 1)]);
    let capacity = draw.one_of(&[1, 2, 5, 8, 1_024]);
    let mut model = Model::new(capacity, last_tick);
    let (mut text, mut answers) = (String::from(first), String::new());
    for _ in 0..lines {
        let (line, answer) = command(&mut draw, &mut model, last_tick);
        text.push_str(&line);
        text.push('\n');
        answers.push_str(&answer);
    }
    Script {
        capacity,
        text,
        answers,
    }
}

fn command(draw: &mut Draw, model: &mut Model, last_tick: u64) -> (String, String) {
    let (name, noted) = (draw.one_of(NAMES), model.noted());
    let when = number(draw, noted, last_tick);
    match draw.below(32) {
        0..=10 => (format!("insert {name} {when}"), model.insert(name, when)),
        11..=13 => (format!("reset {name} {when}"), model.reset(name, when)),
        14..=17 => (format!("extend {name} {when}"), model.extend(name, when)),
        18..=20 => (format!("cancel {name}"), model.ends(name, "cancelled")),
        21..=22 => (format!("remove {name}"), model.ends(name, "removed")),
        23..=24 => (format!("deadline {name}"), model.deadline(name)),
        25 => ("live".to_owned(), format!("live {}\n", model.live())),
        26 if draw.one_in(4) => ("clear".to_owned(), model.clear()),
        _ => {
            let tick = tick(draw, noted, last_tick);
            (format!("tick {tick}"), model.tick(tick))
        }
    }
}

#[test]
fn random_scripts_are_answered_as_their_model_does() {
    for seed in 0..calls().div_ceil(2_000) {
        let script = script(seed, 2_000);
        let mut written = Vec::new();
        assert_eq!(run(&mut script.text.as_bytes(), &mut written, script.capacity), Ok(()));
        assert_eq!(
            String::from_utf8(written).expect("a text"),
            script.answers,
            "seed {seed}"
        );
    }
}
