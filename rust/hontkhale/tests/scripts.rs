//! Scripts of delays: random ones beside a model of the page that tells what a script means, and the program that
//! replays one.

// The tests ask for a newer Rust than the crate, and an error is shown without the value that came back.
#![allow(clippy::incompatible_msrv, clippy::ok_expect)]

#[path = "models/draw.rs"]
#[allow(dead_code)]
mod draw;
#[path = "scripts/model.rs"]
mod model;
#[path = "scripts/program.rs"]
mod program;
#[path = "scripts/random.rs"]
mod random;
