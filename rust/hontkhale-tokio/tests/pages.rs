//! The programs of the page run. One of them stands in it, the others are linked.

mod common;
#[path = "../examples/connections.rs"]
mod connections;
#[path = "../examples/idle_timeouts.rs"]
mod idle_timeouts;
#[path = "../examples/leases.rs"]
mod leases;
#[path = "../examples/request_limits.rs"]
mod request_limits;
#[path = "../examples/shared_sessions.rs"]
mod shared_sessions;

use common::ends;

const README: &str = include_str!("../README.md");

/// Whether the page has the program, but for the line that says what it is.
fn is_in_page(program: &str) -> bool {
    let body = program.split_once("\n\n").expect("a program begins with what it is").1;
    README.contains(body)
}

#[test]
fn connections() {
    ends(connections::main);
}

#[test]
fn idle_timeouts() {
    ends(idle_timeouts::main);
}

#[test]
fn leases() {
    ends(leases::main);
}

#[test]
fn request_limits() {
    ends(request_limits::main);
}

#[test]
fn shared_sessions() {
    ends(shared_sessions::main);
    assert!(is_in_page(include_str!("../examples/shared_sessions.rs")));
}
