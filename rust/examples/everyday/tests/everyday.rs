//! Each of the four programs does what it says.

#[path = "../src/bin/idle_timeouts.rs"]
mod idle_timeouts;
#[path = "../src/bin/rate_limit.rs"]
mod rate_limit;
#[path = "../src/bin/request_deadlines.rs"]
mod request_deadlines;
#[path = "../src/bin/retries.rs"]
mod retries;

use hontkhale::{DelayQueue, ManualClock};
use request_deadlines::Reply;
#[cfg(target_os = "linux")]
use std::fs;
use std::io::{Read, Write};
use std::net::{TcpListener, TcpStream};
use std::thread;
use std::time::{Duration, Instant};

#[test]
fn a_connection_that_is_idle_is_closed_and_one_that_talks_is_not() {
    let listener = TcpListener::bind("127.0.0.1:0").unwrap();
    let address = listener.local_addr().unwrap();
    thread::spawn(move || idle_timeouts::serve(listener, DelayQueue::new(), Duration::from_millis(400)));
    let (mut talks, mut idles) = (TcpStream::connect(address).unwrap(), TcpStream::connect(address).unwrap());
    let ended = thread::spawn(move || idles.read(&mut [0]).unwrap());
    let start = Instant::now();
    while start.elapsed() < Duration::from_secs(1) {
        let mut back = [0; 4];
        talks.write_all(b"ping").unwrap();
        talks.read_exact(&mut back).unwrap();
        assert_eq!(&back, b"ping");
        thread::sleep(Duration::from_millis(50));
    }
    assert_eq!(ended.join().unwrap(), 0);
    assert_eq!(talks.read(&mut [0]).unwrap(), 0, "it idles now");
}

/// What was answered has extended the deadline, so the test's clock may go on.
#[test]
fn a_connection_is_closed_once_the_clock_was_advanced_by_the_idle_time() {
    const IDLE: Duration = Duration::from_secs(30);
    let listener = TcpListener::bind("127.0.0.1:0").unwrap();
    let mut client = TcpStream::connect(listener.local_addr().unwrap()).unwrap();
    let clock = ManualClock::new();
    let queue = DelayQueue::builder().clock(&clock).build();
    let connections = queue.clone();
    thread::spawn(move || idle_timeouts::serve(listener, connections, IDLE));
    for _ in 0..9 {
        client.write_all(b"ping").unwrap();
        client.read_exact(&mut [0; 4]).unwrap();
        clock.advance(IDLE * 2 / 3);
    }
    clock.advance(IDLE / 3);
    assert!(queue.wait_empty(Duration::MAX));
    assert_eq!(client.read(&mut [0]).unwrap(), 0);
}

/// A server may open so many descriptors at most.
#[cfg(target_os = "linux")]
#[test]
fn a_connection_takes_one_descriptor() {
    let listener = TcpListener::bind("127.0.0.1:0").unwrap();
    let address = listener.local_addr().unwrap();
    thread::spawn(move || idle_timeouts::serve(listener, DelayQueue::new(), Duration::from_secs(600)));
    let mut client = TcpStream::connect(address).unwrap();
    client.write_all(b"ping").unwrap();
    client.read_exact(&mut [0; 4]).unwrap();
    let links = fs::read_dir("/proc/self/fd").unwrap().flatten();
    let mut sockets: Vec<_> = links.filter_map(|link| fs::read_link(link.path()).ok()).collect();
    sockets.retain(|to| to.to_string_lossy().starts_with("socket:"));
    let count = sockets.len();
    sockets.sort();
    sockets.dedup();
    assert!(sockets.len() >= 3, "a listener and a connection's two ends");
    assert_eq!(count, sockets.len(), "descriptors, and sockets that they lead to");
}

#[test]
fn a_request_is_answered_or_too_late_and_never_both() {
    let deadlines = DelayQueue::new();
    let late = deadlines.clone();
    let tells = thread::spawn(move || request_deadlines::tell_late_ones(&late));
    let quick = request_deadlines::ask(&deadlines, Duration::from_secs(60), || 42);
    let slow = request_deadlines::ask(&deadlines, Duration::from_millis(20), || {
        thread::sleep(Duration::from_millis(200));
        43
    });
    assert_eq!(quick.iter().collect::<Vec<_>>(), [Reply::Answer(42)]);
    assert_eq!(slow.iter().collect::<Vec<_>>(), [Reply::TooLate]);
    deadlines.close();
    tells.join().unwrap();
}

#[test]
fn a_call_is_tried_until_it_succeeds_or_has_failed_too_often() {
    let clock = ManualClock::new();
    let calls = DelayQueue::builder().clock(&clock).build();
    for to in ["up", "flaky", "down"] {
        calls.insert(retries::Call { to: to.to_string(), tries: 0 }, Duration::ZERO).unwrap();
    }
    let succeeds = |call: &retries::Call| call.to == "up" || (call.to == "flaky" && call.tries == 3);
    let mut failed = Vec::new();
    while !calls.is_empty() {
        for due in calls.try_iter() {
            failed.extend(retries::attempt(&calls, due.value, 4, succeeds));
        }
        clock.advance(Duration::from_millis(1));
    }
    let failed: Vec<_> = failed.iter().map(|call| (&*call.to, call.tries)).collect();
    assert_eq!(failed, [("down", 4)]);
    let wait = retries::backoff(Duration::from_secs(1), 3);
    assert!(wait >= Duration::from_secs(4) && wait < Duration::from_secs(8));
}

#[test]
fn so_many_requests_of_each_client_are_admitted_within_a_window() {
    let clock = ManualClock::new();
    let queue = DelayQueue::builder().clock(&clock).build();
    let (window, counts) = (Duration::from_secs(10), Default::default());
    let limit = rate_limit::RateLimit { most: 2, window, admitted: queue, counts };
    assert_eq!(["ann", "ann", "ann", "bob"].map(|client| limit.admits(client)), [true, true, false, true]);
    clock.advance(Duration::from_secs(9));
    assert!(!limit.admits("ann") && limit.admits("bob"));
    clock.advance(Duration::from_secs(1));
    assert_eq!(
        ["ann", "ann", "ann", "bob", "bob"].map(|client| limit.admits(client)),
        [true, true, false, true, false]
    );
}
