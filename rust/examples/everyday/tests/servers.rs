//! The lease table and the cache, by clients over TCP. The clock is the test's, so that nothing hangs on how fast the
//! machine is.

#[path = "../src/bin/cache.rs"]
mod cache;
#[path = "../src/bin/lease_table.rs"]
mod lease_table;

use cache::Cache;
use hontkhale::{DelayQueue, ManualClock};
use lease_table::LeaseTable;
use std::io::{BufRead, BufReader, ErrorKind, Write};
use std::net::{SocketAddr, TcpListener, TcpStream};
use std::sync::atomic::{AtomicBool, Ordering::SeqCst};
use std::thread;
use std::time::{Duration, Instant};

/// More than any machine needs for what is waited for: only a hang meets it.
const LONG: Duration = Duration::from_secs(120);
const SECOND: Duration = Duration::from_secs(1);

struct Client(BufReader<TcpStream>);

impl Client {
    fn new(address: SocketAddr) -> Client {
        let stream = TcpStream::connect(address).unwrap();
        stream.set_read_timeout(Some(LONG)).unwrap();
        Client(BufReader::new(stream))
    }

    fn send(&mut self, line: &str) {
        self.0.get_mut().write_all(format!("{line}\n").as_bytes()).unwrap();
    }

    fn answer(&mut self) -> String {
        let mut line = String::new();
        self.0.read_line(&mut line).unwrap();
        line.trim_end().to_string()
    }

    fn ask(&mut self, line: &str) -> String {
        self.send(line);
        self.answer()
    }

    /// Each line is a request, and what it is answered.
    fn says(&mut self, lines: &str) {
        for line in lines.lines().map(str::trim).filter(|it| !it.is_empty()) {
            let (request, wanted) = line.split_once(" => ").unwrap();
            assert_eq!(self.ask(request), wanted, "{request}");
        }
    }

    fn hears_nothing(&self) -> bool {
        let stream = self.0.get_ref();
        stream.set_nonblocking(true).unwrap();
        let heard = stream.peek(&mut [0]);
        stream.set_nonblocking(false).unwrap();
        heard.is_err_and(|error| error.kind() == ErrorKind::WouldBlock)
    }
}

fn lease_table(deadlines: DelayQueue<String>) -> SocketAddr {
    let listener = TcpListener::bind("127.0.0.1:0").unwrap();
    let address = listener.local_addr().unwrap();
    thread::spawn(move || lease_table::serve(listener, &LeaseTable::new(deadlines, 0)));
    address
}

#[test]
fn a_lease_goes_on_by_heartbeats_and_then_passes_to_the_next_in_line() {
    let clock = ManualClock::new();
    let address = lease_table(DelayQueue::builder().clock(&clock).build());
    let (mut ann, mut bob, mut eve) = (Client::new(address), Client::new(address), Client::new(address));
    ann.says("take db 1000 => token 1");
    bob.says("take db 1000 => held\nbeat db 2 => lost\nfree db 0 => lost\ntake other 1000 => token 2");
    bob.send("wait db 1000");
    for _ in 0..5 {
        clock.advance(SECOND * 6 / 10);
        ann.says("beat db 1 => ok");
        assert!(bob.hears_nothing(), "two have the lease");
    }
    clock.advance(SECOND);
    assert_eq!(bob.answer(), "token 3");
    ann.says("beat db 1 => lost\nfree db 1 => lost\ntake db 1000 => held");
    // Eve is the next, and has it as soon as it is free.
    eve.send("wait db 1000");
    bob.says("free db 3 => ok\nfree db 3 => lost");
    assert_eq!(eve.answer(), "token 4");
    // Whoever goes keeps its lease until the deadline.
    drop(eve);
    ann.says("take db 1000 => held");
    ann.send("wait db 1000");
    clock.advance(SECOND);
    assert_eq!(ann.answer(), "token 5");
    ann.says("take db => three words are wanted\ntake db x => a number is wanted\nhave db 1 => have isn't known");
}

#[test]
fn one_client_at_a_time_has_a_lease() {
    let address = lease_table(DelayQueue::new());
    let is_had = AtomicBool::new(false);
    thread::scope(|scope| {
        for _ in 0..8 {
            scope.spawn(|| {
                let (mut client, mut last) = (Client::new(address), 0);
                for _ in 0..50 {
                    let told = client.ask("wait db 600000");
                    assert!(!is_had.swap(true, SeqCst), "two have the lease");
                    let token = told.strip_prefix("token ").unwrap().parse::<u64>().unwrap();
                    assert!(token > last, "{token} after {last}");
                    last = token;
                    is_had.store(false, SeqCst);
                    client.says(&format!("free db {token} => ok"));
                }
            });
        }
    });
    assert_eq!(Client::new(address).ask("take db 1000"), "token 401");
}

#[test]
fn no_entry_of_the_cache_is_shown_from_its_deadline_on() {
    let clock = ManualClock::new();
    let deadlines = DelayQueue::builder().clock(&clock).max_entries(2).build();
    let listener = TcpListener::bind("127.0.0.1:0").unwrap();
    let mut client = Client::new(listener.local_addr().unwrap());
    thread::spawn(move || cache::serve(listener, &Cache::new(deadlines)));
    client.says(
        "get page => none
        put page 1000 a page of text => ok
        get page => value a page of text
        put other 2000 text => ok
        put third 2000 text => full
        put page 500 another page => ok
        get page => value another page
        keep other 3000 => ok
        keep other 10 => ok
        keep third 10 => none
        count => 2",
    );
    clock.advance(SECOND / 2 - SECOND / 1_000);
    client.says("get page => value another page");
    clock.advance(SECOND / 1_000);
    client.says("get page => none\nkeep page 1000 => none\nget other => value text");
    clock.advance(SECOND * 5 / 2 - SECOND / 1_000);
    client.says("get other => value text\nput page 1000 a page => ok\ndrop page => ok\ndrop page => none");
    clock.advance(SECOND / 1_000);
    // Nobody asks for it: a thread frees it.
    let begun = Instant::now();
    while client.ask("count") != "0" {
        assert!(begun.elapsed() < LONG, "what has expired is never freed");
    }
    client.says("get => that isn't known\nput page x text => a number is wanted");
}

/// A name comes back while the thread that frees what has expired has its old entry in hand.
#[test]
fn a_name_that_comes_back_is_not_freed_with_its_old_entry() {
    let clock = ManualClock::new();
    let cache = Cache::new(DelayQueue::builder().clock(&clock).build());
    for round in 0..20_000 {
        assert!(cache.put("page", SECOND / 1_000, "old"));
        clock.advance(SECOND / 1_000);
        for _ in 0..round % 100 {
            std::hint::spin_loop();
        }
        assert!(cache.put("page", SECOND, "new"));
        assert_eq!(cache.get("page").as_deref(), Some("new"));
        assert!(cache.remove("page"));
    }
}
