//! What can be seen from within alone: which locks a call takes, when a key is gone, and what the keepers do.

use crate::clock::{Clock, Tick};
use crate::command::{Client, Desk, Served, Session};
use crate::connection::{After, Connection, Shop};
use crate::keeper::keep;
use crate::keyspace::{Keyspace, Lifetime, Place, KEEPERS};
use crate::output::Output;
use crate::resp::Reply;
use crate::room::Room;
use crate::seats::{Guest, Seat, Seats};
use crate::settings::Settings;
use socket2::SockRef;
use std::io::Write;
use std::net::{TcpListener, TcpStream};
use std::sync::atomic::{AtomicBool, AtomicU64, Ordering::SeqCst};
use std::sync::{mpsc, Arc};
use std::thread;
use std::time::{Duration, Instant, SystemTime};

mod commands;

/// More than any machine needs for what is waited for: only a hang meets it. In milliseconds.
const LONG: u64 = 120_000;

/// Waits until something is so.
fn wait_until(what: &str, mut is_so: impl FnMut() -> bool) {
    let begun = Instant::now();
    while !is_so() {
        assert!(begun.elapsed() < Duration::from_millis(LONG), "{what}");
        thread::sleep(Duration::from_millis(1));
    }
}

fn keyspace() -> Arc<Keyspace> {
    Arc::new(Keyspace::new(10_000, Room::new(64 << 20)).unwrap())
}

/// A client with a desk of its own, as if it had a thread for itself.
struct Asker {
    desk: Desk,
    session: Session,
}

fn client(keyspace: &Arc<Keyspace>) -> Asker {
    client_by(keyspace, Settings::default())
}

fn client_by(keyspace: &Arc<Keyspace>, settings: Settings) -> Asker {
    let seats = Arc::new(Seats::new(10, 1 << 20));
    let desk = Desk::new(keyspace.clone(), seats, Arc::new(settings));
    Asker { session: desk.session(&Guest::new(7, ([127, 0, 0, 1], 7).into())), desk }
}

fn words(line: &str) -> Vec<&[u8]> {
    line.split(' ').map(str::as_bytes).collect()
}

fn ask(Asker { desk, session }: &mut Asker, line: &str) -> Reply {
    Client { desk, session }.answer(&words(line))
}

/// What becomes of a request in one turn.
fn served(Asker { desk, session }: &mut Asker, line: &str) -> Served {
    Client { desk, session }.serve(&words(line), &mut 0, &mut Output::default())
}

fn is_ok(client: &mut Asker, line: &str) {
    assert_eq!(ask(client, line), Reply::Status("OK"), "{line}");
}

/// Nor does the number of keys, where none is over: it doesn't wait for a shard that somebody changes.
#[test]
fn a_later_deadline_takes_no_lock() {
    let keyspace = keyspace();
    let mut client = client(&keyspace);
    is_ok(&mut client, "SET lease ann PX 6000000");
    is_ok(&mut client, "SET other 1");
    assert_eq!(ask(&mut client, "PEXPIRE lease 7000000 GT"), Reply::Integer(1));
    let (told, heard) = mpsc::channel();
    keyspace.while_held(b"lease", || {
        let requests = [("PEXPIRE lease 8000000 GT", 1), ("PEXPIRE lease 7500000 GT", 0), ("DBSIZE", 2)];
        thread::spawn(move || requests.map(|(request, _)| told.send(ask(&mut client, request))));
        for (request, wanted) in requests {
            let answer = heard.recv_timeout(Duration::from_millis(LONG));
            assert_eq!(answer, Ok(Reply::Integer(wanted)), "{request} waits for a lock");
        }
    });
}

/// A name in another shard than those of some others.
fn apart(keyspace: &Keyspace, others: &[&str]) -> String {
    let shard = |name: &str| keyspace.shard_of(name.as_bytes());
    let mut names = (0..).map(|at| format!("name:{at}"));
    names.find(|name| others.iter().all(|other| shard(other) != shard(name))).unwrap()
}

/// A transaction stands still, since somebody has the shard of its second name.
#[test]
fn others_are_served_amid_a_transaction() {
    let keyspace = keyspace();
    let second = apart(&keyspace, &["first"]);
    let other = apart(&keyspace, &["first", &second]);
    is_ok(&mut client(&keyspace), &format!("SET {other} 1"));
    let (mut asker, mut others, get) = (client(&keyspace), client(&keyspace), format!("GET {other}"));
    let (told, heard) = mpsc::channel();
    keyspace.while_held(second.as_bytes(), || {
        ["MULTI", "SET first 1", &format!("SET {second} 1")].iter().for_each(|it| drop(ask(&mut asker, it)));
        thread::spawn(move || while served(&mut asker, "EXEC") == Served::Later {});
        wait_until("the transaction doesn't begin", || keyspace.view(b"first", |_, _| ()).is_some());
        thread::spawn(move || {
            told.send(served(&mut others, &get)).unwrap();
            let claimed = ["GET first", "PEXPIRE first 9 GT", "DBSIZE", "FLUSHALL"];
            claimed.iter().for_each(|it| told.send(served(&mut others, it)).unwrap());
        });
        let next = || heard.recv_timeout(Duration::from_millis(LONG));
        assert_eq!(next(), Ok(Served::Done), "whoever asks for another name waits");
        (0..4).for_each(|at| assert_eq!(next(), Ok(Served::Later), "half of a transaction is seen by the {at}th"));
    });
    wait_until("its names stay claimed", || served(&mut client(&keyspace), "DBSIZE") == Served::Done);
    assert_eq!(ask(&mut client(&keyspace), "DBSIZE"), Reply::Integer(3));
}

/// A client leaves what it was told unread, so that nothing more can be sent: its transaction is done nevertheless. It has to
/// be amid one then, which hangs on how much its socket takes.
#[test]
fn a_transaction_of_a_client_that_reads_nothing_is_done() {
    let (keyspace, seats) = (keyspace(), Arc::new(Seats::new(200, 1 << 30)));
    let mut other = client(&keyspace);
    is_ok(&mut other, &format!("SET v {}", "v".repeat(15_000)));
    let mut shop = Shop::new(Desk::new(keyspace.clone(), seats.clone(), Arc::default()));
    let listener = TcpListener::bind("127.0.0.1:0").unwrap();
    let del = format!("DEL{}\r\n", " a".repeat(3_000));
    let mut met = 0;
    for round in 0..100 {
        let mut peer = TcpStream::connect(listener.local_addr().unwrap()).unwrap();
        // What it writes has come by the next turn.
        peer.set_nodelay(true).unwrap();
        let (socket, address) = listener.accept().unwrap();
        SockRef::from(&socket).set_send_buffer_size(16 << 10).unwrap();
        socket.set_nonblocking(true).unwrap();
        let seat = Seat::take(&seats, address).unwrap();
        let mut connection = Connection::new(mio::net::TcpStream::from_std(socket), seat, &shop.desk);
        let mut line = format!("ECHO {}\r\n", "x".repeat(150 * round));
        while !connection.is_stuck() {
            peer.write_all(line.as_bytes()).unwrap();
            connection.end();
            while connection.turn(&mut shop).unwrap() == After::Again && !connection.is_stuck() {}
            line = format!("GET v\r\nMULTI\r\n{del}{del}EXEC\r\n");
        }
        met += u32::from(served(&mut other, "GET a") == Served::Later);
        for turn in 0.. {
            if served(&mut other, "GET a") == Served::Done {
                break;
            }
            assert!(turn < 1_000, "its names stay claimed");
            connection.turn(&mut shop).unwrap();
        }
        if met == 3 {
            return;
        }
    }
    panic!("too few clients were amid a transaction");
}

/// A reader asks until the key is gone, while another thread extends it. How many extends were accepted.
fn extended_until_gone(keyspace: &Arc<Keyspace>, reader: &mut Asker, name: &str, life: u64) -> u32 {
    is_ok(reader, &format!("SET {name} value PX {life}"));
    let is_gone = AtomicBool::new(false);
    thread::scope(|scope| {
        let extender = scope.spawn(|| {
            let mut client = client(keyspace);
            let mut accepted = 0;
            for pause in 0..200 {
                let was_gone = is_gone.load(SeqCst);
                if ask(&mut client, &format!("PEXPIRE {name} {} GT", life + 1)) == Reply::Integer(1) {
                    assert!(!was_gone, "an extend brought back what a reader saw to be gone");
                    accepted += 1;
                }
                thread::sleep(Duration::from_micros(5 + pause));
            }
            accepted
        });
        while ask(reader, &format!("GET {name}")) != Reply::Nil {}
        is_gone.store(true, SeqCst);
        (0..20).for_each(|_| assert_eq!(ask(reader, &format!("GET {name}")), Reply::Nil));
        extender.join().unwrap()
    })
}

/// On a busy machine a key may be gone before the other thread runs at all: then the next lives longer, until some are
/// extended, so that what is seen hangs on no time.
#[test]
fn what_was_seen_to_be_gone_is_never_extended() {
    let keyspace = keyspace();
    let (mut reader, mut extended, mut rounds, mut life) = (client(&keyspace), 0, 0, 3);
    while rounds < 150 || extended <= 100 {
        let accepted = extended_until_gone(&keyspace, &mut reader, &format!("key:{rounds}"), life);
        life = if accepted == 0 { 2 * life } else { (life / 2).max(3) };
        extended += accepted;
        rounds += 1;
    }
}

/// A keyspace whose keepers never end.
fn kept() -> Arc<Keyspace> {
    let keyspace = keyspace();
    for keeper in 0..KEEPERS {
        let keyspace = keyspace.clone();
        thread::spawn(move || keep(&keyspace, keeper));
    }
    keyspace
}

#[test]
fn the_clock_is_the_machines() {
    let now = || SystemTime::now().duration_since(SystemTime::UNIX_EPOCH).unwrap();
    for pause in 0..500 {
        let begun = Instant::now();
        let clock = Clock::new();
        // It reads two clocks, one after the other, and is behind by what passes between.
        let behind = begun.elapsed();
        thread::sleep(Duration::from_micros(pause));
        let before = (now() - behind).as_millis() as Tick;
        let told = clock.now();
        assert!((before..=now().as_millis() as Tick).contains(&told), "{told} at {before}");
        assert_eq!(clock.tick(clock.moment(told + pause)), told + pause);
    }
}

/// A key is extended by a tick at a time, at its last moment: what is told to be done is kept.
#[test]
fn no_key_is_gone_before_the_deadline_that_was_accepted_last() {
    let keyspace = keyspace();
    for round in 0..300 {
        let name = format!("key:{round}");
        let mut deadline = keyspace.clock.now() + 3;
        is_ok(&mut client(&keyspace), &format!("SET {name} value PXAT {deadline}"));
        let (gone, accepted) = thread::scope(|scope| {
            let reader = scope.spawn(|| {
                let mut client = client(&keyspace);
                while ask(&mut client, &format!("GET {name}")) != Reply::Nil {}
                keyspace.clock.now()
            });
            let mut client = client(&keyspace);
            for _ in 0..20 {
                // The queue is asked, and not what stands in the table.
                while keyspace.clock.now() + 1 < deadline {}
                if ask(&mut client, &format!("PEXPIREAT {name} {} GT", deadline + 1)) == Reply::Integer(0) {
                    break;
                }
                deadline += 1;
            }
            (reader.join().unwrap(), deadline)
        });
        assert!(gone >= accepted, "gone at {gone}, its deadline is {accepted}");
    }
}

/// A key comes to its deadline, and a keeper has its entry in hand, while its shard is held by whoever found it live: it is
/// told to be gone then, or stays.
fn changed_at_the_end(request: &str, change: impl Fn(&mut Place<'_, '_>) -> bool, is_there: bool) {
    let keyspace = kept();
    let mut client = client(&keyspace);
    for round in 0..5 {
        is_ok(&mut client, "SET key value PX 6000000");
        let is_done = keyspace.change(b"key", |place| {
            assert_eq!(place.expire(place.now + 1), Ok(true), "{request}");
            wait_until("no keeper takes its entry out", || place.is_out());
            change(place)
        });
        assert_eq!(is_done, is_there, "{request}");
        // It waits for a keeper that has taken an entry out.
        let count = i64::from(is_there);
        assert_eq!(ask(&mut client, "DBSIZE"), Reply::Integer(count), "{request}");
        assert_eq!(ask(&mut client, "EXISTS key"), Reply::Integer(count), "{request}");
        let held = keyspace.held();
        assert_eq!((held.keys as i64, held.expired), (count, if is_there { 0 } else { round + 1 }), "{request}");
        assert_eq!(ask(&mut client, "DEL key"), Reply::Integer(count));
        assert_eq!((keyspace.held().keys, keyspace.held().expires, keyspace.held().bytes), (0, 0, 0));
    }
}

#[test]
fn a_key_that_ends_while_it_is_changed_is_gone_or_stays() {
    let later = |place: &Place<'_, '_>| Lifetime::Until(place.now + 6_000_000);
    changed_at_the_end("PERSIST", |place| place.persist(), false);
    changed_at_the_end("PEXPIRE", |place| place.expire(place.now + 6_000_000) == Ok(true), false);
    changed_at_the_end("SET KEEPTTL", |place| place.set(b"other", Lifetime::Kept).is_err(), false);
    changed_at_the_end("SET PX", |place| place.set(b"other", later(place)).is_ok(), true);
    changed_at_the_end("SET", |place| place.set(b"other", Lifetime::Endless).is_ok(), true);
}

/// Nor one whose entry is in a keeper's hands, or in those of a client who takes it off.
#[test]
fn no_key_is_counted_at_its_deadline() {
    let keyspace = kept();
    let deadline = AtomicU64::new(0);
    let is_over = AtomicBool::new(false);
    thread::scope(|scope| {
        for request in ["GET key", "DBSIZE", "DBSIZE"] {
            let (keyspace, deadline, is_over) = (&keyspace, &deadline, &is_over);
            scope.spawn(move || {
                let mut client = client(keyspace);
                while !is_over.load(SeqCst) {
                    let (until, before) = (deadline.load(SeqCst), keyspace.clock.now());
                    let told = ask(&mut client, request);
                    // The same key was there all the time.
                    if before >= until && deadline.load(SeqCst) == until {
                        let is_gone = matches!(told, Reply::Integer(0) | Reply::Nil);
                        assert!(is_gone, "{request} at {before}: {told:?}, until {until}");
                    }
                }
            });
        }
        let mut client = client(&keyspace);
        for round in 0..1_500 {
            let until = keyspace.clock.now() + 1 + round % 2;
            deadline.store(until, SeqCst);
            is_ok(&mut client, &format!("SET key value PXAT {until}"));
            while keyspace.clock.now() <= until {}
        }
        is_over.store(true, SeqCst);
    });
}

#[test]
fn keepers_give_back_what_nobody_asks_for() {
    let keyspace = kept();
    let mut client = client(&keyspace);
    (0..1_000).for_each(|at| is_ok(&mut client, &format!("SET far:{at} value PX 3600000")));
    // The keepers sleep until far ahead now.
    thread::sleep(Duration::from_millis(50));
    let mut last = 0;
    for at in 0..1_000 {
        last = keyspace.clock.now() + 100;
        is_ok(&mut client, &format!("SET near:{at} value PX 100"));
    }
    wait_until("keys are held whose deadlines are over", || keyspace.held().keys == 1_000);
    assert!(keyspace.clock.now() >= last, "a key is gone before its deadline");
    assert_eq!(ask(&mut client, "DBSIZE"), Reply::Integer(1_000));
}

#[test]
fn memory_is_counted_back_to_nothing() {
    let keyspace = keyspace();
    let mut client = client(&keyspace);
    for at in 0..500 {
        is_ok(&mut client, &format!("SET key:{} value-{at} PX {}", at % 50, 5 + at % 7));
        ask(&mut client, &format!("INCR count:{}", at % 20));
        ask(&mut client, &format!("PEXPIRE count:{} {}", at % 20, 3 + at % 5));
        ask(&mut client, &format!("DEL key:{}", at % 11));
        ask(&mut client, &format!("PERSIST key:{}", at % 13));
    }
    thread::sleep(Duration::from_millis(30));
    (0..50).for_each(|at| drop(ask(&mut client, &format!("DEL key:{at} count:{at}"))));
    let held = keyspace.held();
    assert_eq!((ask(&mut client, "DBSIZE"), held.bytes, held.expires), (Reply::Integer(0), 0, 0));
    assert!(keyspace.room.take(0, 64 << 20).is_ok(), "all of the room is free");
}

/// Takes so many bytes at a time, and nothing every other time.
struct Slow(Vec<u8>, usize, bool);

impl std::io::Write for Slow {
    fn write(&mut self, bytes: &[u8]) -> std::io::Result<usize> {
        self.2 = !self.2;
        if self.2 {
            return Err(std::io::ErrorKind::WouldBlock.into());
        }
        let count = bytes.len().min(self.1);
        self.0.extend_from_slice(&bytes[..count]);
        Ok(count)
    }

    fn flush(&mut self) -> std::io::Result<()> {
        Ok(())
    }
}

#[test]
fn replies_are_sent_in_pieces_of_any_size() {
    let keyspace = keyspace();
    let mut client = client(&keyspace);
    let long = "v".repeat(20_000);
    is_ok(&mut client, &format!("SET long {long}"));
    is_ok(&mut client, "SET short value");
    let words = words("MGET short long none long short");
    let wanted = format!("*5\r\n$5\r\nvalue\r\n{0}$-1\r\n{0}$5\r\nvalue\r\n", format_args!("$20000\r\n{long}\r\n"));
    for size in [1, 2, 3, 1_000, 16_384, 20_000, 100_000] {
        let (mut slow, mut output, mut told) = (Slow(Vec::new(), size, false), Output::default(), 0);
        let Asker { desk, session } = &mut client;
        while (Client { desk, session }).serve(&words, &mut told, &mut output) == Served::Begun {
            while output.is_full() {
                output.send(&mut slow).unwrap();
            }
        }
        while !output.is_empty() {
            output.send(&mut slow).unwrap();
        }
        assert!(slow.0 == wanted.as_bytes(), "in pieces of {size}");
    }
}
