//! What each command says and does, where a slip would pass by unseen: no keeper runs here, so that what is over stays
//! until somebody asks.

use super::{ask, client, client_by, is_ok, keyspace, words, Asker, LONG};
use crate::command::{Client, Served};
use crate::keyspace::{Keyspace, SHARDS, SMALL_TABLE};
use crate::output::Output;
use crate::resp::Reply;
use crate::room::{Resident, Room};
use crate::seats::Seats;
use crate::settings::Settings;
use servers::password::Password;
use std::collections::HashSet;
use std::sync::atomic::{AtomicBool, Ordering::SeqCst};
use std::sync::Arc;
use std::thread;
use std::time::Duration;

/// What a reply is written as.
fn said(Asker { desk, session }: &mut Asker, line: &str) -> String {
    let (mut output, mut written) = (Output::default(), Vec::new());
    while (Client { desk, session }).serve(&words(line), &mut 0, &mut output) == Served::Later {}
    output.send(&mut written).unwrap();
    String::from_utf8(written).unwrap().replace("\r\n", " ")
}

/// Each line is a request, and what it is answered.
fn says(client: &mut Asker, lines: &str) {
    for line in lines.lines().map(str::trim).filter(|it| !it.is_empty()) {
        let (request, wanted) = line.split_once(" => ").unwrap();
        assert_eq!(said(client, request).trim_end(), wanted, "{request}");
    }
}

/// Each command by itself meets a key that is over and that nobody took out yet.
#[test]
fn no_command_sees_a_key_that_is_over() {
    let cases = [
        ("GET a", "$-1"),
        ("MGET a b", "*2 $-1 $1 1"),
        ("EXISTS a a b", ":1"),
        ("DEL a", ":0"),
        ("TTL a", ":-2"),
        ("PTTL a", ":-2"),
        ("PEXPIRETIME a", ":-2"),
        ("PERSIST a", ":0"),
        ("PEXPIRE a 6000000", ":0"),
        ("PEXPIRE a 6000000 GT", ":0"),
        ("PEXPIRE a 6000000 LT", ":0"),
        ("INCR a", ":1"),
        ("SET a 2 XX", "$-1"),
        ("SET a 2 NX", "+OK"),
        ("SET a 2 GET", "$-1"),
        ("SET a 2 KEEPTTL", "+OK"),
        ("DBSIZE", ":1"),
        ("KEYS *", "*1 $1 b"),
        ("SCAN 0", "*2 $1 0 *1 $1 b"),
    ];
    for (request, wanted) in cases {
        let keyspace = keyspace();
        let mut client = client(&keyspace);
        is_ok(&mut client, "SET b 1");
        is_ok(&mut client, "SET a 41 PX 2");
        thread::sleep(Duration::from_millis(4));
        assert_eq!((keyspace.held().keys, keyspace.held().expired), (2, 0), "nothing is taken out by INFO");
        assert_eq!(said(&mut client, request).trim_end(), wanted, "{request}");
        // Its entry came out before it was told to be gone: no extend brings it back.
        assert_eq!(keyspace.held().expired, 1, "{request}");
        // A key that it made has no deadline of the old one.
        if said(&mut client, "EXISTS a") == ":1 " {
            says(&mut client, "PTTL a => :-1");
        }
    }
}

#[test]
fn a_remembered_extend_reaches_no_other_key() {
    says(
        &mut client(&keyspace()),
        "SET a 1 PXAT 4000000000000 => +OK
        PEXPIREAT a 4000000000001 GT => :1
        DEL a => :1
        PEXPIREAT a 4000000000002 GT => :0
        SET b 1 PXAT 4000000000000 => +OK
        PEXPIREAT a 4000000000002 GT => :0
        PEXPIRETIME b => :4000000000000
        SET a 1 PXAT 3900000000000 => +OK
        PEXPIREAT a 3800000000000 GT => :0
        PEXPIREAT a 3950000000000 GT => :1
        PEXPIRETIME a => :3950000000000
        PERSIST a => :1
        PEXPIREAT a 4000000000000 GT => :0",
    );
}

#[test]
fn the_room_of_what_is_gone_is_given_back() {
    let keyspace = keyspace();
    let mut client = client(&keyspace);
    for at in 0..9_000 {
        is_ok(&mut client, &format!("SET key:{at} value PX 1000"));
        is_ok(&mut client, &format!("SET other:{at} value"));
    }
    assert!(keyspace.table_room() >= 18_000);
    (0..9_000).for_each(|at| assert_eq!(ask(&mut client, &format!("DEL other:{at}")), Reply::Integer(1)));
    thread::sleep(Duration::from_millis(1_010));
    says(&mut client, "DBSIZE => :0");
    // A small table keeps its room, so that a few keys that come and go move nothing.
    assert!(keyspace.table_room() <= SHARDS * SMALL_TABLE, "room for {} keys", keyspace.table_room());
    is_ok(&mut client, "SET key value PX 6000000");
    says(&mut client, "GET key => $5 value\nFLUSHALL => +OK\nGET key => $-1");
    let held = keyspace.held();
    assert_eq!((held.keys, held.expires, held.bytes, keyspace.table_room()), (0, 0, 0, 0));
}

/// A process that is larger than it may be from the first on.
#[test]
fn a_process_that_is_too_large_takes_little_and_never_nothing() {
    let resident = Resident::new(0, Arc::new(Seats::new(10, 1 << 20))).unwrap();
    let keyspace = Arc::new(Keyspace::new(100, Room::new(1 << 20).within(resident)).unwrap());
    let (mut client, value) = (client(&keyspace), "v".repeat(10_000));
    let refused = Reply::Error("OOM the process holds as much memory as it may".into());
    for _ in 0..2 {
        (0..6).for_each(|at| is_ok(&mut client, &format!("SET key:{at} {value} PXAT 4000000000000")));
        assert_eq!(ask(&mut client, &format!("SET key:6 {value}")), refused);
        assert_eq!(ask(&mut client, &format!("SET key:0 {value}")), refused);
        says(&mut client, "GET key:6 => $-1\nPEXPIRETIME key:0 => :4000000000000");
        says(&mut client, "DEL key:0 key:1 key:2 key:3 key:4 key:5 => :6");
    }
}

#[test]
fn keys_are_told_once_each_and_none_that_is_over() {
    let mut client = client(&keyspace());
    (0..1_000).for_each(|at| is_ok(&mut client, &format!("SET name:{at} 1")));
    is_ok(&mut client, "SET name:over 1 PX 2");
    thread::sleep(Duration::from_millis(4));
    let told = said(&mut client, "KEYS name:*");
    let names: HashSet<_> = told.split(' ').filter(|it| it.starts_with("name:")).collect();
    assert!(told.starts_with("*1000 ") && names.len() == 1_000 && !names.contains("name:over"));
    // They are held all at once: never more than a few, nor those of many requests.
    says(&mut client, "MULTI => +OK\nKEYS name:5 => -ERR KEYS inside MULTI is not allowed\nDISCARD => +OK");
    (0..66_000).for_each(|at| is_ok(&mut client, &format!("SET {at} 1")));
    says(&mut client, "KEYS * => -ERR more than 65536 names fit: SCAN tells them\nKEYS name:5 => *1 $6 name:5");
}

#[test]
fn a_lease_is_ended_and_prolonged_by_its_holder() {
    let mut client = client(&keyspace());
    is_ok(&mut client, "SET lease ann PXAT 4000000000003");
    says(
        &mut client,
        "SET lease ann IFEQ bob PXAT 4000000000006 => $-1
        SET lease bob IFEQ bob PXAT 4000000000006 GET => $3 ann
        PEXPIRETIME lease => :4000000000003
        SET lease ann IFEQ ann PXAT 4000000000006 => +OK
        PEXPIRETIME lease => :4000000000006
        SET lease ann IFEQ ann KEEPTTL GET => $3 ann
        PEXPIRETIME lease => :4000000000006
        SET lease ann IFEQ => -ERR syntax error
        SET lease ann IFEQ ann NX => -ERR syntax error
        SET lease ann XX IFEQ ann => -ERR syntax error
        DELIFEQ lease bob => :0
        GET lease => $3 ann
        DELIFEQ lease ann => :1
        DELIFEQ lease ann => :0
        SET lease ann IFEQ ann => $-1",
    );
}

#[test]
fn a_transaction_is_as_long_as_a_request_at_most() {
    let (mut client, value) = (client(&keyspace()), "v".repeat(600_000));
    let set = format!("SET b {value} => +QUEUED\n").repeat(3);
    says(&mut client, &format!("MULTI => +OK\n{set}SET b {value} => -ERR the transaction is too long"));
    let aborted = "EXEC => -EXECABORT Transaction discarded because of previous errors.";
    says(&mut client, &format!("{aborted}\nEXISTS b => :0"));
}

/// What else changes it is compared beside Redis.
#[test]
fn a_watched_key_that_came_to_its_deadline_was_changed() {
    let (mut client, mut life) = (client(&keyspace()), 5);
    // Where the machine was so slow that the key was gone before, the next lives longer.
    while {
        is_ok(&mut client, &format!("SET a 1 PX {life}"));
        says(&mut client, "WATCH a => +OK");
        said(&mut client, "EXISTS a") != ":1 "
    } {
        assert!(life < LONG, "the key is gone");
        says(&mut client, "UNWATCH => +OK");
        life *= 2;
    }
    says(&mut client, "MULTI => +OK\nPING => +QUEUED");
    thread::sleep(Duration::from_millis(life + 1));
    says(&mut client, "EXEC => *-1");
}

/// One raises two keys together, and sets both, and two others look at both, by a transaction and by an MGET.
#[test]
fn no_request_sees_half_of_a_transaction() {
    let keyspace = keyspace();
    let is_over = AtomicBool::new(false);
    thread::scope(|scope| {
        for look in ["MULTI => +OK\nGET a => +QUEUED\nGET b => +QUEUED", ""] {
            let (keyspace, is_over) = (&keyspace, &is_over);
            scope.spawn(move || {
                let mut client = client(keyspace);
                while !is_over.load(SeqCst) {
                    says(&mut client, look);
                    let told = said(&mut client, if look.is_empty() { "MGET a b" } else { "EXEC" });
                    let words: Vec<_> = told.split_whitespace().collect();
                    let half = words.len() / 2;
                    assert_eq!(words[1..=half], words[half + 1..], "{told}");
                }
            });
        }
        let mut client = client(&keyspace);
        let others: String = (0..100).map(|it| format!("other:{it} 1 ")).collect();
        for at in 0..2_000 {
            says(&mut client, "MULTI => +OK\nINCR a => +QUEUED\nINCR b => +QUEUED");
            said(&mut client, "EXEC");
            says(&mut client, &format!("MSET a {at} {others}b {at} => +OK"));
        }
        is_over.store(true, SeqCst);
    });
}

/// The clock goes on within a transaction, and keepers take off what is due: what is gone once is gone for the rest of it.
#[test]
fn a_key_that_ends_within_a_transaction_stays_gone() {
    let keyspace = super::kept();
    let (mut client, mut ended) = (client(&keyspace), 0);
    for life in (1..=8).cycle().take(80) {
        is_ok(&mut client, "MULTI");
        let set = format!("SET a 1 PX {life}");
        for request in [&set[..]].into_iter().chain(["EXISTS a", "DBSIZE"].repeat(1_500)) {
            assert_eq!(said(&mut client, request), "+QUEUED ", "{request}");
        }
        let told = said(&mut client, "EXEC");
        let told: Vec<_> = told.split_whitespace().skip(2).collect();
        let gone = told.iter().position(|it| *it == ":0").unwrap_or(told.len());
        assert_eq!(told.len(), 3_000);
        assert!(told[..gone].iter().all(|it| *it == ":1") && told[gone..].iter().all(|it| *it == ":0"), "{told:?}");
        ended += usize::from(gone < told.len());
        said(&mut client, "DEL a");
    }
    assert!(ended > 0, "no key ended within its transaction");
}

#[test]
fn a_password_lets_in_whoever_tells_it() {
    let settings = || Settings { password: Password::of("secret\nnothing"), ..Settings::default() };
    let wrong = "-WRONGPASS invalid username-password pair or user is disabled.";
    let mut client = client_by(&keyspace(), settings());
    for told in ["secre", "secretsecret", "secre\t", "eve secret", "default nothing"] {
        says(&mut client, &format!("AUTH {told} => {wrong}\nGET a => -NOAUTH Authentication required."));
    }
    says(&mut client, &format!("HELLO 3 AUTH default x => {wrong}\nMULTI => -NOAUTH Authentication required."));
    says(&mut client, &format!("AUTH secret => +OK\nGET a => $-1\nAUTH nothing => {wrong}\nGET a => $-1"));
    let mut client = client_by(&keyspace(), settings());
    assert!(said(&mut client, "HELLO 3 AUTH default secret SETNAME eve").starts_with("%7 "));
    says(&mut client, "CLIENT GETNAME => $3 eve");
}

#[test]
fn a_scan_tells_each_name_that_stays() {
    let keyspace = keyspace();
    let mut client = client(&keyspace);
    for at in 0..5_000 {
        is_ok(&mut client, &format!("SET gone:{at} 1"));
        is_ok(&mut client, &format!("SET key:{at} 1"));
    }
    let (mut cursor, mut seen, mut calls) = ("0".to_string(), HashSet::new(), 0);
    while calls == 0 || cursor != "0" {
        let told = said(&mut client, &format!("SCAN {cursor} COUNT 7"));
        // The next cursor and the names, each after its length.
        let words: Vec<_> = told.split_whitespace().collect();
        cursor = words[2].into();
        assert!(words[3][1..].parse::<usize>().unwrap() <= 7, "a call tells no more than it is asked for");
        seen.extend(words.iter().skip(5).step_by(2).filter(|it| it.starts_with("key:")).map(ToString::to_string));
        // Others come and go meanwhile, and the last of a shard moves to the place of what goes.
        (5 * calls..5 * calls + 5).for_each(|at| drop(ask(&mut client, &format!("DEL gone:{at}"))));
        is_ok(&mut client, &format!("SET other:{calls} 1 PX {}", 1 + calls % 3));
        ask(&mut client, &format!("DEL other:{}", calls / 2));
        calls += 1;
    }
    assert_eq!(seen.len(), 5_000);
    assert!(calls > 100, "{calls} calls");
}

#[test]
fn info_tells_what_the_queue_holds() {
    let mut client = client(&keyspace());
    is_ok(&mut client, "SET a 1 PX 6000000");
    assert!(said(&mut client, "INFO").contains("waiting:1 late_ms:0 "));
    is_ok(&mut client, "SET b 1 PX 2");
    thread::sleep(Duration::from_millis(20));
    // Nobody took it out, nor does INFO.
    let told = said(&mut client, "INFO");
    let late = told.split("late_ms:").nth(1).unwrap().split(' ').next().unwrap();
    assert!(told.contains("waiting:2 ") && late.parse::<u64>().unwrap() >= 18, "{told}");
    says(&mut client, "GET b => $-1");
    assert!(said(&mut client, "INFO").contains("waiting:1 late_ms:0 "));
}

/// Slots of few stamps, so that a queue is worn again and again: one name that comes and goes, and others that stay.
#[test]
fn a_worn_queue_is_renewed_while_it_serves() {
    let keyspace = Arc::new(Keyspace::worn_after(3, 1_000, Room::new(64 << 20)));
    let (mut writer, mut other) = (client(&keyspace), client(&keyspace));
    let extend = |client: &mut Asker, at: u32, until: u64| {
        says(client, &format!("PEXPIREAT stays:{at} {until} GT => :1\nPEXPIRETIME stays:{at} => :{until}"));
    };
    for at in 0..500 {
        is_ok(&mut writer, &format!("SET stays:{at} 1 PXAT 4000000000000"));
        extend(&mut other, at, 4_000_000_000_001);
    }
    for _ in 0..5_000 {
        is_ok(&mut writer, "SET comes 1 PX 6000000");
        assert_eq!(ask(&mut writer, "DEL comes"), Reply::Integer(1));
        // Each earlier deadline takes a stamp of a slot that stays in use.
        is_ok(&mut writer, "SET stays:0 1 PX 500000");
        is_ok(&mut writer, "SET stays:0 1 PX 400000");
    }
    // By what it remembers from before, and as one who never asked.
    (1..500).for_each(|at| extend(&mut other, at, 4_000_000_000_002));
    (1..500).for_each(|at| extend(&mut writer, at, 4_000_000_000_003));
    let held = keyspace.held();
    assert_eq!((held.keys, held.expires), (500, 500));
}
