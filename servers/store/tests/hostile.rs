//! Clients that do harm: a named error or a closed connection, and everybody else is served as before.

use std::io::{BufRead, BufReader, ErrorKind, Read, Write};
use std::net::TcpStream;
use std::process::{Child, ChildStdout, Command, Stdio};
use std::thread;
use std::time::{Duration, Instant};

const STORE: &str = env!("CARGO_BIN_EXE_store");
/// More than any machine needs for what is waited for: only a hang meets it.
const LONG: Duration = Duration::from_secs(120);

/// Waits until something is so.
fn wait_until(what: &str, mut is_so: impl FnMut() -> bool) {
    let begun = Instant::now();
    while !is_so() {
        assert!(begun.elapsed() < LONG, "{what}");
        thread::sleep(Duration::from_millis(10));
    }
}

/// A server of its own, which ends with the test.
struct Store {
    child: Child,
    said: BufReader<ChildStdout>,
    /// The line that it starts with.
    first: String,
    address: String,
}

impl Store {
    fn new(options: &[&str]) -> Store {
        Store::by(Command::new(STORE).args(options))
    }

    fn by(command: &mut Command) -> Store {
        // The tests' own sockets are more than a shell's limit too.
        rlimit::increase_nofile_limit(u64::MAX).unwrap();
        let command = command.args(["--port", "0"]).stdout(Stdio::piped()).stderr(Stdio::piped());
        let mut child = command.spawn().unwrap();
        let (mut said, mut first) = (BufReader::new(child.stdout.take().unwrap()), String::new());
        said.read_line(&mut first).unwrap();
        assert!(first.contains("a password"), "{first}");
        let is_address = |it: &&str| it.contains(':') && it.ends_with(|end: char| end.is_ascii_digit());
        let address = first.split([' ', ',']).find(is_address).unwrap().replace("0.0.0.0", "127.0.0.1");
        Store { child, said, first, address }
    }

    fn signal(&self, name: &str) {
        assert!(Command::new("kill").args([name, &self.child.id().to_string()]).status().unwrap().success());
    }

    /// Asks it to end, which it has to do in order: what it says then, and what it warned of before.
    fn ends(mut self) -> (String, String) {
        self.signal("-TERM");
        let (mut said, mut warned) = (String::new(), String::new());
        self.said.read_to_string(&mut said).unwrap();
        self.child.stderr.take().unwrap().read_to_string(&mut warned).unwrap();
        assert!(self.child.wait().unwrap().success());
        (said, warned)
    }

    fn connect(&self) -> TcpStream {
        let stream = TcpStream::connect(&self.address).unwrap();
        stream.set_read_timeout(Some(LONG)).unwrap();
        stream
    }

    fn clients(&self, count: usize) -> Vec<TcpStream> {
        (0..count).map(|_| self.connect()).collect()
    }

    /// What is answered until the connection ends.
    fn ends_with(&self, sent: &[u8]) -> String {
        let mut stream = self.connect();
        // A connection that was closed while this was sent is what is looked for.
        let _ = stream.write_all(sent);
        let mut answer = Vec::new();
        let _ = stream.read_to_end(&mut answer);
        String::from_utf8_lossy(&answer).into_owned()
    }

    /// Stops it, until it is told to go on. Each of its threads stands still then.
    fn stand_still(&self) {
        self.signal("-STOP");
        let tasks = format!("/proc/{}/task", self.child.id());
        wait_until("it isn't stopped", || {
            std::fs::read_dir(&tasks).unwrap().all(|task| {
                let state = std::fs::read_to_string(task.unwrap().path().join("stat")).unwrap();
                state.rsplit(") ").next().is_some_and(|it| it.starts_with('T'))
            })
        });
    }

    fn is_well(&self) {
        says(&mut self.connect(), "SET well 1 => +OK\nGET well => $1 1");
    }

    /// The memory that it holds, in KiB.
    fn held(&self) -> u64 {
        let status = std::fs::read_to_string(format!("/proc/{}/status", self.child.id())).unwrap();
        let line = status.lines().find(|line| line.starts_with("VmRSS:")).unwrap();
        line.split_whitespace().nth(1).unwrap().parse().unwrap()
    }

    fn holds_less_than(&self, most: u64) {
        let held = self.held();
        assert!(held < most, "{held} KiB are held");
    }
}

impl Drop for Store {
    fn drop(&mut self) {
        let _ = self.child.kill();
        let _ = self.child.wait();
    }
}

/// The words of a line as a request.
fn request(line: &str) -> Vec<u8> {
    let words = line.split(' ').map(|it| format!("${}\r\n{it}\r\n", it.len()));
    format!("*{}\r\n{}", line.split(' ').count(), words.collect::<String>()).into_bytes()
}

/// What a request is answered: a line, and the content of a bulk string after a blank.
fn ask(stream: &mut TcpStream, line: &str) -> String {
    stream.write_all(&request(line)).unwrap();
    answer(stream)
}

fn answer(stream: &mut TcpStream) -> String {
    let (mut reader, mut line) = (BufReader::with_capacity(1, stream), String::new());
    reader.read_line(&mut line).unwrap();
    let line = line.strip_suffix("\r\n").unwrap();
    let Some(length) = line.strip_prefix('$').and_then(|it| it.parse::<usize>().ok()) else { return line.into() };
    let mut content = vec![0; length + 2];
    reader.read_exact(&mut content).unwrap();
    format!("{line} {}", String::from_utf8_lossy(content.strip_suffix(b"\r\n").unwrap()))
}

/// Each line is a request, and what it is answered.
fn says(stream: &mut TcpStream, lines: &str) {
    for line in lines.lines().map(str::trim) {
        let (request, wanted) = line.split_once(" => ").unwrap();
        assert_eq!(ask(stream, request), wanted, "{request}");
    }
}

fn are_served(clients: &mut [TcpStream]) {
    clients.iter_mut().for_each(|it| says(it, "PING => +PONG"));
}

/// The answers of a line each to requests that are sent in one piece.
fn ask_all(stream: &mut TcpStream, lines: impl IntoIterator<Item = impl AsRef<str>>) -> Vec<String> {
    let requests: Vec<_> = lines.into_iter().map(|it| request(it.as_ref())).collect();
    stream.write_all(&requests.concat()).unwrap();
    BufReader::new(&*stream).lines().take(requests.len()).map(Result::unwrap).collect()
}

/// What is refused otherwise than by Redis, beside which `cases.txt` has all else that is broken.
#[test]
fn broken_frames_end_their_connection_by_name() {
    let store = Store::new(&[]);
    let cases: [(&[u8], &str); 10] = [
        (b"*65537\r\n", "invalid multibulk length"),
        (b"*1\r\n$1048577\r\n", "invalid bulk length"),
        (b"*1\r\n$4\r\nPINGxx", "expected the end of a line"),
        (&[b'a'; 70_000], "too big inline request"),
        // The hello of a TLS client, in which a line of its choice may stand, as in the ticket of a session.
        (b"\x16\x03\x01\x02\0\x01\0\x01\xfc\x03\x03ticket\nSET evil written\n\0\0\n", "a zero byte in a line"),
        (b"SET evil\0 written\r\nSET evil written\r\n", "a zero byte in a line"),
        (b"\0", "a zero byte in a line"),
        (b"PING\0\n", "a zero byte in a line"),
        (b"*1\0\r\n", "a zero byte in a line"),
        (b"*1\r\n$x\r\nSET evil written\r\n", "invalid bulk length"),
    ];
    for (sent, told) in cases {
        let sent_shown = sent[..sent.len().min(50)].escape_ascii();
        assert_eq!(store.ends_with(sent), format!("-ERR Protocol error: {told}\r\n"), "{sent_shown}");
        says(&mut store.connect(), "GET evil => $-1");
    }
    assert_eq!(store.ends_with(b"PING\r\nQUIT\r\nPING\r\n"), "+PONG\r\n+OK\r\n");
    says(&mut store.connect(), "ECHO a\0b => $3 a\0b");
}

#[test]
fn random_bytes_harm_nobody() {
    let store = Store::new(&[]);
    let mut draw = 88_172_645_463_325_252_u64;
    for _ in 0..200 {
        let mut sent = request("SET a b");
        for _ in 0..40 {
            draw ^= draw << 13;
            draw ^= draw >> 7;
            draw ^= draw << 17;
            let at = draw as usize % sent.len();
            sent[at] = b"*$\r\n0123456789-\xff"[(draw >> 32) as usize % 16];
        }
        store.connect().write_all(&sent).unwrap();
    }
    store.is_well();
}

#[test]
fn half_commands_wait_and_harm_nobody() {
    let store = Store::new(&[]);
    let whole = request("SET half 0123456789");
    let mut halves = store.clients(whole.len() - 1);
    for (at, stream) in halves.iter_mut().enumerate() {
        stream.write_all(&whole[..at + 1]).unwrap();
    }
    store.is_well();
    for (at, stream) in halves.iter_mut().enumerate() {
        stream.write_all(&whole[at + 1..]).unwrap();
        assert_eq!(answer(stream), "+OK");
    }
    // A request that comes byte by byte.
    let mut stream = store.connect();
    request("GET half").chunks(1).for_each(|it| stream.write_all(it).unwrap());
    assert_eq!(answer(&mut stream), "$10 0123456789");
}

#[test]
fn keys_and_values_of_a_mebibyte_are_kept_and_longer_ones_refused() {
    let store = Store::new(&["--memory", "640"]);
    let (mut stream, long) = (store.connect(), "k".repeat(1 << 20));
    says(&mut stream, &format!("SET {long} v PX 60000 => +OK\nGET {long} => $1 v\nSET v {long} => +OK"));
    says(&mut stream, &format!("GET v => $1048576 {long}\nDEL {long} => :1"));
    let two = request(&format!("SET {long} {long}"));
    assert_eq!(store.ends_with(&two), "-ERR Protocol error: too big a request\r\n");
    store.is_well();
}

#[test]
fn a_client_that_stops_reading_is_closed_and_holds_little() {
    // The one thread serves others meanwhile.
    let store = Store::new(&["--threads", "1"]);
    let mut stream = store.connect();
    says(&mut stream, &format!("SET v {} => +OK", "v".repeat(1 << 20)));
    let held = store.held();
    // Two GiB of replies are asked for, and none is read.
    stream.set_write_timeout(Some(Duration::from_secs(1))).unwrap();
    let _ = stream.write_all(&request("GET v").repeat(2_000));
    wait_until("the connection isn't closed", || {
        store.holds_less_than(held + (16 << 10));
        store.is_well();
        ask(&mut store.connect(), "INFO").contains("connected_clients:1\r")
    });
    store.is_well();
}

/// Four hundred requests come in one piece, each of which looks at a thousand names and tells none, and one of another
/// client that sets a mark: the server finds both at once, and how many of them are answered before the mark is set.
#[test]
fn many_long_requests_leave_others_their_turn() {
    let store = Store::new(&["--threads", "1"]);
    let (mut long, mut short) = (store.connect(), store.connect());
    for part in 0..20 {
        ask_all(&mut long, (0..1_000).map(|at| format!("SET name:{part}:{at} v")));
    }
    for _ in 0..3 {
        store.stand_still();
        long.write_all(&b"SCAN 0 COUNT 1024 MATCH none\r\nEXISTS mark\r\n".repeat(400)).unwrap();
        short.write_all(&request("SET mark 1")).unwrap();
        store.signal("-CONT");
        assert_eq!(answer(&mut short), "+OK");
        let marks = BufReader::new(&long).lines().map(Result::unwrap).filter(|it| it.starts_with(':')).take(400);
        let before = marks.filter(|it| it == ":0").count();
        assert!(before < 200, "{before} of 400 are done first");
        says(&mut short, "DEL mark => :1");
    }
}

/// Whether another client of the same thread is answered amid a transaction, which begins first. On a busy machine the
/// transaction may be over before this program looks.
fn is_answered_amid(long: &mut TcpStream, short: &mut TcpStream, store: &Store) -> bool {
    let mget = format!("MGET{}", (0..100).map(|at| format!(" name:{at}")).collect::<String>());
    let queued = ask_all(long, [vec!["MULTI"], vec![&mget[..]; 300]].concat());
    assert_eq!(queued.iter().filter(|it| *it == "+QUEUED").count(), 300);
    store.stand_still();
    long.write_all(&request("EXEC")).unwrap();
    short.write_all(&request("GET other")).unwrap();
    store.signal("-CONT");
    assert_eq!(answer(short), "$-1");
    long.set_nonblocking(true).unwrap();
    let is_amid = long.peek(&mut [0]).is_err_and(|error| error.kind() == ErrorKind::WouldBlock);
    long.set_nonblocking(false).unwrap();
    let told = BufReader::new(&*long).lines().map(Result::unwrap).take(1 + 300 * 101);
    assert_eq!(told.filter(|it| it == "$-1").count(), 300 * 100);
    is_amid
}

#[test]
fn a_long_transaction_leaves_others_their_turn() {
    let store = Store::new(&["--threads", "1"]);
    let (mut long, mut short) = (store.connect(), store.connect());
    assert!((0..20).any(|_| is_answered_amid(&mut long, &mut short, &store)), "nobody is answered amid a transaction");
}

/// Whoever is sent away amid a transaction has done all of it.
#[test]
fn a_transaction_whose_client_is_sent_away_is_done_whole() {
    let store = Store::new(&["--threads", "1"]);
    let mut asks = store.connect();
    for round in 1..=5 {
        let mut goes = store.connect();
        let id = ask(&mut goes, "CLIENT ID");
        ask_all(&mut goes, [vec!["MULTI"], ["INCR a", "INCR b"].repeat(10_000)].concat());
        store.stand_still();
        goes.write_all(&request("EXEC")).unwrap();
        asks.write_all(&request(&format!("CLIENT KILL ID {}", &id[1..]))).unwrap();
        store.signal("-CONT");
        assert_eq!(answer(&mut asks), ":1");
        let all = (round * 10_000).to_string();
        says(&mut asks, &format!("GET a => ${0} {all}\nGET b => ${0} {all}", all.len()));
    }
}

#[test]
fn a_thousand_connections_are_served_and_the_next_is_refused_by_name() {
    // Fewer where a shell has limited this program's own sockets for good.
    let count = if rlimit::increase_nofile_limit(u64::MAX).unwrap() < 2_500 { 300 } else { 1_000 };
    let store = Store::new(&["--keys", "10000", "--clients", &count.to_string()]);
    let mut clients = store.clients(count);
    for (at, stream) in clients.iter_mut().enumerate() {
        says(stream, &format!("SET name:{at} v PX 600000 => +OK"));
    }
    says(&mut clients[0], &format!("DBSIZE => :{count}"));
    assert_eq!(store.ends_with(b""), "-ERR max number of clients reached\r\n");
    // Each extends a key of another.
    for (at, stream) in clients.iter_mut().enumerate() {
        says(stream, &format!("PEXPIRE name:{} 700000 GT => :1", count - 1 - at));
    }
    drop(clients);
    wait_until("seats aren't given back", || store.ends_with(b"*1\r\n$4\r\nQUIT\r\n") == "+OK\r\n");
    store.is_well();
}

/// More clients come at once than the server welcomes by then: none is left to ask again, which it does a second later.
#[test]
fn five_hundred_clients_come_at_once() {
    let store = Store::new(&[]);
    store.stand_still();
    let address = store.address.parse().unwrap();
    let connect = |at| TcpStream::connect_timeout(&address, LONG).unwrap_or_else(|it| panic!("client {at}: {it}"));
    let mut clients: Vec<TcpStream> = (0..500).map(connect).collect();
    store.signal("-CONT");
    are_served(&mut clients);
}

/// Its host may vanish without a word, and its seat would be taken for ever: the machine asks every silent client.
#[test]
fn a_silent_client_is_asked_whether_it_is_there() {
    for (options, most) in [(&[][..], 300), (&["--keepalive", "20"], 20)] {
        let store = Store::new(options);
        let mut stream = store.connect();
        says(&mut stream, "PING => +PONG");
        let port = |address: std::net::SocketAddr| format!(":{:04X}", address.port());
        let (own, its) = (port(store.address.parse().unwrap()), port(stream.local_addr().unwrap()));
        wait_until("its socket has no timer that asks", || {
            std::fs::read_to_string("/proc/net/tcp").unwrap().lines().any(|line| {
                let words: Vec<_> = line.split_whitespace().collect();
                // The second kind of timer, and the hundredths of a second until it fires.
                let fires = words[5].strip_prefix("02:").map(|it| u32::from_str_radix(it, 16).unwrap());
                words[1].ends_with(&own) && words[2].ends_with(&its) && fires.is_some_and(|it| it <= most * 100)
            })
        });
    }
}

#[test]
fn as_many_clients_are_served_as_there_are_open_files() {
    let fewer = "; 136 clients in place of 300, for lack of open files\n";
    // The soft limit is raised, and the hard one is told.
    for (limit, clients, told) in [("-Sn 100", 300, "every key\n"), ("-n 200", 136, fewer)] {
        let start = format!("ulimit {limit} && exec \"$0\" --clients 300 \"$@\"");
        let store = Store::by(Command::new("sh").args(["-c", &start, STORE]));
        assert!(store.first.ends_with(told), "{}", store.first);
        let mut served = store.clients(clients);
        are_served(&mut served);
        assert_eq!(store.ends_with(b""), "-ERR max number of clients reached\r\n");
    }
}

#[test]
fn no_room_is_an_error_by_name_and_nothing_is_lost() {
    let store = Store::new(&["--keys", "6400", "--memory", "64"]);
    let (mut stream, mut told) = (store.connect(), Vec::new());
    for part in 0..20 {
        told.extend(ask_all(&mut stream, (0..1_000).map(|at| format!("SET name:{part}:{at} v PX 600000"))));
    }
    let refusal = "-OOM no room for another key that expires";
    let count = |answer: &str| told.iter().filter(|it| *it == answer).count();
    assert_eq!((count("+OK"), count(refusal)), (6_400, 13_600));
    says(&mut stream, "DBSIZE => :6400\nSET without v => +OK");
    says(&mut stream, &format!("PEXPIRE without 1000 => {refusal}\nTTL without => :-1"));
    // 48 MiB are for keys and values, in whatever shard they are: the value of a MiB that doesn't go in is the 47th.
    let value = "v".repeat(1 << 20);
    (0..46).for_each(|at| says(&mut stream, &format!("SET long:{at} {value} => +OK")));
    let refusal = "-OOM command not allowed when used memory > 'maxmemory'.";
    says(&mut stream, &format!("SET without {value} => {refusal}\nGET without => $1 v\nFLUSHALL => +OK"));
    says(&mut stream, "SET again v PX 600000 => +OK");
}

/// One that starts nevertheless is ended, and has another code then. The room of all deadlines is taken at the start, so
/// that none is refused memory later.
#[test]
fn a_start_that_has_to_be_refused_is_so_by_name() {
    let others = "0.0.0.0 is for others too: a --password-file is wanted, or --protected-mode no; --help tells more";
    let starts = [
        ("", "--bind 0.0.0.0", others),
        ("", "--protected-mode yes --bind 0.0.0.0", others),
        ("", "--password-file /dev/null", "/dev/null has no password in its first line; --help tells more"),
        ("STORE_PASSWORD=", "", "STORE_PASSWORD is empty; --help tells more"),
        ("", "--memory 64 --keys 0 --most 103", "--most is 105 MiB at least, for what is counted; --help tells more"),
        ("ulimit -v 150000 &&", "--keys 4000000", "the deadlines of --keys 4000000: out of memory"),
    ];
    for (before, options, told) in starts {
        let start = format!("{before} \"$@\" {options}");
        let mut command = Command::new("sh");
        command.args(["-c", &start, "sh", "timeout", "120", STORE, "--port", "0"]).env_remove("STORE_PASSWORD");
        let output = command.output().unwrap();
        assert_eq!(String::from_utf8_lossy(&output.stderr), format!("store: {told}\n"), "{start}");
        assert_eq!(output.status.code(), Some(1), "{start}");
    }
}

#[test]
fn an_address_for_others_is_served_with_a_password_or_by_order() {
    for options in [["--protected-mode", "no"], ["--password-file", "README.md"]] {
        let store = Store::by(Command::new(STORE).args(["--bind", "0.0.0.0"]).args(options));
        assert!(store.first.contains(" 0.0.0.0:"), "{}", store.first);
        assert!(!ask(&mut store.connect(), "PING").is_empty());
    }
}

#[test]
fn nothing_is_done_before_the_password_is_told() {
    let store = Store::by(Command::new(STORE).env("STORE_PASSWORD", "secret"));
    let (mut stream, long) = (store.connect(), "v".repeat(20_000));
    says(
        &mut stream,
        "SET a 1 => -NOAUTH Authentication required.
        AUTH secre => -WRONGPASS invalid username-password pair or user is disabled.
        GET a => -NOAUTH Authentication required.",
    );
    // A stranger holds little.
    let many = format!("EXISTS{}", " a".repeat(10));
    assert_eq!(store.ends_with(&request(&many)), "-ERR Protocol error: unauthenticated multibulk length\r\n");
    let told = store.ends_with(&request(&format!("AUTH {long}")));
    assert_eq!(told, "-ERR Protocol error: unauthenticated bulk length\r\n");
    says(&mut stream, &format!("AUTH secret => +OK\nSET a {long} => +OK\n{many} => :10"));
    let line = std::fs::read(format!("/proc/{}/cmdline", store.child.id())).unwrap();
    assert!(!String::from_utf8_lossy(&line).contains("secret"));
}

/// Closes the silent after so many seconds, and nobody else. False where the machine was so slow that somebody who speaks
/// was silent for as long.
fn closes_the_silent(seconds: u64) -> bool {
    let store = Store::new(&["--timeout", &seconds.to_string()]);
    let (timeout, mut busy) = (Duration::from_secs(seconds), store.connect());
    let begun = Instant::now();
    let mut silent = store.clients(19);
    // Half a request is silence too.
    silent.iter_mut().for_each(|it| it.write_all(b"*1\r\n$4\r\nPI").unwrap());
    let (mut spoken, mut told, mut are_all_served) = (Instant::now(), String::new(), false);
    while !are_all_served || !told.contains("connected_clients:1\r") {
        assert!(begun.elapsed() < LONG, "they are never closed");
        told = ask(&mut busy, "INFO");
        are_all_served |= told.contains("connected_clients:20\r");
        if spoken.elapsed() >= timeout || !are_all_served && begun.elapsed() >= timeout {
            return false;
        }
        spoken = Instant::now();
        assert!(told.contains("connected_clients:"), "whoever asks is served on: {told}");
        thread::sleep(Duration::from_millis(50));
    }
    assert!(begun.elapsed() >= timeout, "they are closed before their time");
    silent.iter_mut().for_each(|it| assert_eq!(it.read(&mut [0; 1]).unwrap(), 0, "it is told nothing"));
    true
}

#[test]
fn a_silent_connection_is_closed_after_the_timeout() {
    assert!([2, 4, 8, 16, 32].into_iter().any(closes_the_silent), "the machine is too slow for this test");
}

#[test]
fn whoever_is_sent_away_is_closed_by_the_thread_that_serves_it() {
    let store = Store::new(&["--threads", "3"]);
    let (mut asks, mut others) = (store.connect(), store.clients(9));
    are_served(&mut others);
    // One of them has sent half a request.
    others[0].write_all(b"*2\r\n$3\r\nGET\r\n").unwrap();
    says(&mut asks, "CLIENT KILL TYPE normal => :9");
    // A socket that was closed with something unread tells an error.
    others.iter_mut().for_each(|it| assert!(it.read(&mut [0]).map_or(true, |count| count == 0)));
    // Whoever sends itself away is answered.
    says(&mut asks, "CLIENT KILL SKIPME no => :1");
    assert_eq!(asks.read(&mut [0]).unwrap(), 0);
    store.is_well();
}

/// How long it is heard after the last answer.
const HEARD: Duration = Duration::from_secs(3);

/// Whether whoever sends too much reads why. Where it isn't heard for as long as it sends it may not come to that.
fn is_told_why(store: &Store, whole: &[u8]) -> bool {
    let (mut stream, begun) = (store.connect(), Instant::now());
    let is_sent = stream.write_all(whole).is_ok();
    let mut told = String::new();
    let is_ended = stream.read_to_string(&mut told).is_ok();
    if begun.elapsed() >= HEARD {
        return false;
    }
    assert!(is_sent && is_ended, "it is cut off");
    assert_eq!(told, "-ERR Protocol error: invalid bulk length\r\n", "and nothing more is said");
    true
}

#[test]
fn whoever_sends_too_much_reads_why() {
    let store = Store::new(&["--threads", "1"]);
    let whole = request(&format!("SET v {}", "v".repeat(2 << 20)));
    assert_eq!((0..100).filter(|_| is_told_why(&store, &whole)).take(20).count(), 20, "the machine is too slow");
    // Whoever sends for ever isn't heard for ever, and holds nothing.
    let (mut stream, held, begun) = (store.connect(), store.held(), Instant::now());
    while stream.write_all(&whole).is_ok() {
        assert!(begun.elapsed() < LONG, "it is heard for ever");
        store.holds_less_than(held + (4 << 10));
        store.is_well();
    }
    // And whoever sends nothing more and doesn't close.
    let mut stream = store.connect();
    stream.write_all(b"*x\r\n").unwrap();
    wait_until("its seat isn't given back", || !ask(&mut store.connect(), "INFO").contains("connected_clients:2\r"));
}

/// How much a process may hold whose `--memory` is 64 MiB: beside it the program, its threads, and what the allocator
/// keeps for itself.
const MOST: u64 = (64 + 24) << 10;

#[test]
fn half_commands_hold_no_more_than_the_memory_that_was_given() {
    let store = Store::new(&["--memory", "64", "--keys", "10000"]);
    let mut whole = request(&format!("SET {} {}", "k".repeat(1_000_000), "v".repeat(1_000_000)));
    let rest = whole.split_off(whole.len() - 1_000);
    let (mut honest, mut halves) = (store.connect(), store.clients(200));
    for stream in &mut halves {
        // One that is refused is closed while it sends.
        let _ = stream.write_all(&whole);
        says(&mut honest, "SET small value PX 60000 => +OK");
        store.holds_less_than(MOST);
    }
    let (mut kept, mut refused) = (0, 0);
    for mut stream in halves {
        let _ = stream.write_all(&rest);
        let mut told = String::new();
        let _ = BufReader::new(stream).read_line(&mut told);
        match &told[..] {
            "+OK\r\n" => kept += 1,
            "-OOM the memory for connections is used up\r\n" => refused += 1,
            other => panic!("{other:?}"),
        }
    }
    assert!(kept >= 4 && refused >= 180 && kept + refused == 200, "{kept} were kept and {refused} refused");
    // What they held is given back.
    let value = "v".repeat(500_000);
    says(&mut honest, &format!("SET large {value} => +OK\nGET large => $500000 {value}"));
    store.is_well();
}

/// Values of one size after another, of which each twentieth stays, so that what goes leaves holes too small for the next.
#[test]
fn values_whose_sizes_change_hold_no_more_than_the_process_may() {
    let store = Store::new(&["--memory", "64", "--keys", "10000", "--most", "106"]);
    let (mut stream, mut refused) = (store.connect(), 0);
    for size in [100, 400, 1_600, 6_400, 25_600, 102_400, 409_600] {
        let (at_once, value, mut set) = ((400_000 / size).clamp(1, 500), "v".repeat(size), 0);
        let told = loop {
            let told = ask_all(&mut stream, (set..set + at_once).map(|at| format!("SET {size}:{at} {value}")));
            store.holds_less_than(106 << 10);
            set += told.iter().filter(|it| *it == "+OK").count();
            if let Some(told) = told.into_iter().find(|it| it != "+OK") {
                break told;
            }
        };
        refused += usize::from(told == "-OOM the process holds as much memory as it may");
        let gone: Vec<_> = (0..set).filter(|at| at % 20 > 0).map(|at| format!("DEL {size}:{at}")).collect();
        gone.chunks(500).for_each(|it| drop(ask_all(&mut stream, it)));
    }
    assert!(refused > 0, "the holes aren't as large as the test wants them");
    says(&mut stream, "FLUSHALL => +OK");
    store.is_well();
}

/// What is asked for is overwritten meanwhile, so that nobody else has what a client leaves unread: more and more of them hold
/// no more than was given.
#[test]
fn unread_replies_hold_no_more_than_the_memory_that_was_given() {
    let all: Vec<String> = (0..24).map(|at| format!("name:{at}")).collect();
    let gets: String = all.iter().map(|it| format!("GET {it}\r\n")).collect();
    let mget = format!("MGET {}\r\n", all.join(" "));
    let transaction = format!("MULTI\r\n{gets}EXEC\r\n");
    // How many clients there are, the values' number and length, what is asked for, and how much is read of the reply.
    let cases = [
        (190, 1, 700_000, "GET name:0\r\n".repeat(20), 5),
        (20, 1, 15_000, "GET name:0\r\n".repeat(600), 5),
        (8, 24, 1 << 20, mget, 5),
        (8, 24, 1 << 20, transaction, 5 + 24 * 9 + 5),
    ];
    for (clients, count, length, asked, read) in cases {
        let store = Store::new(&["--memory", "64", "--keys", "10000", "--threads", "1"]);
        let (mut unread, mut writer) = (Vec::new(), store.connect());
        for letter in ('a'..='z').cycle().take(clients) {
            let value = String::from(letter).repeat(length);
            all[..count].iter().for_each(|name| says(&mut writer, &format!("SET {name} {value} => +OK")));
            let mut stream = store.connect();
            let _ = stream.write_all(asked.as_bytes());
            let _ = stream.read_exact(&mut vec![0; read]);
            unread.push(stream);
            store.holds_less_than(MOST);
        }
        drop(unread);
        store.is_well();
    }
}

#[test]
fn where_the_memory_of_connections_is_used_up_the_next_is_refused_by_name() {
    let store = Store::new(&["--memory", "1", "--keys", "100"]);
    let mut clients = store.clients(100);
    are_served(&mut clients);
    // A quarter of a MiB has room for less than 128 of 2 KiB.
    let mut more = store.clients(60);
    let refused = more.iter_mut().filter_map(|it| {
        // One that is refused is closed, and may be so before it asks.
        let _ = it.write_all(&request("PING"));
        Some(answer(it)).filter(|told| told != "+PONG")
    });
    let refused: Vec<_> = refused.collect();
    assert!(!refused.is_empty(), "all are served");
    assert!(refused.iter().all(|it| it == "-OOM the memory for connections is used up"), "{refused:?}");
    are_served(&mut clients);
}

/// How long the end waits for clients to take what they asked for.
const LAST_WAIT: Duration = Duration::from_secs(2);

/// Whether all of some MB came that were asked for before the end, of which most wait in the server then. Where its last
/// wait was over they may not.
fn ends_in_order(threads: &str, count: usize, is_late: bool) -> bool {
    let store = Store::new(&["--threads", threads]);
    let (mut busy, mut idle) = (store.connect(), store.connect());
    says(&mut idle, "PING => +PONG");
    says(&mut busy, &format!("SET v {} => +OK", "v".repeat(100_000)));
    busy.write_all(&request("GET v").repeat(count)).unwrap();
    busy.read_exact(&mut [0; 8]).unwrap();
    let (address, begun) = (store.address.clone(), Instant::now());
    let reader = thread::spawn(move || {
        if is_late {
            // The server was told to end then, and has looked at each connection: it has closed the other.
            assert_eq!(idle.read(&mut [0; 1]).unwrap(), 0, "its connection is closed");
        }
        let mut rest = Vec::new();
        // A connection that is closed too early may tell an error.
        let _ = busy.read_to_end(&mut rest);
        (8 + rest.len(), idle)
    });
    let (said, warned) = store.ends();
    let (got, mut idle) = reader.join().unwrap();
    if begun.elapsed() >= LAST_WAIT && got < count * 100_011 {
        return false;
    }
    assert_eq!(got, count * 100_011);
    assert!(said.contains("0 connections are left") && warned.is_empty(), "{said}{warned}");
    assert!(is_late || idle.read(&mut [0; 1]).unwrap() == 0, "its connection is closed");
    assert!(TcpStream::connect(address).is_err());
    true
}

/// Two MB that the socket doesn't take at once are taken while the server ends; or twelve are asked for and none is read until
/// it ends, so that most of them wait in it then.
#[test]
fn what_was_asked_for_is_sent_at_the_end() {
    for (threads, count, is_late) in [("2", 20, false), ("1", 120, true)] {
        assert!((0..20).any(|_| ends_in_order(threads, count, is_late)), "the machine is too slow for this test");
    }
}
