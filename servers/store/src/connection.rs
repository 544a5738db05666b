//! A connection: what came of its requests, what waits to be sent, and the turns in which it is served.

use crate::command::{Client, Desk, Served, Session};
use crate::output::Output;
use crate::resp::{Parser, Reply};
use crate::seats::{Seat, NO_MEMORY, PER_SEAT};
use mio::event::Event;
use mio::net::TcpStream;
use std::io::{self, ErrorKind, Read};
use std::mem;
use std::net::Shutdown;
use std::time::{Duration, Instant};

/// What is read in a turn, so that every connection of a thread has one soon; more of a request that has begun.
const PIECE: usize = 16 << 10;
const LONG_PIECE: usize = 64 << 10;
/// How often a connection's replies are sent in one turn.
const SENDS: usize = 8;
/// After what time a connection's further requests wait for its next turn, and how many requests there are from one look
/// at the clock to the next.
pub const SLICE: Duration = Duration::from_millis(1);
const UNLOOKED: usize = 8;
/// By how much at most the room for a request that has begun grows at a time.
const STEP: usize = 128 << 10;
/// How long a client may leave its replies unread.
const PATIENCE: Duration = Duration::from_secs(15);
/// How long a client that sends on is heard after the reason why it isn't served any more.
const LINGER: Duration = Duration::from_secs(3);
/// A request of so many words is taken apart without another allocation.
const FEW: usize = 8;
/// The room for replies that a thread keeps.
const KEPT_ROOM: usize = 256 << 10;

/// What the connections of a thread share: its client of the keyspace, and room to read and to write in.
pub struct Shop {
    pub desk: Desk,
    piece: Vec<u8>,
    room: Vec<u8>,
}

impl Shop {
    pub fn new(desk: Desk) -> Shop {
        Shop { desk, piece: vec![0; LONG_PIECE], room: Vec::new() }
    }
}

#[derive(Clone, Copy, Debug, PartialEq, Eq)]
pub enum After {
    /// The socket has to become ready.
    Waits,
    Again,
    Over,
}

pub struct Connection {
    pub socket: TcpStream,
    seat: Seat,
    talk: Talk,
    /// What came and isn't answered yet, from the beginning of a request on.
    input: Vec<u8>,
    is_readable: bool,
    is_hung_up: bool,
    /// Since when the client takes no reply.
    stuck: Option<Instant>,
    /// Since when it is told why it isn't served any more. What it sends is dropped: a socket that is closed with
    /// something unread takes back what it said.
    lingers: Option<Instant>,
    pub is_queued: bool,
}

/// What is said on a connection.
struct Talk {
    parser: Parser,
    session: Session,
    output: Output,
    /// How many values of the present request are told.
    told: usize,
    /// Whether what came is more than the beginning of a request.
    has_more: bool,
    /// Nothing more is answered.
    is_over: bool,
    /// The last reply is the reason why.
    is_refused: bool,
}

impl Connection {
    pub fn new(socket: TcpStream, seat: Seat, desk: &Desk) -> Connection {
        let session = desk.session(&seat.guest);
        let (parser, output, told, has_more, is_over, is_refused) = Default::default();
        let talk = Talk { parser, session, output, told, has_more, is_over, is_refused };
        let (input, stuck, lingers, is_readable, is_hung_up, is_queued) = Default::default();
        Connection { socket, seat, talk, input, is_readable, is_hung_up, stuck, lingers, is_queued }
    }

    /// Does what it has begun, before it is closed.
    pub fn finish(&mut self, desk: &mut Desk) {
        while self.talk.session.is_running() {
            self.talk.client(desk).go_on();
        }
    }

    pub fn note(&mut self, event: &Event) {
        self.is_readable |= event.is_readable() || event.is_read_closed() || event.is_error();
        self.is_hung_up |= event.is_read_closed() || event.is_error();
    }

    /// It is served what has come by now, and nothing more.
    pub fn end(&mut self) {
        self.is_readable = true;
    }

    pub fn is_stuck(&self) -> bool {
        self.stuck.is_some()
    }

    /// Whether another client has it closed.
    pub fn is_sent_away(&self) -> bool {
        self.seat.guest.is_sent_away()
    }

    /// Whether it waits for nothing but that its client closes it.
    pub fn is_lingering(&self) -> bool {
        self.lingers.is_some()
    }

    /// Whether nothing came of its client for so long, and nothing waits for it.
    pub fn is_silent(&self, timeout: Duration) -> bool {
        self.talk.output.is_empty() && !self.talk.has_more && self.seat.guest.idle() >= timeout
    }

    /// Whether its client left its replies unread for too long, or sends on for too long.
    pub fn is_given_up(&self) -> bool {
        let is_past = |since: Option<Instant>, most| since.is_some_and(|it| it.elapsed() >= most);
        is_past(self.stuck, PATIENCE) || is_past(self.lingers, LINGER)
    }

    /// Sends what waits, then answers what has come, a piece of it.
    pub fn turn(&mut self, shop: &mut Shop) -> io::Result<After> {
        if self.is_lingering() {
            return self.drop_piece(shop);
        }
        self.send()?;
        if !self.talk.output.is_empty() {
            // A transaction that has begun is done whether its client reads or not.
            self.talk.client(&mut shop.desk).go_on();
            return Ok(if self.talk.session.is_running() { After::Again } else { After::Waits });
        }
        self.talk.output.swap_room(&mut shop.room);
        if self.talk.has_more {
            self.serve_input(&mut shop.desk)?;
        } else if self.is_readable && !self.talk.is_over && !self.read(shop)? {
            return Ok(After::Over);
        }
        self.send()?;
        if self.talk.output.is_empty() {
            self.talk.output.swap_room(&mut shop.room);
            shop.room.shrink_to(KEPT_ROOM);
        }
        Ok(self.after())
    }

    fn after(&mut self) -> After {
        let Talk { parser, session, output, is_over, .. } = &self.talk;
        self.seat.hold(PER_SEAT + self.input.capacity() + parser.held() + session.held() + output.held());
        match output.is_empty() {
            _ if session.is_running() => After::Again,
            false => After::Waits,
            true if self.talk.is_refused => self.linger(),
            true if *is_over => After::Over,
            true if self.talk.has_more || self.is_readable => After::Again,
            true => After::Waits,
        }
    }

    /// Ends what is said, and keeps nothing.
    fn linger(&mut self) -> After {
        self.lingers = Some(Instant::now());
        (self.input, self.talk.parser, self.talk.has_more) = Default::default();
        self.seat.hold(PER_SEAT);
        match self.socket.shutdown(Shutdown::Write) {
            Ok(()) => After::Again,
            Err(_) => After::Over,
        }
    }

    fn drop_piece(&mut self, shop: &mut Shop) -> io::Result<After> {
        match self.socket.read(&mut shop.piece) {
            Ok(0) => Ok(After::Over),
            Ok(_) => Ok(After::Again),
            Err(error) if error.kind() == ErrorKind::WouldBlock => Ok(After::Waits),
            Err(error) if error.kind() == ErrorKind::Interrupted => Ok(After::Again),
            Err(error) => Err(error),
        }
    }

    /// How much it holds, for which one is closed where all hold too much: unread replies before half a request.
    pub fn burden(&self) -> (bool, usize) {
        (self.is_stuck(), self.seat.guest.held())
    }

    /// Tells its client that it is closed because it holds too much, where it hears it. False where it is to be closed
    /// at once.
    pub fn turn_out(&mut self) -> bool {
        if !self.talk.output.is_empty() {
            return false;
        }
        self.talk.output.reply(&Reply::Error(NO_MEMORY.into()));
        self.send().is_ok() && self.talk.output.is_empty() && self.linger() != After::Over
    }

    fn send(&mut self) -> io::Result<()> {
        if self.talk.output.is_empty() {
            return Ok(());
        }
        let count = self.talk.output.send(&mut self.socket)?;
        self.stuck = match self.stuck {
            _ if self.talk.output.is_empty() => None,
            Some(since) if count == 0 => Some(since),
            _ => Some(Instant::now()),
        };
        Ok(())
    }

    /// Reads a piece and answers it. False where the client has ended.
    fn read(&mut self, shop: &mut Shop) -> io::Result<bool> {
        let most = if self.input.is_empty() { PIECE } else { LONG_PIECE };
        let count = match self.socket.read(&mut shop.piece[..most]) {
            Ok(0) => return Ok(false),
            Ok(count) => count,
            Err(error) if error.kind() == ErrorKind::WouldBlock => {
                self.is_readable = false;
                return Ok(true);
            }
            Err(error) if error.kind() == ErrorKind::Interrupted => return Ok(true),
            Err(error) => return Err(error),
        };
        self.seat.guest.hear();
        // Less than was asked for: nothing is left, and what comes next is an event again.
        self.is_readable = count == most || self.is_hung_up;
        if self.input.is_empty() {
            let used = self.talk.serve(&shop.piece[..count], &mut shop.desk, &mut self.socket)?;
            if !self.talk.is_over {
                self.keep(&shop.piece[used..count]);
            }
        } else {
            self.keep(&shop.piece[..count]);
            self.serve_input(&mut shop.desk)?;
        }
        Ok(true)
    }

    fn serve_input(&mut self, desk: &mut Desk) -> io::Result<()> {
        let mut input = mem::take(&mut self.input);
        let used = self.talk.serve(&input, desk, &mut self.socket)?;
        if used < input.len() && !self.talk.is_over {
            input.drain(..used);
            self.input = input;
        }
        Ok(())
    }

    fn keep(&mut self, rest: &[u8]) {
        let (capacity, wanted) = (self.input.capacity(), self.input.len() + rest.len());
        if wanted > capacity {
            let room = wanted.max(capacity + capacity.min(STEP));
            self.input.reserve_exact(room - self.input.len());
        }
        self.input.extend_from_slice(rest);
    }
}

impl Talk {
    /// Answers the requests of these bytes, and says how much of them that was. What is left is the beginning of a
    /// request, or more, where the socket takes no more replies or others have their turn.
    fn serve(&mut self, bytes: &[u8], desk: &mut Desk, socket: &mut TcpStream) -> io::Result<usize> {
        let (mut used, mut sends, mut count, begun) = (0, 0, 0, Instant::now());
        self.has_more = false;
        while !self.is_over {
            count += 1;
            if count % UNLOOKED == 0 && begun.elapsed() >= SLICE && self.told == 0 {
                self.has_more = true;
                break;
            }
            if self.output.is_full() {
                self.output.send(socket)?;
                sends += 1;
                self.has_more = sends == SENDS || self.output.is_full();
                if self.has_more {
                    break;
                }
            }
            self.parser.is_narrow = !self.session.is_admitted;
            match self.parser.parse(&bytes[used..]) {
                Ok(None) => break,
                Ok(Some(length)) => match self.answer(&bytes[used..], desk, socket) {
                    Served::Begun => {}
                    Served::Later => {
                        self.has_more = true;
                        break;
                    }
                    _ => {
                        used += length;
                        self.parser.reset();
                        self.told = 0;
                    }
                },
                Err(broken) => {
                    self.output.reply(&Reply::Error(format!("ERR Protocol error: {broken}")));
                    (self.is_over, self.is_refused) = (true, true);
                }
            }
        }
        Ok(used)
    }

    fn client<'a>(&'a mut self, desk: &'a mut Desk) -> Client<'a> {
        Client { desk, session: &mut self.session }
    }

    fn answer(&mut self, bytes: &[u8], desk: &mut Desk, socket: &TcpStream) -> Served {
        let count = self.parser.count();
        if count == 0 {
            return Served::Done;
        }
        let (mut few, many);
        let words = if count <= FEW {
            few = [&b""[..]; FEW];
            few.iter_mut().zip(self.parser.words(bytes)).for_each(|(place, word)| *place = word);
            &few[..count]
        } else {
            many = self.parser.words(bytes).collect::<Vec<_>>();
            &many[..]
        };
        let mut client = Client { desk, session: &mut self.session };
        let served = client.serve(words, &mut self.told, &mut self.output);
        self.is_over = matches!(served, Served::Last | Served::Attack);
        if served == Served::Attack {
            client.desk.warn(socket.peer_addr().ok());
            self.output.clear();
        }
        served
    }
}
