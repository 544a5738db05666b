//! A thread that serves many connections: whichever is ready has a turn, one after the other.

use crate::command::Desk;
use crate::connection::{After, Connection, Shop};
use crate::lock;
use crate::seats::Seat;
use mio::net::TcpStream;
use mio::{Events, Interest, Poll, Token, Waker};
use std::collections::VecDeque;
use std::io::{self, ErrorKind};
use std::mem;
use std::sync::atomic::{AtomicBool, AtomicUsize, Ordering::SeqCst};
use std::sync::{Arc, Mutex};
use std::time::{Duration, Instant};

const WAKE: Token = Token(usize::MAX);
/// How many connections are found ready at a time.
const READY: usize = 256;
/// How often clients are looked at that leave their replies unread.
const LOOK_EVERY: Duration = Duration::from_secs(1);
/// A connection that holds less than so much is never closed for the room of another.
const MUCH: usize = 32 << 10;
/// How long the end waits for clients to take what they asked for.
const LAST_WAIT: Duration = Duration::from_secs(2);

/// What is told to a thread from outside.
pub struct Mailbox {
    arrivals: Mutex<Vec<(TcpStream, Seat)>>,
    waker: Arc<Waker>,
    is_ending: AtomicBool,
    /// The connections that it has, or will have.
    count: AtomicUsize,
}

impl Mailbox {
    pub fn count(&self) -> usize {
        self.count.load(SeqCst)
    }

    pub fn hand(&self, socket: TcpStream, seat: Seat) -> io::Result<()> {
        self.count.fetch_add(1, SeqCst);
        lock(&self.arrivals).push((socket, seat));
        self.waker.wake()
    }

    /// Asks for the end: what has come is answered, and nothing more.
    pub fn end(&self) -> io::Result<()> {
        self.is_ending.store(true, SeqCst);
        self.waker.wake()
    }
}

pub struct EventLoop {
    poll: Poll,
    pub mailbox: Arc<Mailbox>,
    shop: Shop,
    connections: Vec<Option<Connection>>,
    free: Vec<usize>,
    queue: VecDeque<usize>,
    /// Those whose clients leave replies unread, or send on after the last one, and when they were looked at.
    stuck: Vec<usize>,
    looked: Instant,
    /// How often somebody was sent away when this thread looked whether it was one of its own.
    seen_away: u64,
    end: Option<Instant>,
}

impl EventLoop {
    pub fn new(desk: Desk) -> io::Result<EventLoop> {
        let poll = Poll::new()?;
        let waker = Arc::new(Waker::new(poll.registry(), WAKE)?);
        desk.seats.wakes(&waker);
        let (arrivals, is_ending, count) = Default::default();
        let mailbox = Arc::new(Mailbox { arrivals, waker, is_ending, count });
        let (shop, looked) = (Shop::new(desk), Instant::now());
        let (connections, free, queue, stuck, seen_away, end) = Default::default();
        Ok(EventLoop { poll, mailbox, shop, connections, free, queue, stuck, looked, seen_away, end })
    }

    pub fn run(mut self) -> io::Result<()> {
        let mut events = Events::with_capacity(READY);
        while !self.is_over() {
            match self.poll.poll(&mut events, self.patience()) {
                Err(error) if error.kind() == ErrorKind::Interrupted => continue,
                done => done?,
            }
            for event in &events {
                match event.token() {
                    WAKE => self.read_mail()?,
                    Token(place) => {
                        if let Some(Some(connection)) = self.connections.get_mut(place) {
                            connection.note(event);
                            self.queue(place);
                        }
                    }
                }
            }
            // Each that waits by now has a turn.
            for _ in 0..self.queue.len() {
                let Some(place) = self.queue.pop_front() else { break };
                self.give_turn(place);
            }
            self.close_stuck();
        }
        self.connections.iter_mut().flatten().for_each(|it| it.finish(&mut self.shop.desk));
        Ok(())
    }

    fn is_over(&self) -> bool {
        let is_empty = self.connections.len() == self.free.len();
        self.end.is_some_and(|end| is_empty || Instant::now() >= end)
    }

    /// How long nothing but an event gives it something to do.
    fn patience(&self) -> Option<Duration> {
        match (self.queue.is_empty(), self.end) {
            (false, _) => Some(Duration::ZERO),
            (true, Some(end)) => Some(end.saturating_duration_since(Instant::now())),
            (true, None) if !self.is_looking() => None,
            (true, None) => Some(LOOK_EVERY),
        }
    }

    fn read_mail(&mut self) -> io::Result<()> {
        let arrivals = mem::take(&mut *lock(&self.mailbox.arrivals));
        for (mut socket, seat) in arrivals {
            let place = self.free.pop().unwrap_or_else(|| {
                self.connections.push(None);
                self.connections.len() - 1
            });
            let interest = Interest::READABLE | Interest::WRITABLE;
            // A socket that can't be watched is closed.
            let is_watched = self.poll.registry().register(&mut socket, Token(place), interest).is_ok();
            self.connections[place] = is_watched.then(|| Connection::new(socket, seat, &self.shop.desk));
            if !is_watched {
                self.give_back(place);
            }
        }
        let times = self.shop.desk.seats.times_sent_away();
        if mem::replace(&mut self.seen_away, times) != times {
            // One that sent itself away was answered in its turn.
            self.close_all(Connection::is_sent_away);
        }
        if self.mailbox.is_ending.load(SeqCst) && self.end.is_none() {
            self.end = Some(Instant::now() + LAST_WAIT);
            self.connections.iter_mut().flatten().for_each(Connection::end);
            (0..self.connections.len()).for_each(|place| self.queue(place));
        }
        Ok(())
    }

    fn close_all(&mut self, is_over: impl Fn(&Connection) -> bool) {
        for place in 0..self.connections.len() {
            if self.connections[place].as_ref().is_some_and(&is_over) {
                self.close(place);
            }
        }
    }

    fn queue(&mut self, place: usize) {
        if self.connections[place].as_mut().is_some_and(|it| !mem::replace(&mut it.is_queued, true)) {
            self.queue.push_back(place);
        }
    }

    fn give_turn(&mut self, place: usize) {
        let Some(connection) = &mut self.connections[place] else { return };
        connection.is_queued = false;
        let was_stuck = connection.is_stuck() || connection.is_lingering();
        // An error of its socket ends a connection, and nothing else.
        let after = connection.turn(&mut self.shop).unwrap_or(After::Over);
        let is_stuck = connection.is_stuck();
        let is_last = self.end.is_some() && after == After::Waits && !is_stuck;
        if after == After::Over || is_last {
            return self.close(place);
        }
        if (is_stuck || connection.is_lingering()) && !was_stuck {
            self.stuck.push(place);
        }
        if after == After::Again {
            self.queue(place);
        }
        if self.shop.desk.seats.is_crowded() {
            self.close_largest();
        }
    }

    /// All connections hold more than they may: the one that holds the most of this thread's goes, where it holds much.
    fn close_largest(&mut self) {
        let burdens = self.connections.iter().enumerate();
        let burdens = burdens.filter_map(|(place, it)| Some((it.as_ref()?.burden(), place)));
        let Some((_, place)) = burdens.filter(|((_, held), _)| *held >= MUCH).max() else { return };
        if self.connections[place].as_mut().is_some_and(Connection::turn_out) {
            self.stuck.push(place);
            self.queue(place);
        } else {
            self.close(place);
        }
    }

    /// Whether there is somebody who may be given up for lack of time.
    fn is_looking(&self) -> bool {
        let has_timeout = self.shop.desk.settings.timeout.is_some();
        !self.stuck.is_empty() || has_timeout && self.connections.len() > self.free.len()
    }

    /// Now and then closes those whose clients left their replies unread for too long, or are silent for too long.
    fn close_stuck(&mut self) {
        if !self.is_looking() || self.looked.elapsed() < LOOK_EVERY {
            return;
        }
        self.looked = Instant::now();
        for place in mem::take(&mut self.stuck) {
            match &self.connections[place] {
                Some(connection) if connection.is_given_up() => self.close(place),
                Some(connection) if connection.is_stuck() || connection.is_lingering() => self.stuck.push(place),
                _ => {}
            }
        }
        if let Some(timeout) = self.shop.desk.settings.timeout {
            self.close_all(|it| it.is_silent(timeout));
        }
    }

    fn close(&mut self, place: usize) {
        if let Some(mut connection) = self.connections[place].take() {
            connection.finish(&mut self.shop.desk);
            let _ = self.poll.registry().deregister(&mut connection.socket);
        }
        self.give_back(place);
    }

    fn give_back(&mut self, place: usize) {
        self.free.push(place);
        self.mailbox.count.fetch_sub(1, SeqCst);
    }
}
