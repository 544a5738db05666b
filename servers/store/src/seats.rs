//! The places of connections, and the memory that all of them may hold together.

use crate::lock;
use mio::Waker;
use std::collections::BTreeMap;
use std::net::SocketAddr;
use std::sync::atomic::{AtomicBool, AtomicU64, AtomicUsize, Ordering::Relaxed, Ordering::SeqCst};
use std::sync::{Arc, Mutex, MutexGuard};
use std::time::{Duration, Instant};

/// What a connection takes while it waits: its own fields, its place in a table, and what it may keep of its last
/// request.
pub const PER_SEAT: usize = 2 << 10;
/// What is told to those for whom there is no place.
const NO_SEAT: &str = "ERR max number of clients reached";
pub const NO_MEMORY: &str = "OOM the memory for connections is used up";

pub struct Seats {
    pub limit: usize,
    pub room: usize,
    taken: AtomicUsize,
    bytes: AtomicUsize,
    last: AtomicU64,
    /// Who sits on them, by number.
    guests: Mutex<BTreeMap<u64, Arc<Guest>>>,
    /// How often guests were sent away, and what wakes the threads to see whether one is theirs.
    sent_away: AtomicU64,
    wakers: Mutex<Vec<Arc<Waker>>>,
}

/// A connection, as others see it.
pub struct Guest {
    pub id: u64,
    pub address: SocketAddr,
    pub since: Instant,
    /// The milliseconds of its age at which something came last, and the number of its last command. They are told, and
    /// nothing is ordered by them.
    heard: AtomicU64,
    command: AtomicUsize,
    bytes: AtomicUsize,
    name: Mutex<Vec<u8>>,
    is_sent_away: AtomicBool,
}

impl Guest {
    pub fn new(id: u64, address: SocketAddr) -> Arc<Guest> {
        let (heard, command, bytes, name, is_sent_away) = Default::default();
        Arc::new(Guest { id, address, since: Instant::now(), heard, command, bytes, name, is_sent_away })
    }

    fn millis(&self) -> u64 {
        self.since.elapsed().as_millis() as u64
    }

    pub fn hear(&self) {
        self.heard.store(self.millis(), Relaxed);
    }

    pub fn idle(&self) -> Duration {
        Duration::from_millis(self.millis().saturating_sub(self.heard.load(Relaxed)))
    }

    pub fn note_command(&self, number: usize) {
        self.command.store(number, Relaxed);
    }

    pub fn command(&self) -> usize {
        self.command.load(Relaxed)
    }

    pub fn held(&self) -> usize {
        self.bytes.load(SeqCst)
    }

    pub fn name(&self) -> MutexGuard<'_, Vec<u8>> {
        lock(&self.name)
    }

    pub fn is_sent_away(&self) -> bool {
        self.is_sent_away.load(SeqCst)
    }
}

impl Seats {
    pub fn new(limit: usize, room: usize) -> Seats {
        let (taken, bytes, last, guests, sent_away, wakers) = Default::default();
        Seats { limit, room, taken, bytes, last, guests, sent_away, wakers }
    }

    /// Who is connected and isn't sent away, by number.
    pub fn guests(&self) -> Vec<Arc<Guest>> {
        lock(&self.guests).values().filter(|it| !it.is_sent_away()).cloned().collect()
    }

    /// This thread is woken where guests are sent away.
    pub fn wakes(&self, waker: &Arc<Waker>) {
        lock(&self.wakers).push(waker.clone());
    }

    /// Has some guests closed by the threads that serve them.
    pub fn send_away(&self, guests: &[Arc<Guest>]) {
        guests.iter().for_each(|it| it.is_sent_away.store(true, SeqCst));
        self.sent_away.fetch_add(1, SeqCst);
        for waker in lock(&self.wakers).iter() {
            // A thread that can't be woken sees it at its next event.
            let _ = waker.wake();
        }
    }

    pub fn times_sent_away(&self) -> u64 {
        self.sent_away.load(SeqCst)
    }

    pub fn taken(&self) -> usize {
        self.taken.load(SeqCst)
    }

    pub fn bytes(&self) -> usize {
        self.bytes.load(SeqCst)
    }

    /// Whether all connections hold more than they may. One of them has to go then.
    pub fn is_crowded(&self) -> bool {
        self.bytes() > self.room
    }
}

/// The place of a connection. It is given back where it is dropped, with all that it holds.
pub struct Seat {
    seats: Arc<Seats>,
    pub guest: Arc<Guest>,
}

impl Seat {
    /// A place for a new connection, or what its client is told where there is none.
    pub fn take(seats: &Arc<Seats>, address: SocketAddr) -> Result<Seat, &'static str> {
        // No other connection ever has the number.
        let id = seats.last.fetch_add(1, SeqCst) + 1;
        let seat = Seat { seats: seats.clone(), guest: Guest::new(id, address) };
        if seats.taken.fetch_add(1, SeqCst) >= seats.limit {
            return Err(NO_SEAT);
        }
        seat.hold(PER_SEAT);
        if seats.is_crowded() {
            return Err(NO_MEMORY);
        }
        lock(&seats.guests).insert(id, seat.guest.clone());
        Ok(seat)
    }

    /// Says how much the connection holds from now on.
    pub fn hold(&self, bytes: usize) {
        let held = self.guest.held();
        if bytes != held {
            // What is less than before wraps around, and so does the sum.
            self.seats.bytes.fetch_add(bytes.wrapping_sub(held), SeqCst);
            self.guest.bytes.store(bytes, SeqCst);
        }
    }
}

impl Drop for Seat {
    fn drop(&mut self) {
        lock(&self.seats.guests).remove(&self.guest.id);
        self.seats.bytes.fetch_sub(self.guest.held(), SeqCst);
        self.seats.taken.fetch_sub(1, SeqCst);
    }
}
