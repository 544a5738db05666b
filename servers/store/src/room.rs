//! The memory that keys and values may take: what is counted of them, and what the machine counts as the process's own,
//! which the holes between them are a part of.

use crate::keyspace::NoRoom;
use crate::seats::Seats;
use std::fs::File;
use std::io;
use std::os::unix::fs::FileExt;
use std::sync::atomic::{AtomicUsize, Ordering::SeqCst};
use std::sync::Arc;

/// This part of the room is served however large the process is: where all but a little is gone, what the allocator keeps
/// is free, and may never leave the process.
pub const ALWAYS: usize = 16;

/// The room of all keys and values.
pub struct Room {
    pub most: usize,
    used: AtomicUsize,
    resident: Option<Resident>,
}

impl Room {
    pub fn new(most: usize) -> Room {
        Room { most, used: AtomicUsize::new(0), resident: None }
    }

    /// The same, by which nothing is written either once the process is too large.
    pub fn within(self, resident: Resident) -> Room {
        Room { resident: Some(resident), ..self }
    }

    /// What the process holds, where it is bounded.
    pub fn resident(&self) -> Option<usize> {
        self.resident.as_ref().and_then(|it| it.bytes().ok())
    }

    /// Takes so many bytes in place of others. Nothing is changed where it is refused.
    pub fn take(&self, old: usize, new: usize) -> Result<(), NoRoom> {
        let is_little = self.used.load(SeqCst) + new <= self.most / ALWAYS;
        if !is_little && !self.resident.as_ref().map_or(true, |it| it.has_room(new)) {
            return Err(NoRoom::Process);
        }
        let fitting = |used: usize| Some(used - old + new).filter(|it| new <= old || *it <= self.most);
        self.used.fetch_update(SeqCst, SeqCst, fitting).map(|_| ()).map_err(|_| NoRoom::Memory)
    }

    /// Takes back what was taken last in place of the old bytes.
    pub fn undo(&self, old: usize, new: usize) {
        self.used.fetch_add(old, SeqCst);
        self.give_back(new);
    }

    pub fn give_back(&self, bytes: usize) {
        self.used.fetch_sub(bytes, SeqCst);
    }
}

const STATUS: &str = "/proc/self/status";

/// What the machine counts as the process's own. It is read only where what was written since could be too much.
pub struct Resident {
    told: File,
    /// The most bytes beside those of connections.
    most: usize,
    seats: Arc<Seats>,
    /// What was read last, and what was written since.
    read: AtomicUsize,
    written: AtomicUsize,
}

impl Resident {
    /// At most so many bytes, and beside them what connections hold.
    pub fn new(most: usize, seats: Arc<Seats>) -> io::Result<Resident> {
        let named = |error: io::Error| io::Error::new(error.kind(), format!("{STATUS} can't be read: {error}"));
        let (read, written) = Default::default();
        let resident = Resident { told: File::open(STATUS).map_err(named)?, most, seats, read, written };
        resident.read.store(resident.bytes().map_err(named)?, SeqCst);
        Ok(resident)
    }

    fn bytes(&self) -> io::Result<usize> {
        let mut text = [0; 2048];
        let length = self.told.read_at(&mut text, 0)?;
        let text = String::from_utf8_lossy(&text[..length]);
        let kibibytes = text.lines().find_map(|it| it.strip_prefix("VmRSS:")?.split_whitespace().next()?.parse().ok());
        kibibytes.map(|it: usize| it << 10).ok_or_else(|| io::ErrorKind::InvalidData.into())
    }

    /// Whether so many bytes may be written.
    fn has_room(&self, bytes: usize) -> bool {
        let most = self.most + self.seats.bytes();
        let written = self.written.fetch_add(bytes, SeqCst) + bytes;
        if self.read.load(SeqCst) + written <= most {
            return true;
        }
        // What others write meanwhile counts once more rather than not at all.
        self.written.store(bytes, SeqCst);
        self.bytes().is_ok_and(|read| {
            self.read.store(read, SeqCst);
            read + bytes <= most
        })
    }
}
