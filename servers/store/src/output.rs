//! The replies of a connection until its socket takes them.

use crate::resp::{Protocol, Reply, END};
use std::io::{self, ErrorKind, Write};
use std::sync::Arc;

/// A value that is at least so long isn't copied: it is held until it is sent.
const LONG: usize = 16 << 10;
/// Once so much waits to be sent no further request is answered.
const ENOUGH: usize = 64 << 10;

#[derive(Default)]
pub struct Output {
    bytes: Vec<u8>,
    /// What is sent of the bytes.
    sent: usize,
    /// A value that comes after the bytes, and what is sent of it.
    long: Option<(Arc<[u8]>, usize)>,
    pub protocol: Protocol,
}

impl Output {
    pub fn reply(&mut self, reply: &Reply) {
        self.long = reply.write(&mut self.bytes, self.protocol, LONG).map(|value| (value, 0));
    }

    /// Whether nothing may be added before something is sent.
    pub fn is_full(&self) -> bool {
        self.long.is_some() || self.bytes.len() - self.sent >= ENOUGH
    }

    pub fn is_empty(&self) -> bool {
        self.long.is_none() && self.bytes.len() == self.sent
    }

    pub fn held(&self) -> usize {
        self.bytes.capacity() + self.long.as_ref().map_or(0, |(value, _)| value.len())
    }

    pub fn clear(&mut self) {
        self.bytes.clear();
        (self.sent, self.long) = (0, None);
    }

    /// Takes the room of another output to write into, and leaves it its own.
    pub fn swap_room(&mut self, room: &mut Vec<u8>) {
        std::mem::swap(&mut self.bytes, room);
    }

    /// Sends what the socket takes. The answer is how much that was; all is sent where it is empty then.
    pub fn send(&mut self, to: &mut impl Write) -> io::Result<usize> {
        let mut total = 0;
        while let Some(piece) = self.piece() {
            let count = match to.write(piece) {
                Ok(0) => return Err(ErrorKind::WriteZero.into()),
                Ok(count) => count,
                Err(error) if error.kind() == ErrorKind::WouldBlock => break,
                Err(error) if error.kind() == ErrorKind::Interrupted => 0,
                Err(error) => return Err(error),
            };
            self.take_off(count);
            total += count;
        }
        Ok(total)
    }

    fn piece(&self) -> Option<&[u8]> {
        match &self.long {
            _ if self.sent < self.bytes.len() => Some(&self.bytes[self.sent..]),
            Some((value, sent)) => Some(&value[*sent..]),
            None => None,
        }
    }

    fn take_off(&mut self, count: usize) {
        if self.sent < self.bytes.len() {
            self.sent += count;
        } else if let Some((value, sent)) = &mut self.long {
            *sent += count;
            if *sent == value.len() {
                self.long = None;
                self.bytes.extend_from_slice(END);
            }
        }
        if self.sent == self.bytes.len() {
            self.bytes.clear();
            self.sent = 0;
        }
    }
}
