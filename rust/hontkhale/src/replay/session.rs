//! What a script has made so far, and what each command does to it.

use crate::memory::AllocError;
use crate::replay::command::Command;
use crate::replay::header::FIRST_EDITION_LIMIT;
use crate::replay::leases::{Leases, Refusal};
use crate::replay::name::Name;
use crate::replay::texts::{at_text, cancelled_text, cleared_text, live_text, refusal_text, removed_text, tick_text};
use alloc::string::String;

/// A live name with its deadline in force. Leases are in the order of their deadlines, and then of their names.
#[derive(PartialEq, Eq, PartialOrd, Ord)]
pub struct Lease {
    pub deadline: u64,
    pub name: Name,
}

/// The live names with the noted tick, and the last tick that the script's edition knows.
pub struct Session {
    limit: u64,
    leases: Leases,
}

impl Session {
    pub fn new(capacity: usize) -> Result<Session, AllocError> {
        // requires 0 < capacity
        // requires capacity ≤ CAPACITY_LIMIT
        Ok(Session {
            limit: FIRST_EDITION_LIMIT,
            leases: Leases::new(capacity)?,
        })
    }

    /// Sets the last tick that the script's edition knows.
    pub fn set_limit(&mut self, limit: u64) {
        // requires limit ≤ LAST_TICK
        self.limit = limit;
    }

    /// Does a command, and gives the text of its answer.
    pub fn answer(&mut self, command: Command) -> Result<String, AllocError> {
        // requires self.old.given < LAST_STAMP
        match command {
            Command::Insert { name, when } => self.insert(name, when),
            Command::Reset { name, when } => self.reset(&name, when),
            Command::Extend { name, when } => self.extend(&name, when),
            Command::Cancel { name } => self.cancel(&name),
            Command::Remove { name } => self.remove(&name),
            Command::Deadline { name } => self.deadline(&name),
            Command::Live => self.live(),
            Command::Clear => self.clear(),
            Command::Tick { to } => self.tick(to),
        }
    }

    fn insert(&mut self, name: Name, when: u64) -> Result<String, AllocError> {
        // requires self.old.given < LAST_STAMP
        if self.leases.is_live(&name) {
            return refusal_text("name-taken");
        }
        if when > self.limit {
            return refusal_text("too-far");
        }
        if self.leases.len() >= self.leases.capacity() {
            return refusal_text("full");
        }
        let deadline = when.max(self.leases.noted());
        let text = at_text(&name, deadline)?;
        self.leases.insert(name, deadline)?;
        Ok(text)
    }

    fn reset(&mut self, name: &Name, when: u64) -> Result<String, AllocError> {
        // requires self.old.given < LAST_STAMP
        match self.leases.reset(name, when, self.limit) {
            Ok(deadline) => at_text(name, deadline),
            Err(Refusal::Missing) => refusal_text("missing"),
            Err(Refusal::TooFar) => refusal_text("too-far"),
        }
    }

    fn extend(&mut self, name: &Name, when: u64) -> Result<String, AllocError> {
        match self.leases.extend(name, when, self.limit) {
            Ok(deadline) => at_text(name, deadline),
            Err(Refusal::Missing) => refusal_text("missing"),
            Err(Refusal::TooFar) => refusal_text("too-far"),
        }
    }

    fn cancel(&mut self, name: &Name) -> Result<String, AllocError> {
        match self.leases.cancel(name) {
            None => refusal_text("missing"),
            Some(deadline) => cancelled_text(name, deadline),
        }
    }

    fn remove(&mut self, name: &Name) -> Result<String, AllocError> {
        match self.leases.remove(name) {
            None => refusal_text("missing"),
            Some(deadline) => removed_text(name, deadline),
        }
    }

    fn deadline(&mut self, name: &Name) -> Result<String, AllocError> {
        match self.leases.deadline(name) {
            None => refusal_text("missing"),
            Some(deadline) => at_text(name, deadline),
        }
    }

    fn live(&mut self) -> Result<String, AllocError> {
        live_text(self.leases.len())
    }

    fn clear(&mut self) -> Result<String, AllocError> {
        let count = self.leases.clear();
        cleared_text(count)
    }

    fn tick(&mut self, to: u64) -> Result<String, AllocError> {
        if to > self.limit {
            return refusal_text("tick-too-large");
        }
        let now = self.leases.noted().max(to);
        let due = self.leases.tick(now)?;
        tick_text(&due, now)
    }
}
