//! What a script without faults is answered, by a map of its live names.

use std::collections::{BTreeMap, BTreeSet};
use std::fmt::Write;

/// The state of a script: its live names, each with its deadline, and the greatest tick that was noted.
pub struct Model {
    capacity: usize,
    last_tick: u64,
    noted: u64,
    deadlines: BTreeMap<String, u64>,
    in_order: BTreeSet<(u64, String)>,
}

impl Model {
    pub fn new(capacity: usize, last_tick: u64) -> Self {
        Model {
            capacity,
            last_tick,
            noted: 0,
            deadlines: BTreeMap::new(),
            in_order: BTreeSet::new(),
        }
    }

    /// How many names are live.
    pub fn live(&self) -> usize {
        self.deadlines.len()
    }

    pub fn noted(&self) -> u64 {
        self.noted
    }

    fn end(&mut self, name: &str) -> Option<u64> {
        let deadline = self.deadlines.remove(name)?;
        self.in_order.remove(&(deadline, name.to_owned()));
        Some(deadline)
    }

    fn begin(&mut self, name: &str, deadline: u64) -> String {
        self.deadlines.insert(name.to_owned(), deadline);
        self.in_order.insert((deadline, name.to_owned()));
        format!("{name} at {deadline}\n")
    }

    pub fn insert(&mut self, name: &str, when: u64) -> String {
        if self.deadlines.contains_key(name) {
            "refused name-taken\n".to_owned()
        } else if when > self.last_tick {
            "refused too-far\n".to_owned()
        } else if self.live() == self.capacity {
            "refused full\n".to_owned()
        } else {
            self.begin(name, when.max(self.noted))
        }
    }

    pub fn reset(&mut self, name: &str, when: u64) -> String {
        self.moves(name, when, |_, noted| when.max(noted))
    }

    pub fn extend(&mut self, name: &str, when: u64) -> String {
        self.moves(name, when, |deadline, _| when.max(deadline))
    }

    fn moves(&mut self, name: &str, when: u64, to: impl FnOnce(u64, u64) -> u64) -> String {
        let Some(deadline) = self.deadlines.get(name).copied() else {
            return "refused missing\n".to_owned();
        };
        if when > self.last_tick {
            return "refused too-far\n".to_owned();
        }
        self.end(name);
        self.begin(name, to(deadline, self.noted))
    }

    /// A cancel or a removal.
    pub fn ends(&mut self, name: &str, how: &str) -> String {
        match self.end(name) {
            Some(deadline) => format!("{name} {how} {deadline}\n"),
            None => "refused missing\n".to_owned(),
        }
    }

    pub fn deadline(&self, name: &str) -> String {
        match self.deadlines.get(name) {
            Some(deadline) => format!("{name} at {deadline}\n"),
            None => "refused missing\n".to_owned(),
        }
    }

    pub fn clear(&mut self) -> String {
        let cleared = self.live();
        self.deadlines.clear();
        self.in_order.clear();
        format!("cleared {cleared}\n")
    }

    pub fn tick(&mut self, tick: u64) -> String {
        if tick > self.last_tick {
            return "refused tick-too-large\n".to_owned();
        }
        self.noted = self.noted.max(tick);
        let mut told = String::new();
        while let Some((deadline, name)) = self.in_order.first().cloned() {
            if deadline > self.noted {
                break;
            }
            self.end(&name);
            writeln!(told, "{name} expired {deadline}").expect("a text");
        }
        writeln!(told, "tick {}", self.noted).expect("a text");
        told
    }
}
