//! The jobs that are due and wait for a holder, and the kinds of which none may be given out.

use crate::enter;
use crate::partitions::{Partitions, Waiting};
use std::cmp::Reverse;
use std::collections::{BTreeSet, HashMap, HashSet};
use std::sync::{Arc, Mutex};
use tokio::sync::Notify;
use tokio::time::{timeout_at, Instant};

/// The most kinds that a worker tells the others, and what it says after them where it has more.
const TOLD: usize = 100;
pub const MORE: &str = "*";

/// The order in which jobs of a kind are given out: by priority, due time and id.
type Place = (Reverse<i16>, i64, i64);

/// What the table says of kinds.
pub struct Kinds {
    /// None of them may begin.
    pub paused: Vec<String>,
    /// Some at a time may run, which the table counts.
    pub bounded: Vec<String>,
    /// None of them may begin, since so many run.
    full: Vec<String>,
}

impl Kinds {
    /// As `READ` tells them, each behind a mark.
    pub fn of(words: Vec<&str>) -> Kinds {
        let of = |marks: &[char]| words.iter().filter_map(|it| it.strip_prefix(marks)).map(str::to_owned).collect();
        Kinds { paused: of(&['-']), bounded: of(&['<', '=']), full: of(&['=']) }
    }
}

#[derive(Default)]
struct State {
    jobs: HashMap<Arc<str>, BTreeSet<Place>>,
    bounded: Vec<String>,
    /// Of these kinds none is given out, until the table is read again.
    closed: HashSet<String>,
}

#[derive(Default)]
pub struct Ready {
    state: Mutex<State>,
    /// Wakes one of those who take any kind.
    filled: Notify,
    /// Wakes all who wait for some kinds, which each looks for.
    filled_for_kinds: Notify,
}

impl Ready {
    pub fn push(&self, jobs: impl IntoIterator<Item = Waiting>) {
        let mut ready = enter(&self.state);
        for it in jobs {
            ready.jobs.entry(it.kind).or_default().insert((Reverse(it.priority), it.due, it.id));
        }
        drop(ready);
        self.wake();
    }

    fn wake(&self) {
        self.filled.notify_one();
        self.filled_for_kinds.notify_waiters();
    }

    /// Keeps to what the table says of kinds.
    pub fn keep_to(&self, kinds: &Kinds) {
        let mut ready = enter(&self.state);
        kinds.paused.iter().for_each(|it| drop(ready.jobs.remove(&it[..])));
        let closed: HashSet<String> = kinds.paused.iter().chain(&kinds.full).cloned().collect();
        let has_opened = ready.closed.iter().any(|it| !closed.contains(it));
        (ready.bounded, ready.closed) = (kinds.bounded.clone(), closed);
        drop(ready);
        if has_opened {
            self.wake();
        }
    }

    /// The kinds of which some at a time may run.
    pub fn bounded(&self) -> Vec<String> {
        enter(&self.state).bounded.clone()
    }

    /// The table gave none of a job of a kind: where it is bounded, so many run.
    pub fn note_refused(&self, kind: &str) {
        let mut ready = enter(&self.state);
        if ready.bounded.iter().any(|it| it == kind) {
            ready.closed.insert(kind.to_owned());
        }
    }

    /// The kinds of which jobs wait for a holder: a hundred of them at most, and a word where there are more.
    pub fn kinds(&self) -> Vec<String> {
        let ready = enter(&self.state);
        let mut kinds = ready.jobs.keys().filter(|it| !ready.closed.contains(&it[..])).map(|it| it.to_string());
        let mut told: Vec<String> = kinds.by_ref().take(TOLD).collect();
        told.extend(kinds.next().map(|_| MORE.to_owned()));
        told
    }

    /// At most so many jobs of some kinds, of any where none is named, that may be given to a holder, and at least one
    /// where one comes in time: the id of each, and its kind.
    pub async fn take(
        &self,
        partitions: &Partitions,
        kinds: &[String],
        count: usize,
        until: Instant,
    ) -> Vec<(i64, Arc<str>)> {
        loop {
            // Before the look, so that what comes after the look is heard.
            let filled = if kinds.is_empty() { self.filled.notified() } else { self.filled_for_kinds.notified() };
            let taken = self.pop(partitions, kinds, count);
            if !taken.is_empty() || Instant::now() >= until {
                return taken;
            }
            // Whether it was filled or the time is over is seen above.
            let _ = timeout_at(until, filled).await;
        }
    }

    fn pop(&self, partitions: &Partitions, kinds: &[String], count: usize) -> Vec<(i64, Arc<str>)> {
        let mut ready = enter(&self.state);
        let jobs = std::iter::from_fn(|| ready.pop(kinds));
        let taken: Vec<_> = jobs.filter(|(id, kind)| partitions.may_be_given(*id, kind)).take(count).collect();
        if !ready.jobs.is_empty() && !taken.is_empty() {
            // One word may stand for many jobs: the next who waits is woken by who took some.
            self.filled.notify_one();
        }
        taken
    }
}

impl State {
    /// Takes out the job that is given out first.
    fn pop(&mut self, kinds: &[String]) -> Option<(i64, Arc<str>)> {
        let is_wanted =
            |kind: &str| !self.closed.contains(kind) && (kinds.is_empty() || kinds.iter().any(|it| it[..] == *kind));
        let wanted = self.jobs.iter().filter(|it| is_wanted(it.0));
        let kind = wanted.min_by_key(|it| it.1.first())?.0.clone();
        let places = self.jobs.get_mut(&kind)?;
        let (_, _, id) = places.pop_first()?;
        if places.is_empty() {
            self.jobs.remove(&kind);
        }
        Some((id, kind))
    }
}
