//! A slow model of one owner's queue, for the tests: a list of entries and a list of words, searched at each call.
//!
//! It is written from what the calls promise and shares no code with the queue. What the calls leave open it is told:
//! which free slot an insert takes, which of equal deadlines comes out first, and which of the entries that are filed
//! there were reaped or filed anew before it. Of a poll in pieces it is told how far the wheel came and where each entry
//! is filed then.

use hontkhale::parts::owner::{CallError, CoreError, EntryId, Key, Look};

/// The last tick, as the tests' tables have it.
pub const LAST: u64 = 4398046511103;

// The furthest from its tick that an entry is filed.
const REACH: u64 = 68719476735;

// The span of a slot of each of the five lower levels, beside that of the level above it.
const SPANS: [(u64, u64); 5] = [
    (1, 64),
    (64, 4096),
    (4096, 262144),
    (262144, 16777216),
    (16777216, 1073741824),
];

/// A linked entry.
#[derive(Clone, Copy)]
pub struct Linked {
    pub id: EntryId,
    pub value: u64,
    filed: u64,
}

// The word of a slot.
#[derive(Clone, Copy)]
struct Word {
    stamp: u32,
    look: Look,
}

/// What a poll may answer.
pub enum Expected {
    /// One of the entries that are live at the tick.
    SomeDue,
    /// Nothing is due before the wake.
    Waits { next: u64 },
    /// Nothing is linked.
    Empty,
}

/// How many entries came and went.
#[derive(Clone, Copy)]
pub struct Totals {
    pub inserted: u64,
    pub expired: u64,
    pub removed: u64,
    pub cancelled: u64,
}

/// The model of a queue.
pub struct SlowQueue {
    shard: u32,
    last_stamp: u32,
    pub tick: u64,
    pub noted: u64,
    pub totals: Totals,
    /// How often entries came to a slot of a lower level.
    pub moved: u64,
    words: Vec<Word>,
    linked: Vec<Linked>,
}

fn one_more(count: u64) -> u64 {
    count.saturating_add(1)
}

// When the wheel has to look at an entry that is filed there, by the slot in which it stands at a tick.
fn wake(tick: u64, filed: u64) -> u64 {
    for (span, wider) in SPANS {
        if tick.checked_div(wider) == filed.checked_div(wider) {
            return filed.saturating_sub(filed.checked_rem(span).unwrap_or(0));
        }
    }
    filed.saturating_sub(filed % 1073741824)
}

// How often an entry that is filed there comes to a slot of a lower level while the wheel goes from one tick to
// another. To come due is no move.
fn moves_on_the_way(from: u64, to: u64, filed: u64) -> u64 {
    let mut at = from;
    let mut moves = 0u64;
    for _level in SPANS {
        let start = wake(at, filed);
        if start > to || start >= filed {
            return moves;
        }
        at = start;
        moves = one_more(moves);
    }
    moves
}

fn is_cancelled(words: &[Word], id: EntryId) -> bool {
    match words.get(id.index() as usize) {
        Some(word) => word.look == Look::LookCancelled,
        None => false,
    }
}

impl SlowQueue {
    /// An empty queue at tick 0.
    pub fn new(shard: u32, capacity: usize, last_stamp: u32) -> SlowQueue {
        let unused = Word {
            stamp: 0,
            look: Look::StillLive(0),
        };
        SlowQueue {
            shard,
            last_stamp,
            tick: 0,
            noted: 0,
            totals: Totals {
                inserted: 0,
                expired: 0,
                removed: 0,
                cancelled: 0,
            },
            moved: 0,
            words: vec![unused; capacity],
            linked: Vec::with_capacity(capacity),
        }
    }

    /// How many entries are linked.
    pub fn len(&self) -> usize {
        self.linked.len()
    }

    /// How many slots hold nothing at the last stamp.
    pub fn worn(&self) -> usize {
        let mut worn = 0usize;
        for (index, word) in self.words.iter().enumerate() {
            if word.stamp == self.last_stamp && self.at((index & 65535) as u32).is_none() {
                worn = worn.saturating_add(1);
            }
        }
        worn
    }

    /// The entry that is linked at an index.
    pub fn at(&self, index: u32) -> Option<Linked> {
        for entry in &self.linked {
            if entry.id.index() == index {
                return Some(*entry);
            }
        }
        None
    }

    /// The linked entry of that number, in an order of the model's own.
    pub fn nth(&self, number: usize) -> Option<Linked> {
        self.linked.get(number).copied()
    }

    fn word(&self, index: u32) -> Option<Word> {
        self.words.get(index as usize).copied()
    }

    fn set_word(&mut self, index: u32, stamp: u32, look: Look) {
        if let Some(word) = self.words.get_mut(index as usize) {
            *word = Word { stamp, look };
        }
    }

    fn unlink(&mut self, id: EntryId) {
        self.linked.retain(|entry| entry.id != id);
    }

    // The list has room for each index from the start on.
    fn link(&mut self, id: EntryId, value: u64, deadline: u64) {
        let filed = deadline.min(self.tick.saturating_add(REACH));
        self.linked.push(Linked { id, value, filed });
    }

    /// Why an insert is refused.
    pub fn insert_refusal(&self, when: u64) -> Option<CoreError> {
        if when > LAST {
            return Some(CoreError::TooFar { limit: LAST });
        }
        let (linked, worn) = (self.len(), self.worn());
        if linked.saturating_add(worn) == self.words.len() {
            return Some(CoreError::Full { linked, worn });
        }
        None
    }

    /// An insert into a slot; the key, where that slot is free.
    pub fn insert(&mut self, index: u32, value: u64, when: u64) -> Option<Key> {
        let word = self.word(index)?;
        if word.stamp >= self.last_stamp || self.at(index).is_some() {
            return None;
        }
        let stamp = word.stamp.saturating_add(1);
        let id = EntryId::new(self.shard, index, stamp);
        let deadline = when.max(self.tick);
        self.set_word(index, stamp, Look::StillLive(deadline));
        self.link(id, value, deadline);
        self.totals.inserted = one_more(self.totals.inserted);
        Some(Key::new(id, stamp))
    }

    // The word and the entry that an id names, and its deadline in force.
    fn live(&self, id: &EntryId) -> Result<(Word, Linked, u64), CoreError> {
        let Some(entry) = self.at(id.index()) else {
            return Err(CoreError::Missing);
        };
        if entry.id != *id {
            return Err(CoreError::Missing);
        }
        match self.word(id.index()) {
            Some(word) => match word.look {
                Look::StillLive(deadline) => Ok((word, entry, deadline)),
                _ => Err(CoreError::WasCancelled),
            },
            None => Err(CoreError::Missing),
        }
    }

    /// What `deadline` answers.
    pub fn deadline(&self, id: &EntryId) -> Result<u64, CoreError> {
        let (_, _, deadline) = self.live(id)?;
        Ok(deadline)
    }

    /// A removal: the key, the deadline and the value.
    pub fn remove(&mut self, id: &EntryId) -> Result<(Key, u64, u64), CoreError> {
        let (word, entry, deadline) = self.live(id)?;
        self.set_word(id.index(), word.stamp, Look::LookRemoved(deadline));
        self.unlink(*id);
        self.totals.removed = one_more(self.totals.removed);
        Ok((Key::new(*id, word.stamp), deadline, entry.value))
    }

    /// A reset: the new key.
    pub fn reset(&mut self, id: &EntryId, when: u64) -> Result<Key, CoreError> {
        if when > LAST {
            return Err(CoreError::TooFar { limit: LAST });
        }
        let (word, entry, _) = self.live(id)?;
        if word.stamp >= self.last_stamp {
            return Err(CoreError::Worn);
        }
        let stamp = word.stamp.saturating_add(1);
        let deadline = when.max(self.tick);
        self.set_word(id.index(), stamp, Look::StillLive(deadline));
        self.unlink(*id);
        self.link(*id, entry.value, deadline);
        Ok(Key::new(*id, stamp))
    }

    // The word that a key names, where it has the key's stamp.
    fn named(&self, key: &Key) -> Result<Word, CallError> {
        let id = key.entry();
        let Some(word) = self.word(id.index()) else {
            return Err(CallError::Unknown);
        };
        if id.shard() != self.shard || key.stamp() == 0 || key.stamp() > word.stamp {
            return Err(CallError::Unknown);
        }
        if key.stamp() < word.stamp {
            return Err(CallError::Stale { seen: word.stamp });
        }
        Ok(word)
    }

    /// What `look` answers.
    pub fn look(&self, key: &Key) -> Result<Look, CallError> {
        let word = self.named(key)?;
        Ok(word.look)
    }

    /// An extend: the deadline in force after it.
    pub fn extend(&mut self, key: &Key, when: u64) -> Result<u64, CallError> {
        if when > LAST {
            return Err(CallError::TooFar { limit: LAST });
        }
        let word = self.named(key)?;
        match word.look {
            Look::StillLive(deadline) => {
                let later = when.max(deadline);
                self.set_word(key.entry().index(), word.stamp, Look::StillLive(later));
                Ok(later)
            }
            how => Err(CallError::Ended { how }),
        }
    }

    /// A cancel: the deadline that was given up.
    pub fn cancel(&mut self, key: &Key) -> Result<u64, CallError> {
        let word = self.named(key)?;
        match word.look {
            Look::StillLive(deadline) => {
                self.set_word(key.entry().index(), word.stamp, Look::LookCancelled);
                Ok(deadline)
            }
            how => Err(CallError::Ended { how }),
        }
    }

    // Reaps the cancelled entries that are filed up to that tick.
    fn reap_filed(&mut self, latest: u64) -> usize {
        let before = self.linked.len();
        let words = &self.words;
        self.linked
            .retain(|entry| entry.filed > latest || !is_cancelled(words, entry.id));
        let reaped = before.saturating_sub(self.linked.len());
        self.totals.cancelled = self.totals.cancelled.saturating_add(reaped as u64);
        reaped
    }

    /// What `sweep` answers.
    pub fn sweep(&mut self) -> usize {
        self.reap_filed(LAST)
    }

    /// What `clear` answers.
    pub fn clear(&mut self) -> usize {
        self.sweep();
        let mut removed = 0usize;
        for _turn in 0..self.linked.len() {
            if let Some(entry) = self.nth(0) {
                if self.remove(&entry.id).is_ok() {
                    removed = removed.saturating_add(1);
                }
            }
        }
        removed
    }

    /// Notes the tick of a poll.
    pub fn note(&mut self, tick: u64) -> Result<(), CoreError> {
        if tick > LAST {
            return Err(CoreError::TickTooLarge { limit: LAST });
        }
        self.noted = self.noted.max(tick);
        Ok(())
    }

    // Whether a live entry is due at the tick at its deadline.
    fn is_due(&self) -> bool {
        let mut filed_here = self.linked.iter().filter(|entry| entry.filed == self.tick);
        filed_here.any(|entry| self.deadline(&entry.id) == Ok(self.tick))
    }

    // Where a live entry is filed anew at the tick that is due before its deadline.
    fn filed_anew(&self, id: &EntryId) -> Option<u64> {
        let deadline = self.deadline(id).ok()?;
        Some(deadline.min(self.tick.saturating_add(REACH)))
    }

    // Files each live entry anew that is due at the tick before its deadline.
    fn settle(&mut self) {
        for place in 0..self.linked.len() {
            let entry = self.linked[place];
            if entry.filed == self.tick {
                self.linked[place].filed = self.filed_anew(&entry.id).unwrap_or(entry.filed);
            }
        }
    }

    // The wheel goes on to a tick; entries move down on the way.
    fn pass(&mut self, tick: u64) {
        for entry in &self.linked {
            let moves = moves_on_the_way(self.tick, tick, entry.filed);
            self.moved = self.moved.saturating_add(moves);
        }
        self.tick = tick;
    }

    /// Goes on until an entry is due at its deadline, or nothing is filed up to the noted tick.
    pub fn go_on(&mut self) -> Expected {
        for _turn in 0..u64::MAX {
            let Some(filed) = self.least() else {
                self.pass(self.noted);
                return Expected::Empty;
            };
            if filed > self.noted {
                self.pass(self.noted);
                let next = self.next_wake().unwrap_or(0);
                return Expected::Waits { next };
            }
            self.pass(filed);
            if self.is_due() {
                return Expected::SomeDue;
            }
            self.settle();
            self.reap_filed(filed);
        }
        Expected::Empty
    }

    /// Takes out the entry of a key, where it is live at the tick; its value.
    pub fn take_out(&mut self, key: &Key) -> Option<u64> {
        let id = key.entry();
        let Ok((word, entry, deadline)) = self.live(&id) else {
            return None;
        };
        if word.stamp != key.stamp() || deadline != self.tick {
            return None;
        }
        self.set_word(id.index(), word.stamp, Look::LookExpired(deadline));
        self.unlink(id);
        self.totals.expired = one_more(self.totals.expired);
        Some(entry.value)
    }

    /// Reaps an entry that a poll met on its way, where it is cancelled and filed at the tick.
    pub fn reap_here(&mut self, id: EntryId) -> bool {
        let Some(entry) = self.at(id.index()) else {
            return false;
        };
        let is_met = entry.id == id && entry.filed == self.tick && is_cancelled(&self.words, id);
        if is_met {
            self.unlink(id);
            self.totals.cancelled = one_more(self.totals.cancelled);
        }
        is_met
    }

    /// Files an entry anew that a poll met on its way, where it is live, filed at the tick and due later. One that it
    /// didn't meet stays where it is.
    pub fn file_here(&mut self, id: EntryId, filed: u64) -> bool {
        let anew = self.filed_anew(&id);
        let tick = self.tick;
        let Some(entry) = self.linked.iter_mut().find(|entry| entry.id == id) else {
            return false;
        };
        let is_lawful = filed == entry.filed || (entry.filed == tick && Some(filed) == anew);
        entry.filed = filed;
        is_lawful
    }

    /// The wheel came to a tick: from its own to the noted one, and past no live entry's deadline.
    pub fn come_to(&mut self, tick: u64) -> bool {
        let last = self.least_deadline().map_or(self.noted, |due| due.min(self.noted));
        let is_on_the_way = self.tick <= tick && tick <= last;
        self.tick = tick;
        is_on_the_way
    }

    /// An entry is filed at a tick from now on: from the wheel's tick to its deadline, or, where it is cancelled, to
    /// where it was filed.
    pub fn file(&mut self, id: EntryId, filed: u64) -> bool {
        let deadline = self.deadline(&id);
        let mut is_lawful = false;
        for entry in self.linked.iter_mut() {
            if entry.id == id {
                is_lawful = self.tick <= filed && filed <= deadline.unwrap_or(entry.filed);
                entry.filed = filed;
            }
        }
        is_lawful
    }

    /// Reaps an entry that a piece of a poll met on its way, where it is cancelled.
    pub fn reap(&mut self, id: EntryId) -> bool {
        let is_met = is_cancelled(&self.words, id);
        if is_met {
            self.unlink(id);
            self.totals.cancelled = one_more(self.totals.cancelled);
        }
        is_met
    }

    /// The least deadline in force of a live entry.
    pub fn least_deadline(&self) -> Option<u64> {
        let mut least: Option<u64> = None;
        for entry in &self.linked {
            if let Ok(deadline) = self.deadline(&entry.id) {
                least = Some(least.map_or(deadline, |other| other.min(deadline)));
            }
        }
        least
    }

    /// The key of an entry that is live at the tick.
    pub fn due(&self) -> Option<Key> {
        for entry in &self.linked {
            if let Ok((word, _, deadline)) = self.live(&entry.id) {
                if deadline == self.tick {
                    return Some(Key::new(entry.id, word.stamp));
                }
            }
        }
        None
    }

    /// The next wake.
    pub fn next_wake(&self) -> Option<u64> {
        let mut next: Option<u64> = None;
        for entry in &self.linked {
            let at = wake(self.tick, entry.filed);
            next = Some(next.map_or(at, |least| least.min(at)));
        }
        next
    }

    /// The least tick at which an entry is filed.
    pub fn least(&self) -> Option<u64> {
        let mut least: Option<u64> = None;
        for entry in &self.linked {
            least = Some(least.map_or(entry.filed, |filed| filed.min(entry.filed)));
        }
        least
    }
}
