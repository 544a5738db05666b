//! A shard: its entries, in a proved store that keeps itself at the right size and tells when to come next; the lock around
//! them; and what is known of them without it.
//!
//! # The order of locks
//! A thread takes a lock only while it holds none but those before it here:
//! 1. `Shared::makes`: the clerk, held while a core is made.
//! 2. A shard's, one at a time. Under it a closure of `get_mut` or `insert_with` may run, and no other code of a program's.
//! 3. Each of these alone, while nobody's code runs: the line of receivers, the deferred values, the queues of a manual
//!    clock.

use crate::bell::{Hint, Rung};
use crate::core::{CoreError, DelayCore, Piece, Removed, Turn};
use crate::delay_queue::dropping::{lose, DropQueue};
use crate::delay_queue::key::Key;
use crate::delay_queue::receive::Step;
use crate::delay_queue::shared::Shared;
use crate::delay_queue::stats::POWERS;
use crate::growing::{Folds, NextDeadline, SizedStore};
use crate::locks::MutexGuard;
use crate::ticks::{self, EntryId};
use crate::words::Keeper;
use std::mem::{self, needs_drop, size_of};
use std::ops::{Deref, DerefMut};
use std::sync::atomic::AtomicU64;
use std::sync::atomic::Ordering::{Relaxed, SeqCst};
use std::thread;

/// About how many bytes the values of the smallest core take.
const LEAST_BYTES: usize = 65_536;
/// How many steps of a poll, and how many slots, are looked at under one lock.
pub(crate) const STEPS: u32 = 256;
const SLOTS: usize = 256;
/// Each so many inserts a shard is looked after.
const INSERTS: u64 = 1_024;

pub(crate) type Core<T> = DelayCore<T, Keeper>;
/// What a poll comes to. An entry that comes out has its key, its deadline and its value.
pub(crate) type Polled<T> = Step<(Key, u64, T)>;

/// The slots of the smallest core: 64, and fewer of large values.
pub(crate) fn least<T>() -> usize {
    (LEAST_BYTES / size_of::<T>().max(1)).clamp(2, 64).next_power_of_two()
}

pub(crate) struct Shard<T> {
    queue: u32,
    /// The shard's place, which its keys have.
    pub at: usize,
    pub entries: SizedStore<T, Keeper>,
    pub folds: Folds<Keeper>,
    pub counts: Counts,
    /// The words that were made, which stay as long as the queue.
    pub words: usize,
    /// Whether values may have been deferred since that was asked last, and whether some were then.
    pub may_have_deferred: bool,
    pub has_deferred: bool,
    /// The hint of the entries, as others read it.
    pub hint: Hint,
}

impl<T> Shard<T> {
    pub fn new(queue: u32, at: usize, hint: Hint) -> Shard<T> {
        Shard {
            queue,
            at,
            entries: SizedStore::new(least::<T>()).expect("a store of no cores"),
            folds: Folds::new(),
            counts: Counts::default(),
            words: 0,
            may_have_deferred: false,
            has_deferred: false,
            hint,
        }
    }

    /// All cores, by their places.
    pub fn cores(&self) -> impl Iterator<Item = &Core<T>> {
        let cores = self.entries.store().cores();
        (0..cores.count()).filter_map(|place| cores.get(place))
    }

    /// How many entries are linked, of which some may be cancelled.
    pub fn linked(&self) -> usize {
        self.cores().map(DelayCore::len).sum()
    }

    /// How many values are deferred.
    pub fn deferred(&self) -> usize {
        self.cores().map(DelayCore::deferred).sum()
    }

    /// How many cancelled entries were freed and dropped.
    pub fn freed(&self) -> u64 {
        self.counts.left - (self.linked() + self.deferred()) as u64
    }

    /// How many slots there are, worn ones among them.
    pub fn slots(&self) -> usize {
        self.cores().map(DelayCore::capacity).sum()
    }

    /// The key of an entry that has a stamp. By its birth it is the one that its insert gave, wherever it has been since.
    #[inline(always)]
    fn named(&self, entry: EntryId, stamp: u32) -> Key {
        Key::of(self.queue, self.at, &ticks::Key::new(entry, stamp))
    }

    /// Notes that an entry left its core for another one.
    #[cold]
    fn note_moved(&mut self) {
        self.counts.moved += 1;
        self.entries.note_left(self.counts.left);
    }

    /// Notes an entry that was put in where there is room, and names it.
    #[inline(always)]
    pub fn came_in(&mut self, inserted: Result<ticks::Key, (CoreError, T)>) -> Key {
        let key = inserted.map_err(|(refused, _)| refused).expect("a free slot");
        self.counts.inserted += 1;
        self.counts.left += 1;
        if self.counts.inserted % INSERTS == 0 {
            self.entries.note_work();
        }
        self.named(key.entry(), key.stamp())
    }

    /// The key that the next insert gives.
    pub fn next_key(&self) -> Key {
        let next = self.entries.store().next_key().expect("a free slot");
        self.named(next.entry(), next.stamp())
    }

    /// Takes a live entry out.
    #[inline(always)]
    pub fn remove(&mut self, entry: &EntryId) -> Result<Removed<T>, CoreError> {
        let removed = self.entries.remove(entry)?;
        self.counts.left -= 1;
        self.entries.note_left(self.counts.left);
        Ok(removed)
    }

    /// Gives an entry another deadline, and gives its key of the present stamp. It is moved where its slot has no stamp left; then
    /// a value that waited for its drop in the slot that it took may come out beside the key. `Full` where no slot is free for it.
    #[inline(always)]
    pub fn reset(&mut self, key: &Key, tick: u64) -> (Result<Key, CoreError>, Option<T>) {
        let entry = key.entry();
        match self.entries.reset_in_place(&entry, tick) {
            // The stamp of another slot would reach whoever is in the first one by then.
            Ok(_) if self.entries.store().place(&entry) != Some(entry) => (Ok(*key), None),
            Ok(renamed) => (Ok(self.named(entry, renamed.stamp())), None),
            Err(CoreError::Worn) => self.reset_elsewhere(key, tick),
            Err(error) => (Err(error), None),
        }
    }

    /// The same of an entry whose slot has no stamp left.
    #[cold]
    fn reset_elsewhere(&mut self, key: &Key, tick: u64) -> (Result<Key, CoreError>, Option<T>) {
        self.entries.finds_room(true);
        let (moved, beside) = self.entries.reset(&key.entry(), tick);
        if moved.is_ok() {
            self.note_moved();
        }
        (moved.map(|_| *key), beside)
    }
}

/// How entries come out.
impl<T> Shard<T> {
    /// Whether no core has more than so many entries, and few of them are cancelled, once so many cancels were accepted.
    #[inline(always)]
    pub fn is_small(&self, most: usize, cancels: u64) -> bool {
        if cancels <= STEPS.into() && self.counts.left <= most as u64 {
            return true;
        }
        // Where more wait than so many a core, some core has more.
        let few = most * self.entries.store().cores().count();
        self.counts.left.saturating_sub(cancels) <= few as u64 && self.has_small_cores(most, cancels)
    }

    /// The same by the cores themselves. Inlined, it would cost each receive from a shard of many entries some more.
    #[inline(never)]
    fn has_small_cores(&self, most: usize, cancels: u64) -> bool {
        let are_few = |linked| cancels.saturating_sub(self.counts.left - linked as u64) <= STEPS.into();
        self.cores().all(|core| core.len() <= most) && (cancels <= STEPS.into() || are_few(self.linked()))
    }

    /// Notes what a poll at a tick came to.
    #[inline(always)]
    pub fn polled(&mut self, piece: Result<Piece<T>, CoreError>, now: u64) -> Polled<T> {
        self.may_have_deferred |= needs_drop::<T>();
        match piece.expect("a tick that isn't beyond the last") {
            Piece::Answer(Turn::Out(out)) => {
                self.counts.came_out(now, out.deadline);
                self.counts.left -= 1;
                self.entries.note_left(self.counts.left);
                let entry = out.key.entry();
                Step::Took((self.named(entry, entry.born()), out.deadline, out.value))
            }
            Piece::Answer(_) => Step::Rests,
            Piece::Working => Step::Works,
        }
    }

    /// A step of a way through the slots of all cores, from the last one to the first: so what is opened meanwhile isn't on it,
    /// and what is taken off keeps none from being looked at. What was cancelled is freed on the way.
    pub fn take_next(&mut self, way: &mut Way) -> Polled<T> {
        let store = self.entries.store();
        let Some(place) = way.place.min(store.cores().count()).checked_sub(1) else {
            return Step::Rests;
        };
        let core = store.cores().get(place).expect("a core before the last");
        let found = core.entry_from(way.slot, SLOTS).map(|entry| entry.index() as usize);
        let next = found.map_or(way.slot + SLOTS, |slot| slot + 1);
        let is_within = next < core.capacity();
        (way.place, way.slot) = if is_within { (place + 1, next) } else { (place, 0) };
        let Some(entry) = found.and_then(|slot| store.entry_from(place, slot, 1)) else {
            return Step::Works;
        };
        match self.remove(&entry) {
            Ok(removed) => Step::Took((self.named(entry, entry.born()), removed.deadline, removed.value)),
            Err(_) => {
                self.reap(&entry);
                Step::Works
            }
        }
    }

    /// Frees an entry where it is found cancelled.
    pub fn reap(&mut self, entry: &EntryId) {
        let _ = self.entries.reap(entry);
        self.may_have_deferred = true;
    }

    /// Frees cancelled entries at the next slots, unless each was looked at since the last of so many cancels. It tells whether
    /// it looked at some.
    pub fn sweep(&mut self, cancels: u64) -> bool {
        let has_looked = self.entries.sweep(cancels);
        self.may_have_deferred |= has_looked;
        has_looked
    }

    /// Takes out a value that is deferred. Its slot is free then.
    pub fn take_deferred(&mut self) -> Option<T> {
        self.may_have_deferred = true;
        let value = self.entries.take_deferred();
        if value.is_some() && self.entries.store().cores().count() > 1 {
            self.entries.note_work();
        }
        value
    }

    /// Moves one of the last entries of cores that drain, which isn't due, into the open one, and tells whether it did. To find
    /// it, many may be looked at.
    pub fn move_straggler(&mut self, now: u64) -> bool {
        let open = self.entries.store().cores().opened();
        let Some(entry) = self.entries.sizing().straggler(self.entries.store()) else {
            return false;
        };
        match self.entries.deadline(&entry) {
            Err(_) => {
                self.reap(&entry);
                // A receiver is to come, and to drop the value.
                self.entries.call_others();
                true
            }
            // It comes out without being moved.
            Ok(deadline) if deadline <= now => false,
            // Another core that is open now may be the entry's own.
            _ if !self.entries.finds_room(true) || self.entries.store().cores().opened() != open => false,
            _ => {
                let moves = self.entries.relocate(&entry, NextDeadline::Same).0.is_ok();
                if moves {
                    self.note_moved();
                }
                moves
            }
        }
    }
}

/// How far a way through all slots of a shard is.
#[derive(Clone, Copy)]
pub(crate) struct Way {
    /// The core's place, and one more.
    place: usize,
    slot: usize,
}

impl Way {
    /// From the last core on.
    pub const BEGIN: Way = Way {
        place: usize::MAX,
        slot: 0,
    };
}

/// What became of a shard's entries. One that is moved isn't counted.
#[derive(Default)]
pub(crate) struct Counts {
    pub inserted: u64,
    pub expired: u64,
    /// Those that came in, less those that came out or were removed: the cancelled ones count.
    pub left: u64,
    pub moved: u64,
    /// By how many ticks one was late at most as it came out, how many were late by which power of two of ticks, and how many
    /// had come out as these were counted anew.
    pub latest: u64,
    pub late: [u64; POWERS],
    pub counted_late: u64,
}

impl Counts {
    /// Counts an entry that came out. Those that weren't late aren't counted as such.
    #[inline(always)]
    pub fn came_out(&mut self, now: u64, deadline: u64) {
        self.expired += 1;
        let late = now.saturating_sub(deadline);
        if late > 0 {
            let power = late.ilog2() as usize;
            self.late[power.min(POWERS - 1)] += 1;
            self.latest = self.latest.max(late);
        }
    }

    /// Adds those of another shard.
    pub fn add(&mut self, other: &Counts) {
        self.inserted += other.inserted;
        self.expired += other.expired;
        self.left += other.left;
        self.counted_late += other.counted_late;
        self.latest = self.latest.max(other.latest);
        for (late, more) in self.late.iter_mut().zip(other.late) {
            *late += more;
        }
    }

    /// Counts those that come out late from now on.
    pub fn begin_late_anew(&mut self) {
        (self.late, self.latest) = ([0; POWERS], 0);
        self.counted_late = self.expired;
    }
}

/// What is known of a shard without its lock, beside its hint. All but the cancels is written as the lock is let go, and nowhere
/// else.
#[derive(Default)]
#[repr(align(128))]
pub(crate) struct Seen {
    /// How many entries came in, less those that came out or were removed: the cancelled ones count. Where it is 0 none waits.
    pub left: AtomicU64,
    /// The number of cancels since which a receiver that has time has nothing to do here.
    quiet_since: AtomicU64,
    /// The cancels that were accepted.
    pub cancels: AtomicU64,
}

impl Seen {
    pub fn cancels(&self) -> u64 {
        self.cancels.load(SeqCst)
    }

    /// Whether a receiver that has time has nothing to do here.
    pub fn is_quiet(&self) -> bool {
        self.quiet_since.load(Relaxed) == self.cancels()
    }
}

/// A shard while its lock is held.
pub(crate) struct Locked<'s, T> {
    /// None once the lock is let go.
    shard: Option<MutexGuard<'s, Shard<T>>>,
    seen: &'s Seen,
    shared: &'s Shared<T>,
}

impl<T> Shared<T> {
    #[inline(always)]
    pub fn lock(&self, at: usize) -> Locked<'_, T> {
        self.locked_at(at, self.shards[at].lock())
    }

    /// A shard whose lock nobody holds.
    #[inline(always)]
    pub fn try_lock(&self, at: usize) -> Option<Locked<'_, T>> {
        let shard = self.shards[at].try_lock()?;
        Some(self.locked_at(at, shard))
    }

    #[inline(always)]
    fn locked_at<'s>(&'s self, at: usize, shard: MutexGuard<'s, Shard<T>>) -> Locked<'s, T> {
        Locked {
            shard: Some(shard),
            seen: &self.common.seen[at],
            shared: self,
        }
    }
}

const IS_HELD: &str = "the lock is held";

impl<T> Deref for Locked<'_, T> {
    type Target = Shard<T>;

    #[inline(always)]
    fn deref(&self) -> &Shard<T> {
        self.shard.as_ref().expect(IS_HELD)
    }
}

impl<T> DerefMut for Locked<'_, T> {
    #[inline(always)]
    fn deref_mut(&mut self) -> &mut Shard<T> {
        self.shard.as_mut().expect(IS_HELD)
    }
}

impl<T> Locked<'_, T> {
    /// Tells those who hold no lock what the shard has come to, lets the lock go and wakes the leader where it was rung. It gives
    /// the panic of the clock or of a waker.
    #[inline(always)]
    pub fn end(mut self) -> thread::Result<()> {
        let (held, seen, shared) = (self.shard.take(), self.seen, self.shared);
        // Nothing is left to be dropped.
        mem::forget(self);
        let Some(mut shard) = held else { return Ok(()) };
        if shard.may_have_deferred {
            note_deferred(&mut shard, &shared.deferred);
        }
        let hint = shard.entries.hint();
        let rung = match shard.hint.tick() == hint {
            true => Rung::Nobody,
            false => shard.hint.set(hint),
        };
        seen.left.store(shard.counts.left, Relaxed);
        let quiet_since = shard.entries.sizing().quiet_since();
        seen.quiet_since.store(quiet_since, Relaxed);
        drop(shard);
        shared.common.ring(rung)
    }
}

/// Notes whether values are deferred, and counts the places where some are.
#[cold]
fn note_deferred<T>(shard: &mut Shard<T>, deferred: &DropQueue<T>) {
    shard.may_have_deferred = false;
    let has_deferred = shard.deferred() > 0;
    if mem::replace(&mut shard.has_deferred, has_deferred) != has_deferred {
        deferred.note_place(has_deferred);
    }
}

impl<T> Drop for Locked<'_, T> {
    /// The same where nobody asks whether a panic came of it, as within one: it is lost.
    #[inline(always)]
    fn drop(&mut self) {
        // Each part goes by value: a guard whose address is asked for lies in memory throughout.
        let shard = self.shard.take();
        drop_unasked(Locked { shard, ..*self });
    }
}

#[inline(never)]
fn drop_unasked<T>(shard: Locked<'_, T>) {
    lose(shard.end());
}

#[cfg(test)]
mod tests {
    use crate::DelayQueue;
    use std::panic::{catch_unwind, AssertUnwindSafe};
    use std::sync::atomic::{AtomicUsize, Ordering::SeqCst};
    use std::sync::Arc;
    use std::task::{Context, Wake, Waker};
    use std::time::Duration;

    #[derive(Default)]
    struct Wakes(AtomicUsize);

    impl Wake for Wakes {
        fn wake(self: Arc<Self>) {
            self.0.fetch_add(1, SeqCst);
        }
    }

    /// A guard that isn't ended may be the one that has the leader to wake.
    #[test]
    fn a_guard_that_is_dropped_wakes_the_leader() {
        for panics in [false, true] {
            let queue = DelayQueue::builder().shards(1).build();
            let key = queue.insert(1, Duration::ZERO).expect("room");
            assert_eq!(queue.remove(&key), Ok(1));
            let (mut task, wakes) = (queue.receiver(), Arc::<Wakes>::default());
            let waker = Waker::from(Arc::clone(&wakes));
            assert!(task.poll_recv(&mut Context::from_waker(&waker)).is_pending());
            let inserts = || {
                let mut shard = queue.shared.lock(0);
                let inserted = shard.entries.insert(2, 5).0;
                shard.came_in(inserted);
                assert!(!panics);
            };
            assert_eq!(catch_unwind(AssertUnwindSafe(inserts)).is_err(), panics);
            assert_eq!(wakes.0.load(SeqCst), 1);
        }
    }

    /// Where the open core is full, the one of the last few entries may have the most room, and be the one that is opened.
    #[test]
    fn no_entry_is_moved_within_the_open_core() {
        let queue = DelayQueue::builder().shards(1).build();
        let insert = |value| queue.insert(value, Duration::from_secs(1_000)).expect("room");
        let keys: Vec<_> = (0..64 + 128).map(insert).collect();
        assert!(keys[3..64].iter().all(|key| queue.remove(key).is_ok()));
        let mut shard = queue.shared.lock(0);
        let store = shard.entries.store();
        assert!(shard.entries.sizing().straggler(store).is_some());
        assert!(!shard.move_straggler(0));
        assert_eq!((shard.entries.store().cores().opened(), shard.counts.moved), (0, 0));
    }
}
