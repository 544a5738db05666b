//! What the clones of a queue share: the part that its handles have too, which knows nothing of the values, and its shards.
//!
//! # The end
//! The receivers ask whether the queue is empty once nothing more is inserted, and so do those that wait until it is. Whoever ends
//! an entry while somebody asks looks whether it was the last one, and whoever begins to ask looks once by the shards' locks. An
//! insert that was under way as inserts were refused either is seen by that look, or finds that the queue is to end and takes its
//! entry back: so what was put in comes out.

use crate::bell::{Hints, Rung, NEVER};
use crate::delay_queue::dropping::{go_on, lose, DropQueue};
use crate::delay_queue::errors::{InsertError, InsertErrorKind};
use crate::delay_queue::key::Key;
use crate::delay_queue::shard::{Locked, Seen, Shard};
use crate::delay_queue::time::Time;
use crate::delay_queue::waking::{Seat, Waiting};
use crate::locks::{is_in_closure_of, Mutex};
use crate::ticks::LAST_TICK;
use crate::words::directory::{Clerk, Directory};
use crate::words::OpenWords;
use std::cell::Cell;
use std::iter;
use std::mem;
use std::panic::{catch_unwind, AssertUnwindSafe};
use std::sync::atomic::Ordering::{Relaxed, SeqCst};
use std::sync::atomic::{fence, AtomicU32, AtomicUsize};
use std::sync::Arc;
use std::thread;

/// The number of the next queue, and of the next thread.
pub(crate) static NEXT_QUEUE: AtomicU32 = AtomicU32::new(1);
static NEXT_THREAD: AtomicUsize = AtomicUsize::new(0);

thread_local! {
    /// The number of this thread, by which its inserts are routed.
    pub(crate) static ROUTE: Cell<Option<usize>> = const { Cell::new(None) };
}

#[cold]
fn drawn() -> usize {
    let number = NEXT_THREAD.fetch_add(1, SeqCst);
    ROUTE.set(Some(number));
    number
}

/// The states to which a queue comes: inserts are refused, the receivers end once the queue is empty, and it was dropped.
pub(crate) const REFUSES: usize = 1;
const ENDS_WHEN_EMPTY: usize = 2;
pub(crate) const IS_OVER: usize = 4;

pub(crate) struct Common {
    /// The number that the queue's keys carry.
    pub id: u32,
    pub time: Time,
    /// The words of each core that was made, by its number.
    pub words: Directory<OpenWords>,
    pub receivers: Waiting,
    /// The hint of the close, which is 0 once the receivers end, and then that of each shard.
    pub hints: Hints,
    /// The most entries, and how many wait where they are bounded.
    pub most: usize,
    pub waiting: AtomicUsize,
    /// What is known of each shard without its lock.
    pub seen: Box<[Seen]>,
    /// To which states the queue has come.
    pub state: AtomicUsize,
    /// How many ask whether it is empty. While nobody does the end of an entry tells nobody.
    pub asked: AtomicUsize,
    /// The clones of the queue, which may insert.
    pub inserters: AtomicUsize,
}

/// An entry that is counted though it isn't in.
pub(crate) struct Counted<'a>(&'a Common);

impl Drop for Counted<'_> {
    fn drop(&mut self) {
        self.0.uncount(1);
    }
}

impl Common {
    /// Whether the queue has come to a state.
    #[inline(always)]
    pub fn is(&self, state: usize) -> bool {
        self.state.load(SeqCst) & state > 0
    }

    /// Whether somebody asks whether the queue is empty.
    #[inline(always)]
    pub fn is_asked(&self) -> bool {
        self.asked.load(SeqCst) > 0
    }

    fn is_bounded(&self) -> bool {
        self.most < usize::MAX
    }

    /// Counts one entry more, unless there are as many as may be.
    #[inline(always)]
    pub fn count_in(&self) -> Option<Counted<'_>> {
        let more = |waiting| Some(waiting + 1).filter(|waiting| *waiting <= self.most);
        let may_come = !self.is_bounded() || self.waiting.fetch_update(SeqCst, SeqCst, more).is_ok();
        may_come.then(|| Counted(self))
    }

    /// Counts entries that wait no longer.
    #[inline(always)]
    pub fn uncount(&self, entries: usize) {
        if self.is_bounded() {
            self.waiting.fetch_sub(entries, SeqCst);
        }
    }

    /// How many wait by the shards, and never fewer than those that stay meanwhile. `others` stands for what others do meanwhile.
    pub fn waiting_while(&self, mut others: impl FnMut()) -> usize {
        let waits = |seen: &Seen| {
            // They are read first: each cancel is among what is left.
            let cancels = seen.cancels();
            others();
            seen.left.load(Relaxed).saturating_sub(cancels)
        };
        self.seen.iter().map(waits).sum::<u64>() as usize
    }

    /// Whether no entry waits, by the shards alone: a bound counts one that isn't in, and one that is out for a moment yet. Where
    /// an entry that is out is counted by the bound, nobody looks once more.
    pub fn has_none(&self) -> bool {
        self.waiting_while(|| {}) == 0
    }

    /// How many entries wait. While others change the queue it may be more, and is never less than those that stay meanwhile.
    pub fn waiting(&self) -> usize {
        // It counts an entry from before it is in until after it is out.
        if self.is_bounded() {
            return self.waiting.load(SeqCst);
        }
        self.waiting_while(|| {})
    }

    /// A shard's hint: nothing is due there before it.
    #[inline(always)]
    pub fn hint(&self, at: usize) -> u64 {
        self.hints.tick(at + 1)
    }

    /// The shard that has something due first, where one has.
    #[inline(always)]
    pub fn most_due(&self, now: u64) -> Option<usize> {
        let place = self.hints.first_before(1, now.saturating_add(1))?;
        Some(place - 1)
    }

    /// The least hint: nothing is due before it.
    pub fn least_hint(&self) -> u64 {
        (0..self.seen.len()).map(|at| self.hint(at)).min().unwrap_or(NEVER)
    }

    /// Whether the receivers end once nothing is due.
    #[inline]
    pub fn is_closed(&self) -> bool {
        self.hints.tick(0) == 0
    }

    /// Wakes the leader of the receivers where that was rung, and gives the panic of the clock or of a waker. No lock is held.
    #[inline(always)]
    pub fn ring(&self, rung: Rung) -> thread::Result<()> {
        if let Rung::Nobody = rung {
            return Ok(());
        }
        // A program's clock that panics keeps nobody asleep.
        let now = catch_unwind(AssertUnwindSafe(|| self.time.tick()));
        let woken = self.receivers.ring(rung, *now.as_ref().unwrap_or(&0));
        now.map(drop).and(woken)
    }

    /// Has a receiver leave the line where it is there.
    pub fn leave(&self, seat: &mut Option<Seat>) {
        if let Some(seat) = seat.take() {
            self.receivers.leave(seat, self.tick_of_wake());
        }
    }

    /// Ends the receivers. Another thread may do so too: each that sleeps is called by one of them.
    pub fn end(&self) -> thread::Result<()> {
        let called = self.receivers.close();
        self.receivers.wake_each(called, self.tick_of_wake())
    }

    /// Has this thread told when the queue is empty, as long as that is held.
    pub fn ask(&self) -> Asks<'_> {
        self.receivers.add_asker();
        self.asked.fetch_add(1, SeqCst);
        Asks(self)
    }

    /// The present tick, or 0 where a program's clock panics. Whoever asks has a value in hand, or others to wake.
    pub fn tick_of_wake(&self) -> u64 {
        catch_unwind(AssertUnwindSafe(|| self.time.tick())).unwrap_or_else(|panic| {
            lose(Err(panic));
            0
        })
    }
}

pub(crate) struct Shared<T> {
    pub common: Arc<Common>,
    pub shards: Box<[Mutex<Shard<T>>]>,
    /// Who gives the cores their numbers, held while one is made.
    pub makes: Mutex<Clerk<OpenWords>>,
    /// After how many inserts and resets a slot is worn.
    pub last_stamp: u32,
    pub deferred: DropQueue<T>,
}

impl<T> Drop for Shared<T> {
    fn drop(&mut self) {
        self.common.state.fetch_or(IS_OVER, SeqCst);
    }
}

/// Held while this thread waits until a queue is empty.
pub(crate) struct Asks<'c>(&'c Common);

impl Drop for Asks<'_> {
    fn drop(&mut self) {
        self.0.asked.fetch_sub(1, SeqCst);
        self.0.receivers.remove_asker();
    }
}

impl<T> Shared<T> {
    /// The shards, each while its lock is held.
    pub fn locked(&self) -> impl Iterator<Item = Locked<'_, T>> {
        (0..self.shards.len()).map(|at| self.lock(at))
    }

    /// Lets a shard's lock go where so many entries ended, wakes the leader where it was rung, and makes a part of what keeps the
    /// shard of the right size. Where entries ended the caller has values in hand, and a waker's panic is lost.
    #[inline(always)]
    pub fn leave(&self, shard: Locked<'_, T>, ended: usize) {
        let (at, has_work) = (shard.at, shard.entries.sizing().has_work());
        let woken = shard.end();
        // It may call a task's waker.
        let maintains = || _ = has_work && self.maintain(at);
        if ended == 0 {
            go_on(woken);
            return maintains();
        }
        self.note_ended(ended);
        lose(woken);
        if has_work {
            lose(catch_unwind(AssertUnwindSafe(maintains)));
        }
    }
}

/// Inserts.
impl<T> Shared<T> {
    /// Puts an entry in that is due at a tick. It is inlined so that the key comes in registers: whoever reads it as a whole from
    /// where its halves were just stored waits for them.
    #[inline(always)]
    pub fn insert(&self, value: T, tick: u64) -> Result<Key, InsertError<T>> {
        let (counted, mut shard) = match self.room_for_one(tick) {
            Ok(room) => room,
            Err(kind) => return Err(InsertError::new(kind, value)),
        };
        let inserted = shard.entries.insert(value, tick).0;
        let key = shard.came_in(inserted);
        mem::forget(counted);
        self.is_in(shard, key)
            .map_err(|value| InsertError::new(InsertErrorKind::Closed, value))
    }

    /// A shard that has room for an insert, and the count of its entry.
    #[inline(always)]
    pub fn room_for_one(&self, tick: u64) -> Result<(Counted<'_>, Locked<'_, T>), InsertErrorKind> {
        if tick > LAST_TICK {
            return Err(InsertErrorKind::TooFar);
        }
        if self.common.is(REFUSES) {
            return Err(InsertErrorKind::Closed);
        }
        let counted = self.common.count_in().ok_or(InsertErrorKind::Full)?;
        let (route, shards) = (ROUTE.get().unwrap_or_else(drawn), self.shards.len());
        // The first threads are spared the division.
        let at = if route < shards { route } else { route % shards };
        let mut shard = self.lock(at);
        if !shard.entries.finds_room(false) {
            drop(shard);
            shard = self.made_room(at)?;
        }
        Ok((counted, shard))
    }

    /// Room where a shard has none: once what was cancelled there was freed, and at last in a new core, or in another shard. Where
    /// memory is kept, each slot is used first.
    #[cold]
    fn made_room(&self, at: usize) -> Result<Locked<'_, T>, InsertErrorKind> {
        let mut has_freed = false;
        loop {
            if self.lock(at).entries.sizing().is_kept() {
                if let Some(shard) = self.any_room(at) {
                    return Ok(shard);
                }
            }
            if let Err(kind) = self.make_room(at, &mut has_freed) {
                if kind == InsertErrorKind::Full {
                    // Another shard may have fewer cores.
                    let mut others = (0..self.shards.len()).filter(|other| *other != at);
                    others.any(|other| self.grow(other).is_ok());
                }
                return self.any_room(at).ok_or(kind);
            }
            let mut shard = self.lock(at);
            if shard.entries.finds_room(false) {
                return Ok(shard);
            }
        }
    }

    /// Any slot that is free, first in a shard.
    fn any_room(&self, at: usize) -> Option<Locked<'_, T>> {
        (at..self.shards.len()).chain(0..at).find_map(|other| {
            let mut shard = self.lock(other);
            shard.entries.finds_room(true).then_some(shard)
        })
    }

    /// Makes room in a shard: first where there are slots, and then in a new core.
    pub fn make_room(&self, at: usize, has_freed: &mut bool) -> Result<(), InsertErrorKind> {
        if !mem::replace(has_freed, true) && self.common.seen[at].cancels() > 0 {
            self.free_cancelled(at);
            return Ok(());
        }
        self.grow(at)
    }

    /// Has receivers come for an entry that is in. Its value is taken back, and given, where that was too late.
    #[inline(always)]
    pub fn is_in(&self, shard: Locked<'_, T>, key: Key) -> Result<Key, T> {
        // A waker that panics takes the key along, but not the entry.
        self.leave(shard, 0);
        if self.common.is(REFUSES) {
            // It may have come out meanwhile. Else none takes it out: a drain behind the close may have been there before.
            if let Ok(value) = self.remove(&key) {
                return Err(value);
            }
        }
        Ok(key)
    }
}

impl<T> Shared<T> {
    /// Drops so many deferred values at most, and tells whether more may be left. No lock is held meanwhile.
    #[inline]
    pub fn drop_some(&self, most: usize) -> bool {
        self.deferred.has_values() && self.drop_piece(most)
    }

    #[cold]
    fn drop_piece(&self, most: usize) -> bool {
        self.deferred.drop_all();
        let values = (0..self.shards.len()).flat_map(|at| iter::from_fn(move || self.lock(at).take_deferred()));
        // Each is dropped while the lock is free. Within a drop of the queue they stay deferred.
        let drops = |value| self.deferred.drop_value(value);
        values.take(most).map(drops).count() == most
    }
}

/// How it ends.
impl<T> Shared<T> {
    /// Refuses inserts, and ends the receivers once nothing waits. A task's waker may panic.
    pub fn close_when_empty(&self) -> thread::Result<()> {
        let before = self.common.state.fetch_or(REFUSES | ENDS_WHEN_EMPTY, SeqCst);
        if before & ENDS_WHEN_EMPTY == 0 {
            self.common.asked.fetch_add(1, SeqCst);
        }
        self.end_if_empty()
    }

    /// Notes that entries wait no longer. No lock is held.
    #[inline(always)]
    pub fn note_ended(&self, entries: usize) {
        self.common.uncount(entries);
        if self.common.is_asked() {
            self.note_end();
        }
    }

    /// Tells those that ask where the queue is empty now, but not in a closure under a lock of the queue. What a task's waker
    /// panics with is lost: the caller may have a value in hand. No lock is held.
    #[cold]
    pub fn note_end(&self) {
        // Whoever has called the closure looks once more.
        if is_in_closure_of(self.common.id as usize) {
            return;
        }
        // Of two threads that end the last two entries one sees that both have ended.
        fence(SeqCst);
        if !self.common.has_none() {
            return;
        }
        self.common.receivers.wake_askers();
        if self.common.is(ENDS_WHEN_EMPTY) {
            lose(self.end_if_empty());
        }
    }

    /// Ends the receivers where nothing waits. In a closure under a lock of the queue it doesn't: whoever has called that looks
    /// once more.
    fn end_if_empty(&self) -> thread::Result<()> {
        let is_in_closure = is_in_closure_of(self.common.id as usize);
        if is_in_closure || self.common.is_closed() || !self.is_surely_empty() {
            return Ok(());
        }
        self.common.end()
    }

    /// Whether no entry waits, told by the locks of all shards: each insert that takes one of them later sees what the caller did.
    pub fn is_surely_empty(&self) -> bool {
        self.locked().for_each(drop);
        self.common.has_none()
    }
}

#[cfg(test)]
mod tests {
    use crate::delay_queue::{Key, Timeout};
    use crate::index::looked;
    use crate::locks::taken;
    use crate::DelayQueue;
    use std::cell::RefCell;
    use std::sync::Arc;
    use std::task::{Context, Wake, Waker};
    use std::time::{Duration, Instant};

    const FAR: Duration = Duration::from_secs(1_000);

    struct Sleeps;

    impl Wake for Sleeps {
        fn wake(self: Arc<Self>) {}
    }

    #[test]
    fn an_entry_that_comes_and_is_cancelled_meanwhile_hides_none_that_stays() {
        let queue = DelayQueue::builder().shards(2).build();
        queue.insert("stays".to_string(), FAR).expect("room");
        let counted = queue.shared.common.waiting_while(|| {
            let key = queue.insert("comes and goes".to_string(), FAR).expect("room");
            queue.cancel(&key).expect("it waits");
        });
        assert!(counted >= 1, "{counted} of one that stays");
        assert_eq!(queue.len(), 1);
    }

    /// Of an entry that wasn't moved, and by its key of the present stamp.
    #[test]
    fn each_call_takes_so_many_locks() {
        let queue = DelayQueue::builder().shards(4).build();
        let keys: Vec<Key> = (0..2).map(|number| queue.insert(number, FAR).expect("room")).collect();
        assert!(queue.try_recv().is_err());
        let (key, handle) = (&keys[0], queue.handle());
        let (task, waker) = (RefCell::new(queue.receiver()), Waker::from(Arc::new(Sleeps)));
        type Call<'c> = (&'static str, usize, Box<dyn Fn() -> bool + 'c>);
        let calls: [Call<'_>; 12] = [
            ("extend", 0, Box::new(|| queue.extend(key, FAR * 2).is_ok())),
            ("a handle's extend", 0, Box::new(|| handle.extend(key, FAR * 3).is_ok())),
            ("deadline", 0, Box::new(|| queue.deadline(key).is_ok())),
            ("a later reset", 0, Box::new(|| queue.reset(key, FAR * 4).is_ok())),
            ("nothing due", 0, Box::new(|| queue.try_recv().is_err())),
            (
                "a task that waits",
                0,
                Box::new(|| {
                    task.borrow_mut()
                        .poll_recv(&mut Context::from_waker(&waker))
                        .is_pending()
                }),
            ),
            ("not due", 0, Box::new(|| queue.remove_if_due(key) == Ok(None))),
            ("len", 0, Box::new(|| queue.len() == 2)),
            ("a sooner reset", 1, Box::new(|| queue.reset(key, FAR).is_ok())),
            ("insert", 1, Box::new(|| queue.insert(2, FAR).is_ok())),
            ("remove", 1, Box::new(|| queue.remove(key).is_ok())),
            ("cancel", 0, Box::new(|| queue.cancel(&keys[1]).is_ok())),
        ];
        for (name, locks, call) in calls {
            assert_eq!(taken::by(call), (true, locks), "{name}");
        }
    }

    /// It goes on by the key that the reset gave.
    #[test]
    fn a_guard_is_extended_without_a_lock_after_its_resets() {
        let queue = DelayQueue::builder().shards(1).build();
        let mut guard = queue.guard("guarded".to_string(), FAR).expect("room");
        type Resets = fn(&mut Timeout<String>) -> bool;
        let resets: [Resets; 2] = [
            |guard| guard.reset(FAR / 2).is_ok(),
            |guard| guard.reset_at(Instant::now()).is_ok(),
        ];
        for reset in resets {
            assert!(reset(&mut guard));
            assert_eq!(taken::by(|| guard.extend(FAR).is_ok()), (true, 0));
        }
    }

    #[test]
    fn a_queue_that_rests_takes_no_lock_once_what_was_cancelled_is_freed() {
        let queue = DelayQueue::builder().shards(2).build();
        let key = queue.insert("cancelled".to_string(), FAR).expect("room");
        queue.cancel(&key).expect("it waits");
        (0..10).for_each(|_| assert!(queue.try_recv().is_err()));
        assert_eq!(taken::by(|| queue.try_recv().is_err()), (true, 0));
    }

    /// They are the values of another one's value.
    #[test]
    fn a_queue_that_rests_takes_no_lock_once_what_a_drop_let_go_is_dropped() {
        struct Link(#[allow(dead_code)] Vec<Timeout<Link>>);
        let queue = DelayQueue::builder().shards(2).build();
        let guard = |behind| queue.guard(Link(behind), FAR).expect("room");
        drop(guard(vec![guard(Vec::new()), guard(Vec::new())]));
        assert!(queue.is_empty() && queue.try_recv().is_err());
        assert_eq!(taken::by(|| queue.try_recv().is_err()), (true, 0));
    }

    /// What a thread keeps of one queue would be in the way of others.
    #[test]
    fn calls_of_many_queues_by_turns_take_no_lock() {
        let queues: Vec<DelayQueue<String>> = (0..20).map(|_| DelayQueue::builder().shards(1).build()).collect();
        let insert = |queue: &DelayQueue<String>| queue.insert("waits".to_string(), FAR).expect("room");
        let keys: Vec<Key> = queues.iter().map(insert).collect();
        for (queue, key) in queues.iter().zip(&keys).cycle().take(100) {
            let calls = || queue.extend(key, FAR * 2).is_ok() && queue.handle().deadline(key).is_ok();
            assert_eq!(taken::by(calls), (true, 0));
        }
    }

    /// The steps are those that look at an index, in one shard that has all entries.
    #[test]
    fn each_call_makes_few_steps_however_many_entries_there_are() {
        let queue = DelayQueue::builder().shards(1).build();
        let insert = |number: u64| queue.insert(number, FAR + Duration::from_millis(number)).expect("room");
        let keys: Vec<Key> = (0..50_000).map(insert).collect();
        assert!(queue.try_recv().is_err());
        type Call<'c> = (&'static str, Box<dyn Fn(&Key) -> bool + 'c>);
        let calls: [Call<'_>; 7] = [
            ("insert", Box::new(|_| queue.insert(0, FAR).is_ok())),
            ("extend", Box::new(|key| queue.extend(key, FAR * 2).is_ok())),
            ("a sooner reset", Box::new(|key| queue.reset(key, FAR).is_ok())),
            ("nothing due", Box::new(|_| queue.try_recv().is_err())),
            ("remove", Box::new(|key| queue.remove(key).is_ok())),
            ("nothing due after a remove", Box::new(|_| queue.try_recv().is_err())),
            ("len", Box::new(|_| !queue.is_empty())),
        ];
        for key in keys.iter().step_by(100) {
            for (name, call) in &calls {
                let steps = looked::by(|| assert!(call(key), "{name}"));
                assert!(steps <= 1_000, "{name}: {steps}");
            }
        }
    }

    /// It found the queue open before the close.
    #[test]
    fn an_insert_that_is_under_way_as_the_queue_closes_takes_its_entry_back() {
        for close in [DelayQueue::close_when_empty, DelayQueue::close] {
            let queue = DelayQueue::builder().shards(1).build();
            let first = queue.insert("first".to_string(), FAR).expect("room");
            assert_eq!(queue.remove(&first).as_deref(), Ok("first"));
            close(&queue);
            assert_eq!(queue.drain().count(), 0);
            let mut store = queue.shared.lock(0);
            let inserted = store.entries.insert("late".to_string(), 5).0;
            let late = store.came_in(inserted);
            assert_eq!(queue.shared.is_in(store, late), Err("late".to_string()));
            assert!(queue.is_empty() && queue.recv().is_none());
        }
    }

    /// What a refused one made isn't there when the queue grows by itself.
    #[test]
    fn a_shard_counts_the_words_that_it_has() {
        let queue = DelayQueue::builder().shards(1).build();
        let memory = || queue.stats().memory;
        let empty = memory();
        let fill_and_empty = || {
            let keys: Vec<Key> = (0..1_000)
                .map(|number| queue.insert(number, FAR).expect("room"))
                .collect();
            let full = memory();
            keys.iter().for_each(|key| assert!(queue.remove(key).is_ok()));
            (0..10).for_each(|_| assert!(queue.try_recv().is_err()));
            let words = memory() - empty;
            assert!(words < (full - empty) / 2, "{words} of {full}");
            (full, words)
        };
        fill_and_empty();
        // The cores that are there again go on with their words, two sizes by turns.
        let two = || [fill_and_empty(), fill_and_empty()];
        let seen = two();
        (0..5).for_each(|_| assert_eq!(two(), seen));
    }

    /// Another thread has taken it out, saw that nobody asks, and counts next.
    #[test]
    fn a_last_entry_that_is_out_and_counted_yet_keeps_no_receiver() {
        let queue = DelayQueue::builder().max_entries(4).build();
        let key = queue.insert("last".to_string(), FAR).expect("room");
        let shared = &queue.shared;
        let last = shared.lock(key.shard()).remove(&key.entry()).expect("it waits");
        queue.close_when_empty();
        let is_empty = queue.wait_empty(Duration::ZERO);
        shared.common.uncount(1);
        assert!(is_empty && shared.common.is_closed());
        assert_eq!((last.value.as_str(), queue.len()), ("last", 0));
    }

    /// Else the end of each entry from then on would look at all shards.
    #[test]
    fn who_has_waited_asks_no_more() {
        let queue = DelayQueue::new();
        queue.insert("waits".to_string(), FAR).expect("room");
        let common = &queue.shared.common;
        assert!(!queue.wait_empty(Duration::ZERO) && !common.is_asked());
        queue.close_when_empty();
        assert!(!queue.wait_empty(Duration::ZERO) && common.is_asked());
    }

    /// Another thread's insert is counted, and is refused then for want of memory, or by a panic.
    #[test]
    fn an_insert_that_is_counted_and_comes_to_nothing_keeps_no_receiver() {
        let queue = DelayQueue::<String>::builder().max_entries(4).build();
        let common = &queue.shared.common;
        let counted = common.count_in();
        assert!(counted.is_some());
        queue.close_when_empty();
        drop(counted);
        assert!(common.is_closed());
    }
}
