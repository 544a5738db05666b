//! How entries come out.

use crate::delay_queue::errors::{RecvTimeoutError, TryRecvError};
use crate::delay_queue::key::Key;
use crate::delay_queue::shard::{Locked, Way, STEPS};
use crate::delay_queue::shared::{Shared, ROUTE};
use crate::delay_queue::waking::{Seat, Wakes};
use crate::delay_queue::Expired;
use std::cell::Cell;
use std::sync::atomic::Ordering::SeqCst;
use std::thread;
use std::time::{Duration, Instant};

/// How many entries are taken out under one lock.
const TAKEN_AT_ONCE: usize = 64;
/// Up to how many entries of a core a thread polls as a whole. In pieces an entry takes longer, but the lock is held for no more
/// steps, however many entries there are.
const POLLED_WHOLE: usize = 8_192;
/// By how many steps the next one of several is polled for at first: it is mostly due, and else another core may be next.
const FIRST_STEPS: u32 = 4;
/// How often a lock is taken in a round in which nothing comes out, each time for 256 steps, and how many rounds a call makes.
pub(crate) const TURNS: usize = 4;
const ROUNDS: usize = 2;
/// How many steps such a round has. As many values are dropped before it.
pub(crate) const ROUND: usize = TURNS * STEPS as usize;

/// How many receives of a thread go their own way once one finds the lock held of the shard that is due first. The one after them
/// waits for the lock of the shard that is due first then, so no shard is passed over for good.
const RECEIVES: u32 = 16;

/// How a thread receives from queues of several shards.
#[derive(Clone, Copy)]
struct OwnWay {
    /// How many of its next receives go their own way, and one more for the one after them, which waits. 0 where none does.
    left: u32,
    /// Where they begin if the thread has no route: where it found a lock free.
    from: usize,
}

thread_local! {
    static OWN_WAY: Cell<OwnWay> = const { Cell::new(OwnWay { left: 0, from: 0 }) };
}

/// What some steps came to.
pub(crate) enum Step<R> {
    Took(R),
    /// More may be due.
    Works,
    /// Nothing is due.
    Rests,
}

/// A thread's seat in the line of those that wait.
struct InLine<'q, T>(&'q Shared<T>, Option<Seat>);

impl<T> Drop for InLine<'_, T> {
    fn drop(&mut self) {
        self.0.common.leave(&mut self.1);
    }
}

impl<T> Shared<T> {
    /// What `take` takes, as soon as it takes something, and why nothing from `until` on, or once the queue is closed. Values that
    /// were freed are dropped here, before something is in hand and outside the line.
    fn wait_for<R>(&self, until: Option<Instant>, mut take: impl FnMut() -> Step<R>) -> Result<R, RecvTimeoutError> {
        let mut over = None;
        loop {
            match self.look(&mut take) {
                Step::Took(taken) => return Ok(taken),
                Step::Works if self.is_late(until) => return Err(RecvTimeoutError::Timeout),
                Step::Works => continue,
                Step::Rests => {}
            }
            if let Some(over) = over {
                self.drop_some(ROUND);
                return Err(over);
            }
            // What was put in before a close, or was due in time, comes out by one look more.
            over = self.over(until);
            // While more is to be done it looks again: something may have come due meanwhile.
            if over.is_none() && !self.maintain_all() {
                if let Some(taken) = self.wait_in_line(until, &mut take) {
                    return Ok(taken);
                }
            }
        }
    }

    /// What `take` takes in some rounds. Values that were freed are dropped before each: as many as it may drop are a round, too.
    #[inline(always)]
    fn look<R>(&self, mut take: impl FnMut() -> Step<R>) -> Step<R> {
        let mut rounds = 0;
        while rounds < ROUNDS {
            rounds += 1 + usize::from(self.drop_some(ROUND));
            match take() {
                Step::Works => {}
                step => return step,
            }
        }
        Step::Works
    }

    fn is_late(&self, until: Option<Instant>) -> bool {
        until.is_some_and(|until| until <= self.common.time.now())
    }

    /// Why a wait is over, where it is.
    fn over(&self, until: Option<Instant>) -> Option<RecvTimeoutError> {
        if self.common.is_closed() {
            return Some(RecvTimeoutError::Closed);
        }
        self.is_late(until).then_some(RecvTimeoutError::Timeout)
    }

    /// What `take` takes; none once it has more to do, values are to be dropped, or the wait is over.
    fn wait_in_line<R>(&self, until: Option<Instant>, take: &mut impl FnMut() -> Step<R>) -> Option<R> {
        let mut thread = InLine(self, None);
        loop {
            let wakes = Wakes::Thread(thread::current());
            let (until_due, now) = (self.common.least_hint(), self.common.time.tick());
            if let Some(tick) = self.common.receivers.sleep(&mut thread.1, wakes, until_due, now) {
                let time = &self.common.time;
                time.park(time.moment_of(tick).into_iter().chain(until).min());
            }
            match take() {
                Step::Took(taken) => return Some(taken),
                Step::Rests if !self.deferred.may_drop() && self.over(until).is_none() => {}
                _ => return None,
            }
        }
    }

    /// A shard that has something due: the one that is due first, unless receivers would wait there for each other's locks.
    #[inline(always)]
    fn lock_due(&self, now: u64) -> Option<Locked<'_, T>> {
        if OWN_WAY.get().left == 0 {
            let at = self.common.most_due(now)?;
            if let Some(shard) = self.try_lock(at) {
                return Some(shard);
            }
        }
        // It gives a number, so that no guard has to lie in memory.
        let at = self.next_own_way(now)?;
        Some(self.lock(at))
    }

    #[cold]
    fn next_own_way(&self, now: u64) -> Option<usize> {
        let way = OWN_WAY.get();
        if way.left == 1 {
            OWN_WAY.set(OwnWay { left: 0, ..way });
            return self.common.most_due(now);
        }
        // The first that is due and whose lock is free, from the one on by which the thread's inserts are routed.
        let shards = self.shards.len();
        let from = ROUTE.get().unwrap_or(way.from) % shards;
        let mut due = (from..shards)
            .chain(0..from)
            .filter(|at| self.common.hint(*at) <= now)
            .peekable();
        let first = *due.peek()?;
        let from = due.find(|at| self.shards[*at].try_lock().is_some()).unwrap_or(first);
        let left = way.left.checked_sub(1).unwrap_or(RECEIVES);
        OWN_WAY.set(OwnWay { left, from });
        Some(from)
    }

    /// Takes an entry out that is due, under one lock, by a poll that is a whole one of cores of at most so many entries.
    #[inline(always)]
    pub fn try_poll(&self, whole: usize) -> Step<Expired<T>> {
        let now = self.common.time.tick();
        let Some(mut shard) = self.lock_due(now) else {
            return Step::Rests;
        };
        let piece = match shard.is_small(whole, self.common.seen[shard.at].cancels.load(SeqCst)) {
            true => shard.entries.poll(now),
            false => shard.entries.poll_some(now, STEPS),
        };
        let Step::Took((key, deadline, value)) = shard.polled(piece, now) else {
            return Step::Works;
        };
        shard.entries.note_next();
        self.leave(shard, 1);
        let deadline = self.common.time.moment(deadline);
        Step::Took(Expired { key, deadline, value })
    }

    /// An entry that is due, where the turns of a round find one.
    fn take_one(&self) -> Step<Expired<T>> {
        let mut turns = (0..TURNS).map(|_| self.try_poll(POLLED_WHOLE));
        turns.find(|step| !matches!(step, Step::Works)).unwrap_or(Step::Works)
    }

    /// Takes entries that are due, at most so many, and tells how many. It ends where the turns of a round find few.
    fn take_some(&self, row: &mut Vec<Expired<T>>, most: usize) -> Step<usize> {
        let now = self.common.time.tick();
        let (before, mut turns) = (row.len(), 0);
        while row.len() - before < most && turns < TURNS && self.common.most_due(now).is_some() {
            let left = most - (row.len() - before);
            // What may fail for want of memory is done without a lock.
            row.reserve(TAKEN_AT_ONCE.min(left));
            let Some(shard) = self.lock_due(now) else {
                break;
            };
            turns += usize::from(!self.take_under_lock(shard, now, row, left));
        }
        match row.len() - before {
            0 if turns == TURNS => Step::Works,
            0 => Step::Rests,
            taken => Step::Took(taken),
        }
    }

    /// The same of a shard, under one lock, into a row that has room. It tells whether it took all that it may, or that are due;
    /// else its steps were made.
    fn take_under_lock(&self, mut shard: Locked<'_, T>, now: u64, row: &mut Vec<Expired<T>>, most: usize) -> bool {
        let (first, full) = (row.len(), row.len() + TAKEN_AT_ONCE.min(most));
        let is_whole = shard.is_small(POLLED_WHOLE, self.common.seen[shard.at].cancels.load(SeqCst));
        let (mut left, mut steps) = (STEPS, FIRST_STEPS);
        while row.len() < full && left > 0 {
            steps = steps.min(left);
            left -= if is_whole { 0 } else { steps };
            let piece = match is_whole {
                true => shard.entries.poll(now),
                false => shard.entries.poll_some(now, steps),
            };
            match shard.polled(piece, now) {
                Step::Took((key, tick, value)) => {
                    steps = FIRST_STEPS;
                    let deadline = self.common.time.moment(tick);
                    row.push(Expired { key, deadline, value });
                }
                // Another core is next. The lock is kept for one that has nothing to give.
                Step::Works if !is_whole || steps == FIRST_STEPS => steps *= 2,
                Step::Works | Step::Rests => break,
            }
        }
        let is_full = row.len() == full;
        if is_full {
            shard.entries.note_next();
        }
        self.leave(shard, row.len() - first);
        is_full || left > 0
    }
}

impl<T> Shared<T> {
    /// An entry that is due, once one is; none from a moment on.
    pub fn receive(&self, until: Option<Instant>) -> Result<Expired<T>, RecvTimeoutError> {
        self.drop_some(ROUND);
        match self.try_poll(POLLED_WHOLE) {
            Step::Took(expired) => Ok(expired),
            _ => self.wait_for(until, || self.take_one()),
        }
    }

    pub fn receive_within(&self, timeout: Duration) -> Result<Expired<T>, RecvTimeoutError> {
        // A moment that no clock reaches is waited for without end.
        self.receive(self.common.time.now().checked_add(timeout))
    }

    pub fn receive_many(&self, row: &mut Vec<Expired<T>>, most: usize) -> usize {
        if most == 0 {
            return 0;
        }
        self.wait_for(None, || self.take_some(row, most)).unwrap_or(0)
    }

    /// One call is all that a program makes of a receive: what is taken apart between two goes through memory twice.
    #[inline(never)]
    pub fn try_receive(&self) -> Result<Expired<T>, TryRecvError> {
        self.taken_now(|| self.take_one())
    }

    pub fn try_receive_many(&self, row: &mut Vec<Expired<T>>, most: usize) -> Result<usize, TryRecvError> {
        if most == 0 {
            return Ok(0);
        }
        self.taken_now(|| self.take_some(row, most))
    }

    /// What is taken, or why nothing. It is called at one place alone, so that it is inlined there.
    #[inline(always)]
    fn taken_now<R>(&self, mut take: impl FnMut() -> Step<R>) -> Result<R, TryRecvError> {
        let mut error = TryRecvError::Empty;
        loop {
            match self.look(&mut take) {
                Step::Took(taken) => return Ok(taken),
                Step::Works => return Err(TryRecvError::Empty),
                Step::Rests => {}
            }
            if error == TryRecvError::Closed || !self.common.is_closed() {
                self.maintain_all();
                return Err(error);
            }
            // It may have been put in just before the close.
            error = TryRecvError::Closed;
        }
    }
}

/// What comes out of a queue, one entry after the other, until its receivers end.
#[must_use = "an iterator does nothing until it is asked"]
pub struct Iter<'q, T> {
    pub(crate) shared: &'q Shared<T>,
}

/// What is due of a queue, one entry after the other.
#[must_use = "an iterator does nothing until it is asked"]
pub struct TryIter<'q, T> {
    pub(crate) shared: &'q Shared<T>,
}

impl<T> Iterator for Iter<'_, T> {
    type Item = Expired<T>;

    fn next(&mut self) -> Option<Expired<T>> {
        self.shared.receive(None).ok()
    }
}

impl<T> Iterator for TryIter<'_, T> {
    type Item = Expired<T>;

    fn next(&mut self) -> Option<Expired<T>> {
        loop {
            let (received, common) = (self.shared.try_receive().ok(), &self.shared.common);
            if received.is_some() || common.most_due(common.time.tick()).is_none() {
                return received;
            }
        }
    }
}

/// What waits in a queue, taken out one entry after the other.
#[must_use = "an iterator does nothing until it is asked"]
pub struct Drain<'q, T> {
    pub(crate) shared: &'q Shared<T>,
    /// The shard, and how far the way through its slots is.
    pub(crate) at: usize,
    pub(crate) way: Way,
    /// How many entries had been moved in it as that way began.
    pub(crate) moved: Option<u64>,
}

impl<T> Drain<'_, T> {
    /// The next live entry on the way through the shards.
    fn next_on_the_way(&mut self) -> Option<(Key, Instant, T)> {
        while self.at < self.shared.common.seen.len() {
            let mut shard = self.shared.lock(self.at);
            let moved = *self.moved.get_or_insert(shard.counts.moved);
            let polled = shard.take_next(&mut self.way);
            // What was moved meanwhile may be where the way has been.
            let is_over = shard.counts.moved == moved;
            drop(shard);
            match polled {
                Step::Took((key, deadline, value)) => {
                    self.shared.note_ended(1);
                    return Some((key, self.shared.common.time.moment(deadline), value));
                }
                Step::Works => {}
                Step::Rests => {
                    while self.shared.maintain(self.at) {}
                    self.at += usize::from(is_over);
                    (self.way, self.moved) = (Way::BEGIN, None);
                }
            }
        }
        None
    }
}

impl<T> Iterator for Drain<'_, T> {
    type Item = (Key, Instant, T);

    fn next(&mut self) -> Option<(Key, Instant, T)> {
        // What was cancelled is dropped while nothing is in hand.
        while self.shared.drop_some(ROUND) {}
        let taken = self.next_on_the_way();
        while taken.is_none() && self.shared.drop_some(ROUND) {}
        taken
    }
}

#[cfg(test)]
mod tests {
    use super::{Step, POLLED_WHOLE, RECEIVES, ROUND, ROUNDS, STEPS};
    use crate::delay_queue::shared::Shared;
    use crate::index::looked;
    use crate::locks::taken;
    use crate::{DelayQueue, Expired, ManualClock, RecvTimeoutError, TryRecvError};
    use std::iter;
    use std::panic::catch_unwind;
    use std::sync::mpsc::channel;
    use std::sync::Arc;
    use std::thread;
    use std::time::Duration;

    /// More entries than a call has steps for, in cores that are polled in pieces, and in such as are polled as a whole.
    const MANY: [u64; 2] = [20_000, 8_000];
    /// How many steps a call makes, and how many values it drops: two rounds, and a turn where it may wait. A step looks at forty
    /// indexes at most, those of a drop among them.
    const MOST: usize = ROUNDS * ROUND + STEPS as usize;

    type Tries = fn(&DelayQueue<Arc<()>>) -> Option<Expired<Arc<()>>>;

    /// Calls that wait for nothing, and return what they took.
    const TRIES: [Tries; 3] = [
        |queue| queue.try_recv().ok(),
        |queue| queue.recv_timeout(Duration::ZERO).ok(),
        |queue| {
            let mut row = Vec::new();
            queue.try_recv_many(&mut row, 64).ok().and_then(|_| row.pop())
        },
    ];

    /// A queue of one shard in which so many entries are due, all cancelled, and then another one; and what each has as its value.
    fn cancelled(many: u64) -> (DelayQueue<Arc<()>>, Arc<()>) {
        let (clock, value) = (ManualClock::new(), Arc::new(()));
        let queue = DelayQueue::builder().shards(1).clock(&clock).build();
        let insert = |after| {
            queue
                .insert(Arc::clone(&value), Duration::from_millis(after))
                .expect("room")
        };
        let keys: Vec<_> = (0..many).map(|_| insert(1)).collect();
        insert(2);
        keys.iter().for_each(|key| _ = queue.cancel(key).expect("it waits"));
        clock.advance(Duration::from_millis(2));
        (queue, value)
    }

    /// What is linked in the shard.
    fn linked<T>(shared: &Shared<T>) -> usize {
        shared.lock(0).linked()
    }

    #[test]
    fn a_receiver_goes_to_the_first_of_the_shards_that_are_due_first() {
        let queue = DelayQueue::<String>::builder().shards(4).build();
        for (at, tick) in [(0, 7), (2, 5), (1, 6), (3, 5)] {
            queue.shared.grow(at).expect("room");
            let mut shard = queue.shared.lock(at);
            let inserted = shard.entries.insert("waits".to_string(), tick).0;
            shard.came_in(inserted);
        }
        let found = [4, 5, 9].map(|now| queue.shared.common.most_due(now));
        assert_eq!(found, [None, Some(2), Some(2)]);
    }

    #[test]
    fn few_entries_are_freed_under_one_lock() {
        for many in MANY {
            let ((queue, _), mut row) = (cancelled(many), Vec::new());
            let shared = &queue.shared;
            while row.is_empty() {
                let before = linked(shared);
                shared.take_under_lock(shared.lock(0), 2, &mut row, 64);
                assert!(before - linked(shared) <= STEPS as usize);
            }
            let (queue, _) = cancelled(many);
            let shared = &queue.shared;
            while linked(shared) > 0 {
                let before = linked(shared);
                shared.try_poll(POLLED_WHOLE);
                assert!(before - linked(shared) <= STEPS as usize);
            }
        }
    }

    #[test]
    fn a_call_that_waits_for_nothing_frees_few_entries_and_the_next_one_goes_on() {
        for (tries, many) in TRIES.iter().flat_map(|tries| MANY.map(|many| (tries, many))) {
            let (queue, value) = cancelled(many);
            let (mut out, mut calls) = (None, 0);
            while out.is_none() {
                let (left, waits) = (linked(&queue.shared), Arc::strong_count(&value));
                let looks = looked::by(|| out = tries(&queue));
                calls += 1;
                assert!(looks <= 40 * MOST, "{looks}");
                assert!(left - linked(&queue.shared) <= MOST);
                assert!(waits - Arc::strong_count(&value) <= MOST);
            }
            assert!(calls > 1 && linked(&queue.shared) == 0);
            assert!(tries(&queue).is_none() && Arc::strong_count(&value) == 2);
        }
    }

    #[test]
    fn a_slot_of_many_entries_is_opened_by_calls_of_few_steps() {
        const FAR: Duration = Duration::from_millis(1 << 24);
        for tries in TRIES {
            let (clock, value) = (ManualClock::new(), Arc::new(()));
            let queue = DelayQueue::builder().shards(1).clock(&clock).build();
            let insert = |after| {
                queue
                    .insert(Arc::clone(&value), FAR + Duration::from_millis(after))
                    .expect("room")
            };
            (0..MANY[0]).for_each(|after| _ = insert(1_000_000 + after));
            insert(1);
            assert!(tries(&queue).is_none());
            clock.advance(FAR + Duration::from_millis(1));
            let (mut out, mut calls) = (None, 0);
            while out.is_none() {
                let looks = looked::by(|| out = tries(&queue));
                calls += 1;
                assert!(looks <= 40 * MOST, "{looks}");
            }
            assert!(calls > 1 && queue.len() as u64 == MANY[0]);
        }
    }

    /// No clock goes on, so a receiver that sleeps never wakes.
    #[test]
    fn no_receive_sleeps_or_ends_while_more_may_be_due() {
        type Receive = fn(&DelayQueue<Arc<()>>) -> usize;
        let receives: [Receive; 5] = [
            |queue| queue.recv().into_iter().count(),
            |queue| queue.recv_timeout(Duration::MAX).into_iter().count(),
            |queue| queue.recv_many(&mut Vec::new(), 64),
            |queue| queue.try_iter().count(),
            |queue| queue.receiver().iter().take(1).count(),
        ];
        for (receive, is_closed) in receives.iter().flat_map(|receive| [(receive, false), (receive, true)]) {
            let (queue, _) = cancelled(MANY[0]);
            if is_closed {
                queue.close();
            }
            assert_eq!((receive(&queue), linked(&queue.shared)), (1, 0));
        }
    }

    #[test]
    fn a_call_that_waits_for_nothing_says_closed_only_where_nothing_is_left() {
        let (queue, _) = cancelled(MANY[0]);
        queue.close();
        assert!(matches!(
            queue.recv_timeout(Duration::ZERO),
            Err(RecvTimeoutError::Timeout)
        ));
        assert!(matches!(
            queue.try_recv_many(&mut Vec::new(), 64),
            Err(TryRecvError::Empty)
        ));
        let next = || loop {
            match queue.try_recv() {
                Err(TryRecvError::Empty) => {}
                received => break received,
            }
        };
        assert!(next().is_ok() && queue.is_empty());
        assert!(matches!(next(), Err(TryRecvError::Closed)));
        assert!(matches!(
            queue.recv_timeout(Duration::ZERO),
            Err(RecvTimeoutError::Closed)
        ));
    }

    /// To fold a core takes the longest. A receiver that may sleep folds them all before.
    #[test]
    fn a_call_that_waits_for_nothing_folds_one_core() {
        let cores = |queue: &DelayQueue<Arc<()>>| queue.shared.lock(0).cores().count();
        let (queue, _) = cancelled(MANY[0]);
        let mut most = 0;
        for _ in 0..100 {
            let before = cores(&queue);
            let _ = queue.try_recv();
            most = most.max(before.saturating_sub(cores(&queue)));
        }
        assert_eq!((most, cores(&queue)), (1, 1));
    }

    #[test]
    fn what_was_put_in_just_before_the_close_comes_out() {
        let queue = DelayQueue::new();
        let mut is_first = true;
        let received = queue.shared.wait_for(None, || {
            let step = queue.shared.try_poll(POLLED_WHOLE);
            if std::mem::take(&mut is_first) {
                queue.insert("due", Duration::ZERO).expect("room");
                queue.close();
            }
            step
        });
        assert_eq!(received.map(|expired| expired.value), Ok("due"));
        assert!(queue.recv().is_none());
    }

    /// A queue of two shards: an entry is due first in the second one, and later ones are in the first one.
    fn of_two_shards() -> DelayQueue<String> {
        let clock = ManualClock::new();
        let queue = DelayQueue::builder().clock(&clock).shards(2).build();
        for (at, tick) in iter::once((1, 1)).chain((2..40).map(|tick| (0, tick))) {
            if tick < 3 {
                queue.shared.grow(at).expect("room");
            }
            let mut shard = queue.shared.lock(at);
            let inserted = shard.entries.insert(tick.to_string(), tick).0;
            shard.came_in(inserted);
        }
        clock.advance(Duration::from_millis(40));
        queue
    }

    /// It would wait for this thread otherwise, which waits for it.
    #[test]
    fn a_receiver_goes_past_a_shard_whose_lock_is_held_and_comes_back_to_it() {
        type Receive = fn(&DelayQueue<String>) -> String;
        let receives: [Receive; 2] = [
            |queue| queue.try_recv().expect("more is due").value,
            |queue| {
                let mut row = Vec::new();
                assert_eq!(queue.try_recv_many(&mut row, 1), Ok(1));
                row.remove(0).value
            },
        ];
        for receive in receives {
            let queue = of_two_shards();
            thread::scope(|scope| {
                let (queue, held) = (&queue, queue.shared.lock(1));
                let (tells, told) = channel();
                let (goes, gone) = channel();
                scope.spawn(move || {
                    let _ = tells.send(receive(queue));
                    gone.recv().expect("the lock is let go");
                    (0..RECEIVES).for_each(|_| _ = tells.send(receive(queue)));
                });
                assert_eq!(told.recv_timeout(Duration::from_secs(20)).as_deref(), Ok("2"));
                drop(held);
                goes.send(()).expect("it waits");
                let came: Vec<String> = told.iter().collect();
                let others = (3..).map(|tick: u32| tick.to_string());
                let last = iter::once("1".to_string());
                assert_eq!(came, others.take(RECEIVES as usize - 1).chain(last).collect::<Vec<_>>());
            });
        }
    }

    /// Else a shard in which something is always due would keep the others waiting for ever.
    #[test]
    fn of_two_shards_the_one_that_is_due_first_is_asked() {
        for first in [0, 1] {
            let clock = ManualClock::new();
            let queue = DelayQueue::builder().clock(&clock).shards(2).build();
            for (at, tick) in [(first, 1), (1 - first, 2)] {
                queue.shared.grow(at).expect("room");
                let mut shard = queue.shared.lock(at);
                let inserted = shard.entries.insert(tick.to_string(), tick).0;
                shard.came_in(inserted);
            }
            clock.advance(Duration::from_millis(3));
            assert_eq!(queue.stats().late, Duration::from_millis(2));
            let came_out: Vec<_> = queue.try_iter().map(|out| out.value).collect();
            assert_eq!(came_out, ["1", "2"]);
        }
    }

    /// So whoever asks next takes no lock.
    #[test]
    fn a_row_that_is_full_of_all_that_is_due_tells_when_the_next_is() {
        let queue = DelayQueue::builder().shards(1).build();
        for after in [0, 0, 1_000] {
            queue
                .insert("waits".to_string(), Duration::from_secs(after))
                .expect("room");
        }
        let mut row = Vec::new();
        assert_eq!(queue.try_recv_many(&mut row, 2), Ok(2));
        let (is_empty, locks) = taken::by(|| matches!(queue.shared.try_poll(POLLED_WHOLE), Step::Rests));
        assert_eq!((is_empty, locks), (true, 0));
    }

    /// It would never sleep otherwise.
    #[test]
    fn a_receiver_of_a_thread_that_panics_comes_to_an_end_of_its_drops() {
        struct Receives(DelayQueue<String>);
        impl Drop for Receives {
            fn drop(&mut self) {
                assert!(self.0.try_recv().is_err() && self.0.try_recv().is_err());
                self.0
                    .insert((!self.0.shared.deferred.may_drop()).to_string(), Duration::ZERO)
                    .expect("room");
            }
        }
        let queue = DelayQueue::new();
        let key = queue.insert("cancelled".to_string(), Duration::ZERO).expect("room");
        queue.cancel(&key).expect("it waits");
        let receives = Receives(queue.clone());
        let panicked = catch_unwind(move || {
            let _receives = receives;
            panic!("a thread that panics");
        });
        assert!(panicked.is_err());
        assert_eq!(queue.recv().map(|expired| expired.value).as_deref(), Some("true"));
    }
}
