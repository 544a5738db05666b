//! The shards and their handles, beside their worked cases: many entries, many shards, sweeps, and threads.

use crate::tests::kit::same;
use crate::tests::shard_checks::{calls, play};

mod draining {
    //! Many entries come out under one lock.

    use super::calls::polls;
    use super::same;
    use crate::core::Turn;
    use crate::shards::{QueueConfig, ShardState, SharedDelayQueue};
    use crate::tests::kit::Fail;

    // Polls until nothing is due, and answers how many came out and what their values add up to. Each value is its
    // entry's deadline, and no deadline is before the last one.
    fn drain(state: &mut ShardState<u64>, tick: u64) -> Option<(usize, u64)> {
        let (mut out, mut sum, mut last) = (0usize, 0u64, 0);
        for _ in 0..state.len() {
            let Ok(Turn::Out(expired)) = state.poll(tick) else {
                break;
            };
            if expired.value != expired.deadline || expired.deadline < last {
                return None;
            }
            last = expired.deadline;
            out = out.saturating_add(1);
            sum = sum.saturating_add(expired.value);
        }
        Some((out, sum))
    }

    type Numbers = SharedDelayQueue<u64>;

    // So many of shard 1 come out up to a tick, and their values add up.
    fn are_drained(queue: &Numbers, tick: u64, answer: (usize, u64)) {
        let drained = queue.lend(1, |state| drain(state, tick));
        same(tick, drained, Ok(Some(answer)));
    }

    fn come_out(queue: &Numbers) {
        for number in 1..101u64 {
            // 101 is a prime, so these are the deadlines from 1 to 100 in another order.
            let deadline = number * 37 % 101;
            same(number, queue.insert(1, deadline, deadline).is_ok(), true);
        }
        are_drained(queue, 60, (60, 1830));
        polls(queue, (1, 60), Ok((None, Some(61))));
        are_drained(queue, 200, (40, 3220));
        polls(queue, (1, 200), Ok((None, None)));
    }

    // Fails where `lend` lends the state of another shard (lend_of_another_shard), since the entries are inserted by
    // name.
    // promise: shards.name-lend
    #[test]
    fn many_outs_under_one_lock() -> Result<(), Fail> {
        come_out(&SharedDelayQueue::new(QueueConfig::of(2, 128))?);
        Ok(())
    }
}

mod each_shard {
    //! Each of 64 shards is its own.

    use super::calls::{ends, polls};
    use super::same;
    use crate::core::Look;
    use crate::shards::{Handle, QueueConfig, QueueError, SharedDelayQueue, Totals};
    use crate::tests::kit::Fail;
    use crate::ticks::Key;

    type Numbers = SharedDelayQueue<usize>;

    const SHARDS: usize = 64;

    // The deadline of the one entry of a shard.
    fn first_deadline(shard: usize) -> u64 {
        100 + (shard % SHARDS) as u64
    }

    fn is_filed(queue: &Numbers, shard: usize, key: &Key, when: u64) {
        let seen = queue.lend(shard, |state| (state.shard() as usize, state.filed(&key.entry())));
        same(shard, seen, Ok((shard, Some(when))));
    }

    fn is_extended(queue: &Numbers, handle: &mut Handle, key: &Key, when: u64) {
        same("extend", handle.extend(key, when), Ok(when));
        same("deadline", queue.deadline(&key.entry()), Ok(when));
    }

    fn is_reset(queue: &Numbers, handle: &mut Handle, key: &Key, when: u64) -> Result<Key, QueueError> {
        let key = queue.reset(&key.entry(), when)?;
        same("look", handle.look(&key), Ok(Look::StillLive(when)));
        Ok(key)
    }

    fn comes_out(queue: &Numbers, shard: usize, key: Key, when: u64) {
        polls(queue, (shard, when), Ok((Some((key, shard, when)), None)));
        polls(queue, (shard, when), Ok((None, None)));
    }

    // Each call that names a shard reaches the one entry of that shard.
    fn reaches_its_own(queue: &Numbers, handle: &mut Handle, shard: usize, key: Key) -> Result<(), QueueError> {
        let when = first_deadline(shard);
        let (extended, reset) = (when.saturating_add(100), when.saturating_add(200));
        same("shard", key.entry().shard() as usize, shard);
        is_filed(queue, shard, &key, when);
        let slot_start = when.saturating_sub(when % 64);
        same(shard, queue.next_wake(shard), Ok(Some(slot_start)));
        is_extended(queue, handle, &key, extended);
        let key = is_reset(queue, handle, &key, reset)?;
        same("sweep", queue.sweep(shard), Ok(0));
        comes_out(queue, shard, key, reset);
        same(shard, queue.tally(shard)?.expired, 1);
        Ok(())
    }

    fn fill_and_reach(queue: &Numbers, handle: &mut Handle, keys: &mut Vec<Key>) -> Result<(), Fail> {
        for shard in 0..SHARDS {
            keys.push(queue.insert_or_drop(shard as u64, shard, first_deadline(shard))?);
        }
        for (shard, key) in keys.iter().enumerate() {
            reaches_its_own(queue, handle, shard, *key)?;
        }
        Ok(())
    }

    fn are_their_own(queue: &Numbers, keys: &mut Vec<Key>) -> Result<(), Fail> {
        let mut handle = queue.handle()?;
        fill_and_reach(queue, &mut handle, keys)?;
        let totals = Totals {
            inserted: 64,
            expired: 64,
            removed: 0,
            cancelled: 0,
            live: 0,
        };
        ends(queue, handle, totals);
        Ok(())
    }

    // Fails where a call goes to another shard than the one that it names, at whatever number.
    // promise: words.shard-type shards.made-very
    #[test]
    fn each_of_64_shards_is_its_own() -> Result<(), Fail> {
        let queue: Numbers = SharedDelayQueue::new(QueueConfig::of(SHARDS, 2))?;
        are_their_own(&queue, &mut Vec::new())
    }
}

mod many {
    //! Many entries come out by one call by name.

    use super::same;
    use crate::core::Expired;
    use crate::shards::{QueueConfig, QueueError, SharedDelayQueue};
    use crate::tests::kit::Fail;
    use crate::words::ManyTurn;

    type Numbers = SharedDelayQueue<u64>;

    // Empties the row, and answers how many stood there and what their values add up to.
    fn emptied(row: &mut Vec<Expired<u64>>) -> (usize, u64) {
        let (out, mut sum) = (row.len(), 0u64);
        for expired in row.iter() {
            sum = sum.saturating_add(expired.value);
        }
        row.clear();
        (out, sum)
    }

    fn polls(
        queue: &Numbers,
        row: &mut Vec<Expired<u64>>,
        (shard, tick): (usize, u64),
        answer: (Result<ManyTurn, QueueError>, (usize, u64)),
    ) {
        let turn = queue.poll_many(shard, tick, row);
        same(tick, (turn, emptied(row)), answer);
    }

    // Fails where a call takes out one more than it has room for, or loses one.
    // promise: shards.name-lend
    #[test]
    fn many_outs_by_name() -> Result<(), Fail> {
        let queue = Numbers::new(QueueConfig::of(2, 128))?;
        for number in 1..101u64 {
            same(number, queue.insert(1, number, number).is_ok(), true);
        }
        let mut row = Vec::with_capacity(64);
        let more = Ok(ManyTurn::More);
        let waiting = Ok(ManyTurn::Waiting { next: 91 });
        polls(&queue, &mut row, (2, 90), (Err(QueueError::Unknown), (0, 0)));
        polls(&queue, &mut row, (1, 90), (more, (64, 2_080)));
        polls(&queue, &mut row, (1, 90), (waiting, (26, 2_015)));
        polls(&queue, &mut row, (1, 200), (Ok(ManyTurn::Idle), (10, 955)));
        Ok(())
    }
}

mod pieces {
    //! A shard is polled in pieces while a poller is parked there.

    use super::same;
    use crate::shards::{Handle, QueueConfig, QueueError, SharedDelayQueue};
    use crate::tests::kit::{Fail, LocalHeap, MockTask};
    use crate::tests::shard_checks::pieces::{put, tell, Boxes, Told};
    use std::task::{Context, Waker};

    // The waker of the task that is polled.
    fn registered(cx: &mut Context<'_>) -> Option<Waker> {
        Some(cx.waker().clone())
    }

    // Parks the task in shard 0 until its next wake.
    fn park(queue: &Boxes, task: &MockTask) -> Result<(), Fail> {
        let Some(waker) = task.enter(|cx| registered(cx)) else {
            return Err(Fail::from("no waker"));
        };
        let mut shard = queue.enter(0)?;
        if let Some(next) = shard.next_wake() {
            shard.park(next, waker);
        }
        Ok(())
    }

    // Whether the task was woken by a piece that is told as Working, and until when it is parked then.
    fn works(queue: &Boxes, task: &MockTask) -> (bool, Result<Option<u64>, QueueError>) {
        same("poll_some", tell(queue.poll_some(0, 5, 1)), Told::Working);
        (task.is_woken(), queue.parked(0))
    }

    fn cancel_and_poll<'heap>(
        queue: &Boxes<'heap>,
        heap: &'heap LocalHeap,
        handle: &mut Handle,
        task: &MockTask,
    ) -> Result<(), Fail> {
        let key = put(queue, heap, 0, (7, 5))?;
        same("cancel", handle.cancel(&key), Ok(5));
        park(queue, task)?;
        // The wheel arrives: the poller waits for what is due.
        same("arrives", works(queue, task), (false, Ok(Some(5))));
        same("reaps", works(queue, task), (true, Ok(None)));
        same("used", heap.used(), 0);
        Ok(())
    }

    fn leaves_nothing<'heap>(queue: &Boxes<'heap>, heap: &'heap LocalHeap, task: &MockTask) -> Result<(), Fail> {
        let mut handle = queue.handle()?;
        cancel_and_poll(queue, heap, &mut handle, task)?;
        same("give_back", handle.give_back(), 1);
        Ok(())
    }

    // The last entry was cancelled, and a piece that is told as Working reaps it. Whoever waits then has nothing to wait
    // for.
    // promise: shards.change-wakes
    #[test]
    fn a_piece_that_leaves_nothing_wakes() -> Result<(), Fail> {
        let heap = LocalHeap::new();
        let queue: Boxes = SharedDelayQueue::new(QueueConfig::of(1, 4))?;
        let task = MockTask::new();
        leaves_nothing(&queue, &heap, &task)
    }
}

mod shards {
    //! The shards that a queue is made of, and what its audit adds up.

    use super::calls::{ends, insert};
    use super::play::Letters;
    use super::same;
    use crate::core::CoreError;
    use crate::shards::{Handle, QueueConfig, QueueError, SharedDelayQueue, Totals};
    use crate::tests::kit::Fail;
    use crate::ticks::Key;

    type Numbers = SharedDelayQueue<usize>;

    fn shard_and_stamp(key: Key) -> (usize, u32) {
        (key.entry().shard() as usize, key.stamp())
    }

    fn takes(queue: &Numbers, shard: usize, value: usize, stamp: u32) {
        let inserted = queue.insert(shard as u64, value, 5);
        same(value, inserted.map(shard_and_stamp), Ok((shard, stamp)));
    }

    // A shard takes no value more, of whose slots so many are linked and so many worn.
    fn refuses(queue: &Numbers, shard: usize, linked: usize, worn: usize) {
        let full = QueueError::Core(CoreError::Full { linked, worn });
        let inserted = queue.insert(shard as u64, 77, 5);
        same("insert", inserted, Err((full, 77)));
    }

    // Wears a shard of that many slots out, each at its second stamp.
    fn wears_out(queue: &Numbers, shard: usize, capacity: usize) {
        for stamp in 1..3u32 {
            for value in 0..capacity {
                takes(queue, shard, value, stamp);
            }
            refuses(queue, shard, capacity, 0);
            same("clear", queue.clear(shard), Ok(capacity));
        }
        refuses(queue, shard, 0, capacity);
    }

    fn are_as_configured(queue: &Numbers, config: QueueConfig) {
        same("shards", queue.shards(), config.shards);
        for shard in 0..config.shards {
            let lent = queue.lend(shard, |state| state.capacity());
            same("capacity", lent, Ok(config.capacity));
            wears_out(queue, shard, config.capacity);
        }
    }

    // Fails where the shards have another capacity, or another last stamp, than was asked for
    // (shards_of_another_capacity).
    // promise: shards.memory-bad
    #[test]
    fn shards_are_as_configured() -> Result<(), Fail> {
        for (shards, capacity) in &[(1, 1), (3, 5)] {
            let config = QueueConfig {
                shards: *shards,
                capacity: *capacity,
                last_stamp: 2,
            };
            are_as_configured(&SharedDelayQueue::new(config)?, config);
        }
        Ok(())
    }

    // Inserts into three shards, of which each gets more than the last. The handle cancels one, and one is removed.
    fn fill(queue: &Letters, handle: &mut Handle) -> Result<(), QueueError> {
        for (route, when) in &[(0, 5), (1, 5), (1, 6), (2, 5), (2, 6), (2, 7), (2, 8)] {
            let key = insert(queue, *route, 'v', *when)?;
            if *when == 7 {
                same("cancel", handle.cancel(&key), Ok(7));
            }
            if *when == 8 {
                same("remove", queue.remove(&key.entry())?.deadline, 8);
            }
        }
        Ok(())
    }

    fn adds_up(queue: &Letters) -> Result<(), Fail> {
        let mut handle = queue.handle()?;
        fill(queue, &mut handle)?;
        same("poll", queue.poll(1, 5).is_ok(), true);
        let totals = Totals {
            inserted: 7,
            expired: 1,
            removed: 1,
            cancelled: 1,
            live: 4,
        };
        ends(queue, handle, totals);
        Ok(())
    }

    // Fails where the totals are those of one shard, or that many times those of one (audit_of_one_shard): each shard has
    // its own.
    // promise: shards.callers-issued
    #[test]
    fn audit_adds_up_all_shards() -> Result<(), Fail> {
        let queue = SharedDelayQueue::new(QueueConfig::of(3, 8))?;
        adds_up(&queue)
    }
}

mod sweeping {
    //! Cancelled entries are reaped a piece of a shard at a time, or one by its name: their values are dropped, and their
    //! slots are free at once.

    use super::calls::ends;
    use super::same;
    use crate::core::{CoreError, ReapError, Swept};
    use crate::shards::{Handle, QueueConfig, QueueError, SharedDelayQueue, Totals};
    use crate::tests::kit::{Fail, HeapBox, LocalHeap};
    use crate::ticks::{EntryId, Key};

    type Boxes<'heap> = SharedDelayQueue<HeapBox<'heap, u64>>;

    // Puts a box into shard 1, which may be full.
    fn put<'heap>(queue: &Boxes<'heap>, heap: &'heap LocalHeap, value: u64) -> Result<Result<Key, QueueError>, Fail> {
        Ok(queue.insert_or_drop(1, HeapBox::new(heap, value), 100 + value % 8))
    }

    // Shard 1 has so many entries linked, and takes no box more.
    fn is_full<'heap>(queue: &Boxes<'heap>, heap: &'heap LocalHeap, value: u64, linked: usize) -> Result<(), Fail> {
        let full = QueueError::Core(CoreError::Full { linked, worn: 0 });
        same(value, put(queue, heap, value)?, Err(full));
        Ok(())
    }

    // Puts four boxes in and cancels them, but for the one in slot 2, whose key it answers.
    fn fill_and_cancel<'heap>(
        queue: &Boxes<'heap>,
        heap: &'heap LocalHeap,
        handle: &mut Handle,
    ) -> Result<Option<Key>, Fail> {
        let mut live = None;
        for value in 0..4u64 {
            let key = put(queue, heap, value)??;
            if key.entry().index() == 2 {
                live = Some(key);
            } else {
                handle.cancel(&key)?;
            }
        }
        Ok(live)
    }

    // From which slot and how many of them, how many entries are reaped, and the slot to go on from.
    const PIECES: &[(usize, usize, usize, Option<usize>)] = &[
        (2, 1, 0, Some(3)),
        (0, 2, 2, Some(2)),
        (0, 3, 0, Some(3)),
        (3, usize::MAX, 1, None),
        (4, 0, 0, None),
        (usize::MAX, usize::MAX, 0, None),
    ];

    fn sweep_pieces(queue: &Boxes) {
        for (from, count, reaped, next) in PIECES {
            let swept = queue.sweep_some(1, *from, *count);
            let (reaped, next) = (*reaped, *next);
            same(*from, (*count, swept), (*count, Ok(Swept { reaped, next })));
        }
    }

    fn sweeps_in_pieces<'heap>(queue: &Boxes<'heap>, heap: &'heap LocalHeap, handle: &mut Handle) -> Result<Key, Fail> {
        let live = fill_and_cancel(queue, heap, handle)?;
        let of_four = heap.used();
        is_full(queue, heap, 4, 4)?;
        sweep_pieces(queue);
        same("used", heap.used().saturating_mul(4), of_four);
        let unknown = queue.sweep_some(2, 0, 4);
        same("sweep_some", unknown, Err(QueueError::Unknown));
        for value in 5..8u64 {
            same(value, put(queue, heap, value)?.is_ok(), true);
        }
        is_full(queue, heap, 8, 4)?;
        let Some(key) = live else {
            return Err(Fail::from("no slot 2"));
        };
        Ok(key)
    }

    fn sweeps_beside_a_handle<'heap>(queue: &Boxes<'heap>, heap: &'heap LocalHeap) -> Result<(), Fail> {
        let mut handle = queue.handle()?;
        let key = sweeps_in_pieces(queue, heap, &mut handle)?;
        same("look", handle.look(&key).is_ok(), true);
        let totals = Totals {
            inserted: 7,
            expired: 0,
            removed: 0,
            cancelled: 3,
            live: 4,
        };
        ends(queue, handle, totals);
        Ok(())
    }

    fn sweeps(heap: &LocalHeap) -> Result<(), Fail> {
        let queue: Boxes = SharedDelayQueue::new(QueueConfig::of(2, 4))?;
        sweeps_beside_a_handle(&queue, heap)
    }

    // A cancelled entry keeps its slot and its value until it is reaped.
    // promise: shards.pieces-give
    #[test]
    fn a_shard_is_swept_in_pieces() -> Result<(), Fail> {
        let heap = LocalHeap::new();
        sweeps(&heap)?;
        same("used", heap.used(), 0);
        Ok(())
    }

    // What a reap of the entry answers by name.
    fn reaps(queue: &Boxes, entry: &EntryId, answer: Result<(), ReapError>) {
        same("reap", queue.reap(entry), Ok(answer));
    }

    fn is_live_by_lend(queue: &Boxes, entry: &EntryId) {
        let reaped = queue.lend(1, |state| state.reap(entry));
        same("reap by lend", reaped, Ok(Err(ReapError::Live)));
    }

    // An entry is refused while it is live, and reaped once it is cancelled.
    fn is_reaped_once_cancelled<'heap>(
        queue: &Boxes<'heap>,
        heap: &'heap LocalHeap,
        handle: &mut Handle,
    ) -> Result<EntryId, Fail> {
        let key = put(queue, heap, 1)??;
        let entry = key.entry();
        is_live_by_lend(queue, &entry);
        reaps(queue, &entry, Err(ReapError::Live));
        same("cancel", handle.cancel(&key), Ok(101));
        is_full(queue, heap, 2, 1)?;
        reaps(queue, &entry, Ok(()));
        same("used", heap.used(), 0);
        Ok(entry)
    }

    // The slot of that entry is used again, and no other name reaches the next entry.
    fn names_nothing_more<'heap>(queue: &Boxes<'heap>, heap: &'heap LocalHeap, entry: EntryId) -> Result<(), Fail> {
        let next = put(queue, heap, 3)??;
        same("insert", (next.entry().index(), next.stamp()), (0, 2));
        for named in &[entry, EntryId::new(0, 0, 2), EntryId::new(1, 1, 2)] {
            reaps(queue, named, Err(ReapError::Missing));
        }
        let unknown = queue.reap(&EntryId::new(2, 0, 2));
        same("reap", unknown, Err(QueueError::Unknown));
        same("deadline", queue.deadline(&next.entry()), Ok(103));
        Ok(())
    }

    fn reaps_beside_a_handle<'heap>(queue: &Boxes<'heap>, heap: &'heap LocalHeap) -> Result<(), Fail> {
        let mut handle = queue.handle()?;
        let entry = is_reaped_once_cancelled(queue, heap, &mut handle)?;
        names_nothing_more(queue, heap, entry)?;
        let totals = Totals {
            inserted: 2,
            expired: 0,
            removed: 0,
            cancelled: 1,
            live: 1,
        };
        ends(queue, handle, totals);
        Ok(())
    }

    fn reaps_by_name(heap: &LocalHeap) -> Result<(), Fail> {
        let queue: Boxes = SharedDelayQueue::new(QueueConfig::of(2, 1))?;
        reaps_beside_a_handle(&queue, heap)
    }

    // promise: shards.pieces-give
    #[test]
    fn an_entry_is_reaped_by_its_name() -> Result<(), Fail> {
        let heap = LocalHeap::new();
        reaps_by_name(&heap)
    }
}

mod threads {
    //! A handle's callers, and two threads that insert into two shards.

    use super::calls::insert;
    use super::play::Letters;
    use super::same;
    use crate::shards::{Handle, QueueConfig, QueueError, SharedDelayQueue};
    use crate::tests::kit::{join, Fail};
    use crate::tests::shard_checks::handles::out;

    // An entry of the shard, whose one caller is the handle's, is cancelled by it.
    fn is_cancelled(queue: &Letters, handle: &mut Handle, shard: u64) -> Result<(), QueueError> {
        let when = 10 + shard % 3;
        let key = insert(queue, shard, 'v', when)?;
        same(shard, out(queue, shard as usize), Ok(1));
        same(shard, handle.cancel(&key), Ok(when));
        Ok(())
    }

    fn cancels_in_each_shard(queue: &Letters) -> Result<(), Fail> {
        let mut handle = queue.handle()?;
        for shard in 0..3u64 {
            is_cancelled(queue, &mut handle, shard)?;
        }
        same("cancels", handle.cancels(), 3);
        same("give_back", handle.give_back(), 3);
        for shard in 0..3 {
            same(shard, queue.sweep(shard), Ok(1));
        }
        Ok(())
    }

    // Fails where all callers of a handle are of one shard (handle_from_one_shard).
    // promise: shards.callers-issued
    #[test]
    fn handle_has_a_caller_of_each_shard() -> Result<(), Fail> {
        let queue: Letters = SharedDelayQueue::new(QueueConfig::of(3, 1))?;
        cancels_in_each_shard(&queue)
    }

    const ENTRIES: u64 = 100;

    // Inserts entries into both shards in turn, and answers how many were accepted.
    fn fill(queue: &SharedDelayQueue<u64>, first: u64) -> u64 {
        let mut accepted = 0u64;
        for route in 0..ENTRIES {
            if queue.insert(route, first, route).is_ok() {
                accepted = accepted.saturating_add(1);
            }
        }
        accepted
    }

    fn fill_twice(queue: &SharedDelayQueue<u64>) -> (u64, u64) {
        join(|| fill(queue, 1), || fill(queue, 2))
    }

    // The inserts of both shards, and what is linked in both.
    fn tallies(queue: &SharedDelayQueue<u64>) -> Result<(u64, u64), QueueError> {
        let (mut inserted, mut linked) = (0u64, 0u64);
        for shard in 0..queue.shards() {
            let tally = queue.tally(shard)?;
            inserted = inserted.saturating_add(tally.inserted);
            linked = linked.saturating_add(tally.linked);
        }
        Ok((inserted, linked))
    }

    // promise: shards.name-lend
    #[test]
    fn two_threads_two_shards() -> Result<(), Fail> {
        let queue = SharedDelayQueue::new(QueueConfig::of(2, 256))?;
        same("insert", fill_twice(&queue), (100, 100));
        same("tally", tallies(&queue), Ok((200, 200)));
        Ok(())
    }
}
