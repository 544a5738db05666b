//! What a `DelayQueue` takes of memory, and gives back: counted by the allocator of this program, in which one test runs at a
//! time.

use hontkhale::{DelayQueue, InsertErrorKind, Key, KeyError, ManualClock};
use std::alloc::{GlobalAlloc, Layout, System};
use std::cell::Cell;
use std::sync::atomic::{AtomicIsize, AtomicUsize, Ordering::SeqCst};
use std::sync::mpsc::channel;
use std::sync::{Barrier, Mutex, MutexGuard, OnceLock, PoisonError};
use std::thread;
use std::time::Duration;

const MILLION: usize = 1_000_000;
const FAR: Duration = Duration::from_secs(100_000);

/// std's `Arc` can't be refused memory: of a row of words it takes so many bytes at the most.
const OF_AN_ARC: usize = 40;

static USED: AtomicIsize = AtomicIsize::new(0);
static ONE: Mutex<()> = Mutex::new(());

thread_local! {
    /// How many allocations of this thread are granted before one is refused; none where all are.
    static GRANTS: Cell<Option<u64>> = const { Cell::new(None) };
    /// How many more allocations of this thread are refused, while this is so many.
    static REFUSALS: Cell<u64> = const { Cell::new(0) };
    /// What this thread does before it takes, or gives back, as much memory as a core has.
    static BEFORE: Cell<Option<fn()>> = const { Cell::new(None) };
}

/// What a core takes at least that has some hundred slots.
const OF_A_CORE: usize = 8_192;

/// The call is made with the memory that it takes itself left out.
fn before(size: usize) {
    if size >= OF_A_CORE {
        if let Some(call) = BEFORE.take() {
            call();
            BEFORE.set(Some(call));
        }
    }
}

struct Counting;

#[global_allocator]
static COUNTING: Counting = Counting;

fn is_granted(size: usize) -> bool {
    if size <= OF_AN_ARC {
        return true;
    }
    if REFUSALS.get() > 0 {
        REFUSALS.set(REFUSALS.get() - 1);
        return false;
    }
    GRANTS.with(|grants| {
        let left = grants.get();
        grants.set(left.and_then(|left| left.checked_sub(1)));
        left != Some(0)
    })
}

// SAFETY: each call goes to the system's allocator, or answers that there is no memory.
unsafe impl GlobalAlloc for Counting {
    unsafe fn alloc(&self, layout: Layout) -> *mut u8 {
        if !is_granted(layout.size()) {
            return std::ptr::null_mut();
        }
        before(layout.size());
        USED.fetch_add(layout.size() as isize, SeqCst);
        // SAFETY: as the caller says.
        unsafe { System.alloc(layout) }
    }

    unsafe fn dealloc(&self, ptr: *mut u8, layout: Layout) {
        before(layout.size());
        USED.fetch_sub(layout.size() as isize, SeqCst);
        // SAFETY: as the caller says.
        unsafe { System.dealloc(ptr, layout) }
    }
}

/// The test that runs has the count for itself.
fn alone() -> MutexGuard<'static, ()> {
    ONE.lock().unwrap_or_else(PoisonError::into_inner)
}

fn used() -> isize {
    USED.load(SeqCst)
}

/// Whether a queue tells about as many bytes as it takes.
fn is_about(told: usize, taken: isize) -> bool {
    println!("{told} bytes are told of {taken}");
    10 * (told as isize - taken).abs() <= taken
}

/// How many bytes there are more than before, once a queue has a million entries, and once `ends` ended them.
fn taken_and_left(ends: impl FnOnce(&DelayQueue<u64>, &ManualClock, &[Key])) -> (isize, isize) {
    let clock = ManualClock::new();
    let mut keys: Vec<Key> = Vec::with_capacity(MILLION);
    let before = used();
    let queue = DelayQueue::builder().clock(&clock).shards(4).build();
    keys.extend((0..MILLION as u64).map(|number| queue.insert(number, FAR).expect("room")));
    // So that this thread has handles, whose words are the queue's.
    keys.iter()
        .step_by(1_000)
        .for_each(|key| assert!(queue.extend(key, FAR).is_ok()));
    let taken = used() - before;
    assert!(is_about(queue.stats().memory, taken));
    ends(&queue, &clock, &keys);
    assert!(queue.is_empty() && queue.try_recv().is_err());
    let left = used() - before;
    assert!(is_about(queue.stats().memory, left));
    assert!((0..2 * MILLION as u64)
        .step_by(1_000)
        .all(|number| queue.insert(number, FAR).is_ok()));
    (taken, left)
}

fn at_most_the_words_are_left(name: &str, ends: impl FnOnce(&DelayQueue<u64>, &ManualClock, &[Key])) {
    let _alone = alone();
    let (taken, left) = taken_and_left(ends);
    println!(
        "{name}: {} bytes an entry, {} of a value; {left} bytes of {taken} stay",
        taken / MILLION as isize,
        8
    );
    assert!(taken <= (64 + 8) * MILLION as isize, "{taken}");
    assert!(100 * left <= 28 * taken, "{left} of {taken}");
}

#[test]
fn after_a_million_entries_were_removed_the_words_stay() {
    at_most_the_words_are_left("removed", |queue, _, keys| {
        keys.iter().for_each(|key| assert!(queue.remove(key).is_ok()));
    });
}

#[test]
fn after_a_million_entries_came_out_the_words_stay() {
    at_most_the_words_are_left("came out", |queue, clock, _| {
        clock.advance(FAR);
        let mut row = Vec::with_capacity(64);
        while !queue.is_empty() {
            queue.recv_many(&mut row, 64);
            row.clear();
        }
    });
}

#[test]
fn after_a_million_entries_were_drained_the_words_stay() {
    at_most_the_words_are_left("cleared", |queue, _, _| assert_eq!(queue.clear(), MILLION));
}

#[test]
fn after_a_million_entries_were_cancelled_the_words_stay() {
    at_most_the_words_are_left("cancelled", |queue, _, keys| {
        keys.iter().for_each(|key| assert!(queue.cancel(key).is_ok()));
        while queue.stats().cancelled > 0 {
            assert!(queue.try_recv().is_err());
        }
    });
}

/// Wherever it stands, it is moved to a smaller place once a receiver has time. Of the fewer ones, half were in one place.
#[test]
fn of_one_entry_that_is_left_of_many_the_words_stay() {
    let _alone = alone();
    let few = 100_000;
    for (entries, left) in [
        (MILLION, 0),
        (MILLION, MILLION / 2),
        (MILLION, MILLION - 1),
        (few, few / 2),
        (few, few - 1),
    ] {
        let mut keys: Vec<Key> = Vec::with_capacity(entries);
        let before = used();
        let queue = DelayQueue::builder().shards(4).build();
        keys.extend((0..entries as u64).map(|number| queue.insert(number, FAR).expect("room")));
        let taken = used() - before;
        let ends = (0..entries).filter(|number| *number != left);
        ends.for_each(|number| assert!(queue.remove(&keys[number]).is_ok()));
        (0..100).for_each(|_| assert!(queue.try_recv().is_err()));
        let stays = used() - before;
        assert!(100 * stays <= 28 * taken, "{stays} of {taken}");
        assert!(queue.extend(&keys[left], 2 * FAR).is_ok());
        assert_eq!((queue.remove(&keys[left]), queue.len()), (Ok(left as u64), 0));
    }
}

/// An entry that stays good while the memory around it goes and comes again.
#[test]
fn keys_stay_good_and_stale_ones_are_refused_as_cores_go_and_come() {
    let _alone = alone();
    let queue = DelayQueue::builder().shards(2).build();
    let stays = queue.insert(0, FAR).expect("room");
    let (mut before, mut most): (Vec<Key>, _) = (Vec::new(), 0);
    for round in 1..20_u64 {
        let keys: Vec<Key> = (0..5_000).map(|_| queue.insert(round, FAR).expect("room")).collect();
        assert!(keys.iter().all(|key| queue.extend(key, FAR).is_ok()));
        assert!(before
            .iter()
            .all(|key| queue.extend(key, FAR).is_err() && queue.remove(key).is_err()));
        let full = queue.stats().memory;
        most = full.max(most);
        assert!(keys.iter().all(|key| queue.remove(key) == Ok(round)));
        let left = queue.stats().memory;
        // The words of each size are made once, in the first rounds, and stay.
        assert!(
            left < most && (round < 6 || left < full),
            "{left} of {full} in round {round}, {most} at most"
        );
        assert!(queue.extend(&stays, FAR).is_ok() && queue.len() == 1);
        before = keys;
    }
}

/// No entry is lost, and none is taken for another, where threads fill the queue and empty it all the time.
#[test]
fn cores_go_and_come_under_eight_threads() {
    let _alone = alone();
    let queue = DelayQueue::builder().shards(4).build();
    let barrier = Barrier::new(8);
    let works = |thread: u64| {
        let mut stale: Vec<Key> = Vec::new();
        for round in 0..40 {
            let numbers = (0..500).map(|number| (thread * 40 + round) * 500 + number);
            let keys: Vec<(u64, Key)> = numbers
                .map(|number| (number, queue.insert(number, FAR).expect("room")))
                .collect();
            assert!(keys.iter().all(|(_, key)| queue.extend(key, FAR).is_ok()));
            assert!(stale.iter().all(|key| queue.deadline(key) == Err(KeyError::Ended)));
            // In some rounds all empty it at once.
            if round % 4 == 0 {
                barrier.wait();
            }
            assert!(keys.iter().all(|(number, key)| queue.remove(key) == Ok(*number)));
            assert!(queue.try_recv().is_err());
            stale = keys.into_iter().map(|(_, key)| key).collect();
        }
    };
    let works = &works;
    thread::scope(|scope| (0..8).for_each(|thread| drop(scope.spawn(move || works(thread)))));
    assert!(queue.is_empty() && queue.stats().memory < 300_000, "{}", queue.stats());
}

/// A handle reaches the words without a lock, so it keeps them.
#[test]
fn words_of_a_dropped_queue_go_with_its_last_handle() {
    let _alone = alone();
    let mut keys: Vec<Key> = Vec::with_capacity(100_000);
    let queue = DelayQueue::builder().shards(2).build();
    keys.extend((0..100_000_u64).map(|number| queue.insert(number, FAR).expect("room")));
    let (asks, asked) = channel::<()>();
    let (tells, told) = channel::<()>();
    let handle = queue.handle();
    let thread = thread::spawn(move || {
        keys.iter().for_each(|key| assert!(handle.extend(key, FAR).is_ok()));
        tells.send(()).unwrap();
        asked.recv().unwrap();
        drop(handle);
        tells.send(()).unwrap();
        asked.recv().unwrap();
    });
    told.recv().unwrap();
    drop(queue);
    let kept = used();
    asks.send(()).unwrap();
    told.recv().unwrap();
    let freed = kept - used();
    asks.send(()).unwrap();
    thread.join().unwrap();
    // A word is of eight bytes.
    assert!(freed >= 8 * 100_000, "{freed} bytes");
}

/// Neither words nor anything else, whatever it was that it extended.
#[test]
fn a_thread_that_extended_and_idles_keeps_nothing() {
    let _alone = alone();
    let barrier = Barrier::new(2);
    let before = used();
    let queue = Mutex::new(Some(DelayQueue::builder().shards(2).build()));
    thread::scope(|scope| {
        scope.spawn(|| {
            let queue = queue.lock().unwrap().as_ref().cloned().expect("a queue");
            let keys: Vec<Key> = (0..100_000_u64)
                .map(|number| queue.insert(number, FAR).expect("room"))
                .collect();
            assert!(keys.iter().all(|key| queue.extend(key, FAR).is_ok()));
            drop((queue, keys));
            barrier.wait();
            barrier.wait();
        });
        barrier.wait();
        drop(queue.lock().unwrap().take());
        let kept = used() - before;
        barrier.wait();
        // A word is of eight bytes, and the harness takes a little meanwhile.
        assert!(kept < 100_000, "{kept} bytes");
    });
}

/// A queue of which another thread asks while this one takes and gives back memory, how often, and whether an answer came each time.
static ASKED: OnceLock<DelayQueue<u64>> = OnceLock::new();
static ASKS: AtomicUsize = AtomicUsize::new(0);
static ANSWERS: AtomicUsize = AtomicUsize::new(0);

/// Takes the lock of each shard in another thread, unless no answer came before.
fn asks() {
    if ANSWERS.load(SeqCst) < ASKS.load(SeqCst) {
        return;
    }
    let (tells, told) = channel();
    thread::spawn(move || tells.send(ASKED.get().map(DelayQueue::stats).is_some()));
    ASKS.fetch_add(1, SeqCst);
    let is_told = told.recv_timeout(Duration::from_secs(20)) == Ok(true);
    ANSWERS.fetch_add(usize::from(is_told), SeqCst);
}

#[test]
fn no_lock_is_held_while_a_core_is_made_or_given_back() {
    let _alone = alone();
    let queue = ASKED.get_or_init(|| DelayQueue::builder().shards(2).build());
    let mut keys: Vec<Key> = Vec::with_capacity(20_000);
    BEFORE.set(Some(asks));
    keys.extend((0..20_000).map(|number| queue.insert(number, FAR).expect("room")));
    keys.iter().for_each(|key| assert!(queue.remove(key).is_ok()));
    (0..10).for_each(|_| assert!(queue.try_recv().is_err()));
    assert!(queue.reserve(30_000).is_ok());
    BEFORE.set(None);
    let (asks, answers) = (ASKS.load(SeqCst), ANSWERS.load(SeqCst));
    assert!(asks > 20 && answers == asks, "{answers} answers of {asks}");
}

/// Neither does what a thread keeps of another queue make it take some again.
#[test]
fn calls_without_a_lock_take_no_memory() {
    let _alone = alone();
    let queues: Vec<DelayQueue<u64>> = (0..20).map(|_| DelayQueue::new()).collect();
    let keys: Vec<Key> = queues.iter().map(|queue| queue.insert(7, FAR).expect("room")).collect();
    for turn in 1..=10 {
        for (queue, key) in queues.iter().zip(&keys) {
            GRANTS.set(Some(0));
            let are_made = queue.extend(key, turn * FAR).is_ok() && queue.deadline(key).is_ok();
            let is_reset = queue.reset(key, 2 * turn * FAR).is_ok();
            let is_ended = turn < 10 || queue.cancel(key).is_ok();
            GRANTS.set(None);
            assert!(are_made && is_reset && is_ended);
        }
    }
}

/// Each of them has been in use, and has nothing more.
#[test]
fn a_shard_that_was_used_once_takes_little() {
    const SHARDS: isize = 64;
    let _alone = alone();
    let before = used();
    let queue = DelayQueue::builder().shards(SHARDS as usize).build();
    // These go to the shards by turns.
    for _ in 0..SHARDS {
        thread::scope(|scope| {
            scope.spawn(|| {
                let key = queue.insert(7_u64, FAR).expect("room");
                assert_eq!(queue.remove(&key), Ok(7));
            });
        });
    }
    assert!(queue.try_recv().is_err());
    let taken = used() - before;
    println!("{} bytes a shard", taken / SHARDS);
    assert!(taken < 20_000 * SHARDS, "{taken}");
}

/// Each allocation of an insert is refused in turn, until none is left to refuse.
#[test]
fn a_refused_insert_gives_its_value_back_and_changes_nothing() {
    let _alone = alone();
    let mut refusals = 0;
    // In an empty queue, and in one in which each slot is taken. One more may come, and may come yet.
    for before in [0_usize, 128] {
        for grants in 0.. {
            let queue = DelayQueue::builder().shards(2).max_entries(before + 1).build();
            assert!((0..before).all(|_| queue.insert(Box::new(0), FAR).is_ok()));
            let (value, memory) = (Box::new(7), queue.stats().memory);
            GRANTS.with(|left| left.set(Some(grants)));
            let inserted = queue.insert(value, FAR);
            let is_done = GRANTS.with(Cell::take).is_some();
            match inserted {
                Ok(_) => assert!(is_done, "a refusal of memory isn't told"),
                Err(refused) => {
                    assert_eq!(
                        (refused.kind(), queue.stats().memory),
                        (InsertErrorKind::NoMemory, memory)
                    );
                    assert_eq!((queue.len(), *refused.into_inner()), (before, 7));
                    assert!(queue.insert(Box::new(8), FAR).is_ok());
                    refusals += 1;
                }
            }
            if is_done {
                break;
            }
        }
    }
    assert!(refusals > 5, "{refusals}");
}

/// The next core of its size goes on with them.
#[test]
fn the_words_stay_of_a_core_that_is_refused() {
    let _alone = alone();
    let queue = DelayQueue::builder().shards(1).build();
    let (mut keys, mut refusals) = (Vec::with_capacity(2_000), 0);
    let mut fills_and_empties = || {
        while keys.len() < 2_000 {
            REFUSALS.set(1);
            let inserted = queue.insert(7_u64, FAR);
            refusals += usize::from(REFUSALS.replace(0) == 0);
            keys.push(inserted.or_else(|_| queue.insert(7, FAR)).expect("room"));
        }
        keys.drain(..).for_each(|key| assert!(queue.remove(&key).is_ok()));
        (0..10).for_each(|_| assert!(queue.try_recv().is_err()));
        used()
    };
    (0..10).for_each(|_| _ = fills_and_empties());
    let before = fills_and_empties();
    let more = (0..50).map(|_| fills_and_empties() - before).max();
    assert!(
        refusals > 100 && more < Some(100_000),
        "{refusals} refusals, {more:?} bytes more"
    );
}

/// Each of the two has 64 slots, and these threads go to both.
#[test]
fn an_insert_finds_room_in_another_shard_where_memory_is_refused() {
    let _alone = alone();
    let queue = DelayQueue::builder().shards(2).build();
    let inserts = || assert!(queue.insert(0_u64, FAR).is_ok());
    thread::scope(|scope| (0..8).for_each(|_| drop(scope.spawn(inserts))));
    REFUSALS.set(u64::MAX);
    let inserted = (0..200).take_while(|number| queue.insert(*number, FAR).is_ok()).count();
    REFUSALS.set(0);
    assert_eq!((inserted, queue.len()), (120, 128));
}

/// With every allocation refused: as many entries go in as were told, again and again, and the memory stays.
#[test]
fn no_insert_takes_memory_where_it_was_taken_ahead() {
    let _alone = alone();
    for (entries, shards) in [(1, 2), (129, 4), (100_000, 2), (300_000, 3), (1_000_000, 16)] {
        let queue = DelayQueue::builder().shards(shards).build();
        assert_eq!(queue.reserve(entries), Ok(()));
        let memory = queue.stats().memory;
        let mut keys = Vec::with_capacity(entries);
        for _ in 0..3 {
            GRANTS.with(|left| left.set(Some(0)));
            keys.extend((0..entries).map_while(|number| queue.insert(number, FAR).ok()));
            GRANTS.with(|left| left.set(None));
            assert_eq!((keys.len(), queue.stats().memory), (entries, memory));
            keys.drain(..).for_each(|key| assert!(queue.remove(&key).is_ok()));
            assert_eq!((queue.len(), queue.stats().memory), (0, memory));
        }
    }
}

/// Room for so many entries takes what they would take.
#[test]
fn room_that_is_taken_ahead_is_no_more_than_what_entries_take() {
    let _alone = alone();
    for entries in [1_usize, 1_000, 70_000, 262_144, 300_000, MILLION] {
        let before = used();
        let queue: DelayQueue<u64> = DelayQueue::builder().shards(4).build();
        queue.reserve(entries).expect("memory");
        let taken = (used() - before) as usize;
        assert!(taken <= 64 * 2 * entries.next_power_of_two().max(1_000), "{taken}");
        assert!(entries < MILLION || taken <= (64 + 8) * MILLION, "{taken}");
        // The harness's own threads take a little meanwhile.
        let is_same = || (used() - before).abs_diff(taken as isize) < 4_096;
        assert!(queue.reserve(entries / 2).is_ok() && queue.reserve(entries).is_ok() && is_same());
        println!("{entries}: {} bytes an entry", taken / entries);
    }
}

/// Where a part of it is refused, the rest goes, and the queue is as it was.
#[test]
fn room_that_is_refused_is_given_back() {
    let _alone = alone();
    let mut refusals = 0;
    for grants in 0.. {
        let queue = DelayQueue::builder().shards(2).build();
        let keys: Vec<Key> = (0..128)
            .map(|number| queue.insert(number, FAR).expect("room"))
            .collect();
        let memory = queue.stats().memory;
        GRANTS.with(|left| left.set(Some(grants)));
        let reserved = queue.reserve(200_000);
        let is_done = GRANTS.with(Cell::take).is_some();
        assert_eq!(reserved.is_ok(), is_done, "a refusal of memory isn't told");
        if is_done {
            break;
        }
        assert_eq!(reserved, Err(InsertErrorKind::NoMemory));
        refusals += 1;
        assert!(queue.stats().memory == memory, "{} of {memory}", queue.stats());
        assert!((0..128).zip(&keys).all(|(number, key)| queue.remove(key) == Ok(number)));
        assert!((0..1_000).all(|number| queue.insert(number, FAR).is_ok()));
    }
    assert!(refusals > 20, "{refusals}");
}

/// The same where a part is memory that was given back before.
#[test]
fn room_that_is_refused_in_part_is_given_back_in_a_full_queue() {
    let _alone = alone();
    let mut refusals = 0;
    for grants in 0.. {
        let queue = DelayQueue::builder().shards(2).build();
        let keys: Vec<Key> = (0..2_000)
            .map(|number| queue.insert(number, FAR).expect("room"))
            .collect();
        keys.iter().rev().for_each(|key| assert!(queue.remove(key).is_ok()));
        // Each open slot is taken.
        assert!((0..384).all(|number| queue.insert(number, FAR).is_ok()));
        let memory = queue.stats().memory;
        GRANTS.with(|left| left.set(Some(grants)));
        // One segment is made, and those that were closed are opened.
        let reserved = queue.reserve(135_000);
        let is_done = GRANTS.with(Cell::take).is_some();
        assert_eq!(reserved.is_ok(), is_done, "a refusal of memory isn't told");
        if is_done {
            break;
        }
        refusals += 1;
        // Of a segment that is closed a little stays.
        assert!(queue.stats().memory < memory + 60_000, "{} of {memory}", queue.stats());
    }
    assert!(refusals > 20, "{refusals}");
}

#[test]
fn room_beyond_all_bounds_is_refused_at_once() {
    let _alone = alone();
    let queue: DelayQueue<u64> = DelayQueue::builder().shards(2).build();
    for entries in [usize::MAX, 1 << 40, 9_000_000] {
        assert_eq!(queue.reserve(entries), Err(InsertErrorKind::Full));
    }
    let bounded: DelayQueue<u64> = DelayQueue::builder().max_entries(10).build();
    assert_eq!(
        (bounded.reserve(10), bounded.reserve(11)),
        (Ok(()), Err(InsertErrorKind::Full))
    );
    assert_eq!(queue.reserve(0), Ok(()));
    assert!(queue.stats().memory < 10_000);
}

/// Where each allocation is refused, of which a thread's first look would take some.
#[test]
fn what_is_due_is_taken_out_without_memory() {
    let _alone = alone();
    for grants in 0..10 {
        let clock = ManualClock::new();
        let queue = DelayQueue::builder().shards(2).clock(&clock).build();
        let keys: Vec<Key> = (0..128)
            .map(|number| queue.insert(number, FAR).expect("room"))
            .collect();
        for due in [false, true] {
            clock.advance(if due { FAR } else { Duration::ZERO });
            for (number, key) in (0..).zip(&keys) {
                GRANTS.with(|left| left.set(Some(grants)));
                let ended = queue.remove_if_due(key);
                GRANTS.with(|left| left.set(None));
                assert_eq!(ended, Ok(Some(number).filter(|_| due)));
            }
        }
    }
}

/// Nor is a slot needed: there are as many entries as fill all slots, and one more or less.
#[test]
fn what_is_due_is_taken_out_of_a_full_queue_without_memory() {
    let _alone = alone();
    for entries in 1..=130 {
        let clock = ManualClock::new();
        let queue = DelayQueue::builder().shards(1).clock(&clock).build();
        let keys: Vec<Key> = (0..entries)
            .map(|number| queue.insert(number.to_string(), FAR).expect("room"))
            .collect();
        assert!(queue.deadline(&keys[0]).is_ok());
        clock.advance(FAR);
        GRANTS.with(|left| left.set(Some(0)));
        let ended = queue.remove_if_due(&keys[0]);
        GRANTS.with(|left| left.set(None));
        assert_eq!(ended, Ok(Some("0".to_string())), "{entries} entries");
    }
}

/// Slots are free, and no memory is left for the note of a move. A reset doesn't try that again and again, and a remove of what is
/// due needs none.
#[test]
fn a_move_without_memory_for_its_note_is_refused_at_once() {
    const MOST: u64 = 1_000;
    let _alone = alone();
    let mut refused = 0;
    for moved in 0..60 {
        let clock = ManualClock::new();
        let queue = DelayQueue::builder().shards(1).last_stamp(1).clock(&clock).build();
        queue.reserve(300).expect("memory");
        let keys: Vec<Key> = (0..60).map(|number| queue.insert(number, FAR).expect("room")).collect();
        assert!(keys[..moved].iter().all(|key| queue.reset(key, FAR / 2).is_ok()));
        for (number, key) in (0..).zip(&keys) {
            for call in [
                |queue: &DelayQueue<u64>, key: &Key| queue.reset(key, FAR / 3).map(|_| None),
                DelayQueue::remove_if_due,
            ] {
                REFUSALS.set(MOST);
                let ended = call(&queue, key);
                let left = REFUSALS.replace(0);
                assert!(left > MOST - 10, "{} refusals", MOST - left);
                assert!(
                    matches!(ended, Ok(None) | Err(KeyError::NoMemory)),
                    "{number}: {ended:?}"
                );
                refused += u64::from(ended.is_err());
            }
        }
        clock.advance(FAR);
        let count = keys
            .iter()
            .filter(|key| queue.remove_if_due(key).is_ok_and(|out| out.is_some()))
            .count();
        assert_eq!(count, 60);
    }
    assert!(refused > 0);
}

/// Threads that reserve, fill and empty the queue at once lose nothing.
#[test]
fn room_is_taken_ahead_while_others_fill_and_empty_the_queue() {
    let _alone = alone();
    let queue = DelayQueue::builder().shards(4).build();
    thread::scope(|scope| {
        for thread in 0..4_u64 {
            let queue = &queue;
            scope.spawn(move || {
                for round in 0..20 {
                    queue.reserve(1_000 * (round as usize + 1)).expect("memory");
                    let keys: Vec<Key> = (0..2_000).map(|_| queue.insert(thread, FAR).expect("room")).collect();
                    assert!(keys.iter().all(|key| queue.remove(key) == Ok(thread)));
                }
            });
        }
    });
    let memory = queue.stats().memory;
    assert!(queue.is_empty() && memory >= 56 * 20_000, "{memory}");
}
