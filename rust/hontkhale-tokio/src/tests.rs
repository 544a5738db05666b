//! The entries beside a plain model, with slots that wear out after a few stamps, so that entries move all the time.

use crate::budget::Budget;
use crate::entries::Entries;
use crate::handle::{EntryError, Handle};
use crate::key::{Expired, Key};
use crate::queue::DelayQueue;
use hontkhale::parts::owner::{Piece, Turn, CAPACITY_LIMIT, LAST_STAMP};
use std::cell::Cell;
use std::collections::HashMap;
use std::rc::Rc;
use std::sync::atomic::{AtomicBool, Ordering::SeqCst};
use std::sync::Arc;
use std::task::{Context, Poll, Wake, Waker};
use std::thread;
use std::time::Duration;
use tokio::time::{advance, Instant};

thread_local! {
    /// What a test does once, in this thread, between a look at the entry that comes first and what rests on the look.
    static AFTER_LOOK: Cell<Option<Box<dyn FnOnce()>>> = const { Cell::new(None) };
    /// How often this thread has asked stores for what comes out, or when.
    static ASKED: Cell<usize> = const { Cell::new(0) };
}

/// Counts a question to the store.
pub(crate) fn asked() {
    ASKED.with(|asked| asked.set(asked.get() + 1));
}

/// Where a handle's call may come between: see `AFTER_LOOK`.
pub(crate) fn after_look() {
    if let Some(call) = AFTER_LOOK.with(Cell::take) {
        call();
    }
}

/// Marsaglia's xorshift.
struct Dice(u64);

impl Dice {
    fn below(&mut self, limit: u64) -> u64 {
        self.0 ^= self.0 << 13;
        self.0 ^= self.0 >> 7;
        self.0 ^= self.0 << 17;
        self.0 % limit
    }
}

/// What a poll comes to.
enum Found<T> {
    Out(Expired<T>),
    Waiting(u64),
    Idle,
    Working,
}

/// A poll at a tick by at most so many steps.
fn polled<T>(entries: &mut Entries<T>, now: u64, steps: u32) -> Found<T> {
    let mut budget = Budget::of(steps);
    if !entries.heed_news(&mut budget) {
        return Found::Working;
    }
    if entries.has_peeked(now) {
        if let Some(out) = entries.take_peeked() {
            return Found::Out(out);
        }
    }
    while let Some(most) = budget.piece() {
        let piece = if steps == u32::MAX { entries.poll_whole(now) } else { entries.poll(now, most) };
        match piece.expect("a tick that isn't beyond the last") {
            Piece::Answer(Turn::Out(out)) => {
                entries.note_expired(&out);
                return Found::Out(entries.expired(out));
            }
            Piece::Answer(_) => return entries.wake(now).map_or(Found::Idle, Found::Waiting),
            Piece::Working => budget.grow(),
        }
    }
    Found::Working
}

/// What is in, by its key: the deadline in force and the value, which is also `held` until it is dropped.
struct Twin {
    dice: Dice,
    queue: Entries<Rc<u64>>,
    handle: Handle,
    has_handle: bool,
    entries: HashMap<Key, (u64, Rc<u64>)>,
    row: Vec<Key>,
    /// Keys whose entries have ended.
    ended: Vec<Key>,
    /// The values of cancelled entries, which the next poll drops.
    cancelled: Vec<Rc<u64>>,
    now: u64,
    tick: u64,
    next: u64,
    most: usize,
}

impl Twin {
    fn new(seed: u64, last_stamp: u32, has_handle: bool, most: usize) -> Twin {
        let mut dice = Dice(seed);
        let mut queue = Entries::new(dice.below(3) as usize, last_stamp);
        if has_handle {
            queue.share();
        }
        Twin {
            dice,
            handle: Handle { shared: queue.shared.clone() },
            queue,
            has_handle,
            entries: HashMap::new(),
            row: Vec::new(),
            ended: Vec::new(),
            cancelled: Vec::new(),
            now: 0,
            tick: 0,
            next: 0,
            most,
        }
    }

    fn tick_ahead(&mut self) -> u64 {
        let ahead = [3, 70, 5_000, 300_000][self.dice.below(4) as usize];
        (self.now + self.dice.below(ahead)).saturating_sub(2)
    }

    fn draw(&mut self) -> Option<Key> {
        match self.row.len() as u64 {
            0 => None,
            many => Some(self.row[self.dice.below(many) as usize]),
        }
    }

    fn end(&mut self, key: Key) -> (u64, Rc<u64>) {
        let at = self.row.iter().position(|&it| it == key).expect("a key that is in");
        self.row.swap_remove(at);
        self.ended.push(key);
        self.entries.remove(&key).expect("an entry that is in")
    }

    fn insert(&mut self) {
        let when = self.tick_ahead();
        let value = Rc::new(self.next);
        self.next += 1;
        let key = self.queue.insert(value.clone(), when);
        assert!(self.entries.insert(key, (when.max(self.tick), value)).is_none(), "a key is given twice");
        assert!(!self.ended.contains(&key), "a key is given again");
        self.row.push(key);
    }

    fn reset(&mut self, key: Key) {
        let when = self.tick_ahead();
        self.queue.reset(&key, when).unwrap();
        self.entries.get_mut(&key).unwrap().0 = when.max(self.tick);
    }

    fn remove(&mut self, key: Key) {
        let out = self.queue.remove(&key).unwrap();
        let (deadline, value) = self.end(key);
        assert_eq!((out.key, out.tick, &out.data), (key, deadline, &value));
    }

    fn extend(&mut self, key: Key) {
        let when = self.tick_ahead();
        let moment = self.queue.shared.clock.moment(when);
        let deadline = self.handle.extend_at(&key, moment).unwrap();
        let entry = self.entries.get_mut(&key).unwrap();
        entry.0 = entry.0.max(when);
        assert_eq!(deadline, self.queue.shared.clock.moment(entry.0));
    }

    /// After the next look a handle extends an entry, that which comes first or any. What it extended, and to when.
    fn extend_after_look(&mut self) -> Rc<Cell<Option<(Key, u64)>>> {
        let extended = Rc::<Cell<Option<(Key, u64)>>>::default();
        let key = if self.dice.below(2) == 0 { self.queue.first().map(|(key, _)| key) } else { self.draw() };
        if let Some(key) = key.filter(|_| self.has_handle) {
            let (handle, when, told) = (self.handle.clone(), self.tick_ahead(), extended.clone());
            let moment = self.queue.shared.clock.moment(when);
            let call = move || told.set(handle.extend_at(&key, moment).ok().map(|_| (key, when)));
            AFTER_LOOK.with(|it| it.set(Some(Box::new(call))));
        }
        extended
    }

    fn cancel(&mut self, key: Key) {
        let given_up = self.handle.cancel(&key).unwrap();
        let (deadline, value) = self.end(key);
        assert_eq!(given_up, self.queue.shared.clock.moment(deadline));
        self.cancelled.push(value);
    }

    fn refuse(&mut self) {
        if let Some(&key) = self.ended.get(self.dice.below(1 + self.ended.len() as u64) as usize) {
            assert!(self.queue.reset(&key, self.now).is_err());
            assert!(self.queue.remove(&key).is_none());
            assert!(self.queue.deadline(&key).is_none());
            let ended = Err(EntryError::Ended);
            assert_eq!(self.handle.extend_at(&key, self.queue.shared.clock.moment(self.now)), ended);
            assert_eq!(self.handle.cancel(&key), ended);
        }
    }

    fn poll(&mut self) {
        self.now += [0, 1, 5, 64, 1_000, 40_000][self.dice.below(6) as usize];
        loop {
            let least = self.entries.values().map(|entry| entry.0).min();
            let steps = match self.dice.below(40) as u32 {
                0 => u32::MAX,
                steps => steps,
            };
            let extended = self.extend_after_look();
            let found = polled(&mut self.queue, self.now, steps);
            AFTER_LOOK.with(Cell::take);
            let least = match extended.take() {
                Some((key, when)) => {
                    let entry = self.entries.get_mut(&key).expect("an entry that is in");
                    entry.0 = entry.0.max(when);
                    self.entries.values().map(|entry| entry.0).min()
                }
                None => least,
            };
            match found {
                Found::Out(out) => {
                    let (deadline, value) = self.end(out.key);
                    assert_eq!((Some(out.tick), out.tick, &out.data), (least, deadline, &value));
                    assert!(deadline <= self.now);
                    self.tick = deadline;
                }
                Found::Waiting(wake) => {
                    assert!(least.map_or(true, |least| least > self.now && least >= wake) && wake > self.now);
                    break;
                }
                Found::Idle => {
                    assert_eq!(least, None);
                    break;
                }
                Found::Working => {}
            }
        }
        self.tick = self.tick.max(self.now);
        for value in self.cancelled.drain(..) {
            assert_eq!(Rc::strong_count(&value), 1, "a cancelled value stays");
        }
        assert_eq!(self.queue.len(), self.row.len(), "a poll frees the places of cancelled entries");
    }

    fn call(&mut self) {
        let key = self.draw();
        match (self.dice.below(100), key) {
            (0..=29, _) if self.row.len() < self.most => self.insert(),
            (0..=49, Some(key)) => self.reset(key),
            (50..=59, Some(key)) => self.remove(key),
            (60..=69, Some(key)) if self.has_handle => self.extend(key),
            (70..=73, Some(key)) if self.has_handle => self.cancel(key),
            (74..=79, _) => self.refuse(),
            (80..=94, _) => self.poll(),
            (95, _) => {
                self.queue.compact();
                assert!(self.queue.capacity() <= 4 * self.row.len());
            }
            (96, _) => self.queue.shrink_to_fit(),
            (97, _) => self.queue.reserve(self.next as usize % 100),
            (98, _) if self.dice.below(20) == 0 => {
                self.queue.clear();
                self.ended.append(&mut self.row);
                self.entries.clear();
                self.poll();
            }
            _ => {}
        }
        let len = self.queue.len();
        assert_eq!(len - self.queue.cancelled(), self.row.len(), "what handles cancelled is counted as it is there");
        assert!(self.has_handle || len == self.row.len());
        for key in self.row.iter().take(3) {
            assert_eq!(self.queue.deadline(key), Some(self.entries[key].0));
        }
        let first = self.queue.first().map(|(key, _)| self.entries[&key].0);
        assert_eq!(first, self.entries.values().map(|entry| entry.0).min());
    }
}

#[test]
fn entries_whose_slots_wear_out_agree_with_a_model() {
    for seed in 1..=60 {
        let last_stamp = [1, 2, 3, 7, 1_000_000][seed as usize % 5];
        let most = [1, 3, 70, 300][seed as usize / 5 % 4];
        let mut twin = Twin::new(seed << 32 | 0x9e37_79b9, last_stamp, seed % 2 == 0, most);
        for _ in 0..4_000 {
            twin.call();
        }
    }
}

#[test]
fn worn_cores_go() {
    let mut queue = Entries::new(0, 2);
    queue.share();
    let stays = queue.insert(0, 1_000_000);
    for value in 1..100_000 {
        let key = queue.insert(value, 10);
        assert!(queue.remove(&key).is_some());
    }
    assert!(queue.capacity() < 1_000 && queue.worn() < 1_000, "{} and {}", queue.capacity(), queue.worn());
    assert_eq!(queue.remove(&stays).map(|out| out.data), Some(0));
}

#[test]
fn the_numbers_tell_how_many_slots_are_worn() {
    paused().block_on(async {
        let mut queue = DelayQueue::with_last_stamp(64, 2);
        queue.insert("stays".to_string(), ms(10));
        for worn in [0, 0, 8] {
            let keys: Vec<Key> = (0..8).map(|_| queue.insert("a value".to_string(), ms(10))).collect();
            assert_eq!(queue.numbers().worn, worn);
            keys.iter().for_each(|key| drop(queue.remove(key)));
        }
    });
}

/// A value that counts the drops within a call that isn't to drop any.
struct Watched {
    is_in_call: Rc<Cell<bool>>,
    drops_in_calls: Rc<Cell<usize>>,
}

impl Drop for Watched {
    fn drop(&mut self) {
        self.drops_in_calls.set(self.drops_in_calls.get() + usize::from(self.is_in_call.get()));
    }
}

/// A panic of a value's drop would take along the key that an insert is about to give.
#[test]
fn a_worn_core_goes_in_no_insert_or_reset_with_the_values_that_were_cancelled_in_it() {
    for by_reset in [false, true] {
        let (is_in_call, drops_in_calls) = (Rc::<Cell<bool>>::default(), Rc::<Cell<usize>>::default());
        let value = || Watched { is_in_call: is_in_call.clone(), drops_in_calls: drops_in_calls.clone() };
        let mut queue = Entries::new(0, 2);
        queue.share();
        let handle = Handle { shared: queue.shared.clone() };
        for _ in 0..20 {
            let keys: Vec<Key> = (0..100).map(|_| queue.insert(value(), 1_000)).collect();
            keys[..50].iter().for_each(|key| assert!(handle.cancel(key).is_ok()));
            is_in_call.set(true);
            if by_reset {
                keys[50..].iter().cycle().take(500).for_each(|key| queue.reset(key, 2_000).unwrap());
            }
            let more: Vec<Key> = (0..100).map(|_| queue.insert(value(), 1_000)).collect();
            is_in_call.set(false);
            keys[50..].iter().chain(&more).for_each(|key| assert!(queue.remove(key).is_some()));
            assert!(matches!(polled(&mut queue, 0, u32::MAX), Found::Idle));
            assert_eq!((drops_in_calls.get(), Rc::strong_count(&is_in_call), queue.len()), (0, 1, 0), "{by_reset}");
        }
    }
}

/// A poll that comes upon a cancelled entry before it knows of the cancel frees the slot, and the value waits there.
#[test]
fn an_insert_drops_no_value_that_waits_in_the_one_free_slot() {
    let (is_in_call, drops_in_calls) = (Rc::<Cell<bool>>::default(), Rc::<Cell<usize>>::default());
    let value = || Watched { is_in_call: is_in_call.clone(), drops_in_calls: drops_in_calls.clone() };
    let mut queue = Entries::new(1, LAST_STAMP);
    queue.share();
    let handle = Handle { shared: queue.shared.clone() };
    let key = queue.insert(value(), 5);
    assert!(handle.cancel(&key).is_ok());
    assert!(matches!(queue.poll(5, u32::MAX), Ok(Piece::Answer(Turn::Idle))));
    is_in_call.set(true);
    queue.insert(value(), 6);
    is_in_call.set(false);
    assert_eq!((drops_in_calls.get(), queue.len()), (0, 1));
}

/// Handles find an entry that was reset to a sooner deadline by a name, be it before the first handle was made.
#[test]
fn no_name_outlives_its_entry() {
    type Ends = fn(&mut Entries<u64>, &Key);
    let ends: [Ends; 3] = [
        |queue, key| assert!(queue.remove(key).is_some()),
        |queue, key| {
            assert!(Handle { shared: queue.shared.clone() }.cancel(key).is_ok());
            assert!(matches!(polled(queue, 0, u32::MAX), Found::Waiting(_) | Found::Idle));
        },
        |queue, _| assert!(matches!(polled(queue, 500, u32::MAX), Found::Out(_))),
    ];
    for (end, has_handle) in ends.into_iter().flat_map(|end| [(end, false), (end, true)]) {
        // There are more than the first core has slots.
        let mut queue = Entries::new(0, LAST_STAMP);
        let keys: Vec<Key> = (0..100).map(|value| queue.insert(value, 1_000)).collect();
        if has_handle {
            queue.share();
            keys.iter().for_each(|key| queue.reset(key, 1_000).unwrap());
            assert!(queue.shared.names().is_empty(), "a deadline that isn't sooner takes no stamp");
        }
        keys.iter().for_each(|key| queue.reset(key, 500).unwrap());
        queue.share();
        assert_eq!(queue.shared.names().len(), keys.len());
        keys.iter().for_each(|key| end(&mut queue, key));
        assert!(queue.shared.names().is_empty());
        queue.shrink_to_fit();
        assert_eq!(queue.shared.names().capacity(), 0);
    }
}

/// A sooner reset moves it, since its slot has no stamp left.
#[test]
fn a_handle_finds_an_entry_that_moves_meanwhile() {
    let mut queue = Entries::new(0, 1);
    queue.share();
    let key = queue.insert(0, 1_000_000);
    let handle = Handle { shared: queue.shared.clone() };
    let is_over = AtomicBool::new(false);
    thread::scope(|scope| {
        let extends = scope.spawn(|| {
            while !is_over.load(SeqCst) {
                handle.extend(&key, Duration::ZERO)?;
            }
            Ok::<(), EntryError>(())
        });
        for sooner in 1..20_000 {
            queue.reset(&key, 1_000_000 - sooner).unwrap();
            if sooner % 100 == 0 {
                queue.shrink_to_fit();
            }
        }
        is_over.store(true, SeqCst);
        assert_eq!(extends.join().expect("no panic"), Ok(()));
    });
}

/// What gives memory back.
const GIVES_BACK: [fn(&mut Entries<u64>); 2] = [Entries::shrink_to_fit, Entries::compact];

#[test]
fn slots_that_are_yet_to_be_made_are_given_back() {
    for give_back in GIVES_BACK {
        let mut queue = Entries::new(CAPACITY_LIMIT + 64, LAST_STAMP);
        give_back(&mut queue);
        assert_eq!(queue.capacity(), 0);
    }
}

/// Else the next insert might go to a core that drains, which then never goes.
#[test]
fn a_core_that_has_entries_stays_open_as_memory_is_given_back() {
    for give_back in GIVES_BACK {
        let mut queue = Entries::new(64, LAST_STAMP);
        let keys: Vec<Key> = (0..165).map(|value| queue.insert(value, 1)).collect();
        let drain = |queue: &mut Entries<u64>, those: std::ops::Range<usize>| {
            keys[those].iter().for_each(|key| assert!(queue.remove(key).is_some()));
            give_back(queue);
        };
        drain(&mut queue, 0..45);
        queue.insert(165, 1);
        drain(&mut queue, 45..64);
        assert_eq!(queue.capacity(), 128);
    }
}

#[test]
fn as_many_slots_are_made_as_were_asked_for_and_each_is_used_before_there_are_more() {
    let many = CAPACITY_LIMIT + 64;
    let mut queue = Entries::new(many, LAST_STAMP);
    queue.reserve(many);
    (0..many).for_each(|value| _ = queue.insert(value, 1));
    assert_eq!((queue.capacity(), queue.len()), (many, many));
    let mut queue = Entries::new(0, LAST_STAMP);
    let keys: Vec<Key> = (0..64).map(|value| queue.insert(value, 1)).collect();
    (64..192).for_each(|value| _ = queue.insert(value, 1));
    keys.iter().take(30).for_each(|key| assert!(queue.remove(key).is_some()));
    let slots = queue.capacity();
    (0..30).for_each(|value| _ = queue.insert(value, 1));
    assert_eq!((queue.capacity(), queue.len()), (slots, slots));
}

/// The second core was told no tick yet.
#[test]
fn what_is_put_in_late_comes_out_no_earlier_than_what_came_out_last() {
    let mut queue = Entries::new(0, LAST_STAMP);
    (0..64).for_each(|value| _ = queue.insert(value, 10));
    queue.insert(64, 1_000);
    assert!(matches!(polled(&mut queue, 20, u32::MAX), Found::Out(_)));
    let late = queue.insert(65, 5);
    assert_eq!(queue.deadline(&late), Some(10));
}

#[test]
fn a_task_waits_for_no_core_whose_entries_have_left() {
    let mut queue = Entries::new(0, LAST_STAMP);
    let leave: Vec<Key> = (0..64).map(|value| queue.insert(value, 100)).collect();
    queue.insert(64, 1_000);
    assert!(matches!(polled(&mut queue, 0, u32::MAX), Found::Waiting(100)));
    queue.insert(50, 50);
    assert!(matches!(polled(&mut queue, 50, u32::MAX), Found::Out(out) if out.data == 50));
    leave.iter().for_each(|key| assert!(queue.remove(key).is_some()));
    assert!(matches!(polled(&mut queue, 51, u32::MAX), Found::Waiting(960..=1_000)));
}

#[test]
fn a_core_of_a_size_that_was_there_goes_on_with_its_words() {
    let mut queue = Entries::new(0, LAST_STAMP);
    for _ in 0..50 {
        let keys: Vec<Key> = (0..100).map(|value| queue.insert(value, 10)).collect();
        assert!(keys.iter().all(|key| key.name.core() < 4));
        keys.iter().for_each(|key| assert!(queue.remove(key).is_some()));
        queue.shrink_to_fit();
    }
}

#[test]
fn a_clear_drops_what_was_cancelled_too() {
    let mut queue = Entries::new(0, LAST_STAMP);
    queue.share();
    let (handle, value) = (Handle { shared: queue.shared.clone() }, Rc::new(()));
    let keys: Vec<Key> = (0..100).map(|_| queue.insert(value.clone(), 10)).collect();
    keys.iter().step_by(2).for_each(|key| assert!(handle.cancel(key).is_ok()));
    queue.clear();
    assert_eq!((Rc::strong_count(&value), queue.len()), (1, 0));
}

struct Nobody;

impl Wake for Nobody {
    fn wake(self: Arc<Self>) {}
}

fn ms(millis: u64) -> Duration {
    Duration::from_millis(millis)
}

fn paused() -> tokio::runtime::Runtime {
    tokio::runtime::Builder::new_current_thread().enable_time().start_paused(true).build().expect("a runtime")
}

/// As in each turn of a `select!`, also after an insert that comes later.
#[test]
fn a_task_that_waits_asks_the_store_no_more() {
    paused().block_on(async {
        let mut queue = DelayQueue::new();
        let waker = Waker::from(Arc::new(Nobody));
        let poll = |queue: &mut DelayQueue<String>| {
            let before = ASKED.with(Cell::get);
            assert!(queue.poll_expired(&mut Context::from_waker(&waker)).is_pending());
            ASKED.with(Cell::get) - before
        };
        (0..1_000).for_each(|at| _ = queue.insert("waits".to_string(), ms(100 + at)));
        assert!(poll(&mut queue) > 0);
        for _ in 0..100 {
            queue.insert("later".to_string(), ms(5_000));
            assert_eq!(poll(&mut queue), 0);
        }
    });
}

/// A queue whose handle extends entries between a look at them and what rests on the look.
struct Overtaken {
    queue: DelayQueue<String>,
    handle: Handle,
}

impl Overtaken {
    fn new(last_stamp: u32) -> Overtaken {
        let mut queue = DelayQueue::with_last_stamp(0, last_stamp);
        queue.set_budget(u32::MAX);
        let handle = queue.handle();
        Overtaken { queue, handle }
    }

    fn insert(&mut self, value: &str, when: u64) -> Key {
        self.queue.insert(value.to_string(), ms(when))
    }

    /// After the next look the handle extends an entry, to so many milliseconds from then. Where it is told the deadline.
    fn extend_after_look(&self, key: Key, by: u64) -> Rc<Cell<Option<Instant>>> {
        let (handle, accepted) = (self.handle.clone(), Rc::<Cell<Option<Instant>>>::default());
        let told = accepted.clone();
        let call = move || told.set(handle.extend(&key, ms(by)).ok());
        AFTER_LOOK.with(|it| it.set(Some(Box::new(call))));
        accepted
    }

    /// The value that a poll gives, which isn't early; none where it is pending.
    fn polled(&mut self) -> Option<String> {
        match self.queue.poll_expired(&mut Context::from_waker(&Waker::from(Arc::new(Nobody)))) {
            Poll::Ready(Some(out)) => {
                assert!(
                    out.deadline() <= Instant::now(),
                    "{} is early by {:?}",
                    out.get_ref(),
                    out.deadline() - Instant::now()
                );
                Some(out.into_inner())
            }
            Poll::Ready(None) => panic!("the queue isn't empty"),
            Poll::Pending => None,
        }
    }
}

/// An entry that is due is extended after `look` has told that it comes first, and waits until then.
fn extended_after(look: fn(&DelayQueue<String>)) {
    for last_stamp in [1, 2, LAST_STAMP] {
        paused().block_on(async {
            let mut it = Overtaken::new(last_stamp);
            let key = it.insert("extended", 10);
            it.insert("beside", 10);
            it.insert("later", 20);
            advance(ms(30)).await;
            look(&it.queue);
            let accepted = it.extend_after_look(key, 500);
            assert_eq!(it.polled().as_deref(), Some("beside"));
            let deadline = accepted.take().expect("the entry waits, so an extend is accepted");
            assert_eq!((it.queue.deadline(&key), it.queue.len()), (deadline, 2));
            assert_eq!(it.polled().as_deref(), Some("later"));
            assert_eq!((it.polled(), it.queue.peek()), (None, Some(key)));
            // Its handle finds it as before.
            let deadline = it.handle.extend(&key, ms(700)).expect("a live entry");
            assert_eq!(it.queue.deadline(&key), deadline);
            advance(ms(699)).await;
            assert_eq!(it.polled(), None);
            advance(ms(1)).await;
            assert_eq!((it.polled().as_deref(), it.queue.len()), (Some("extended"), 0));
        });
    }
}

#[test]
fn an_entry_that_a_peek_named_and_a_handle_extends_stays_until_then() {
    extended_after(|queue| _ = queue.peek());
}

#[test]
fn an_entry_that_the_numbers_looked_at_and_a_handle_extends_stays_until_then() {
    extended_after(|queue| _ = queue.numbers());
}

#[test]
fn an_entry_that_is_cancelled_after_a_look_at_it_never_comes_out() {
    paused().block_on(async {
        let mut it = Overtaken::new(LAST_STAMP);
        let key = it.insert("cancelled", 10);
        it.insert("beside", 10);
        advance(ms(30)).await;
        assert_eq!(it.queue.peek(), Some(key));
        let handle = it.handle.clone();
        AFTER_LOOK.with(|call| call.set(Some(Box::new(move || assert!(handle.cancel(&key).is_ok())))));
        assert_eq!(it.polled().as_deref(), Some("beside"));
        assert!(it.queue.try_remove(&key).is_none() && it.handle.extend(&key, ms(9)).is_err());
    });
}

/// Each of them stays in its slot under its key, and the next one fills another.
#[test]
fn entries_that_are_extended_one_after_the_other_keep_their_keys() {
    paused().block_on(async {
        let mut it = Overtaken::new(LAST_STAMP);
        let mut keys = Vec::new();
        advance(ms(5)).await;
        for round in 0..100 {
            let key = it.insert(&round.to_string(), 0);
            assert_eq!(it.queue.peek(), Some(key));
            let accepted = it.extend_after_look(key, 1_000 + round);
            assert_eq!(it.polled(), None);
            assert!(accepted.take().is_some(), "{round}");
            keys.push(key);
            if round == 60 {
                it.queue.compact();
            }
        }
        for (round, key) in keys.iter().enumerate() {
            let deadline = it.handle.extend(key, ms(2_000 + round as u64)).expect("a live entry");
            assert_eq!(it.queue.deadline(key), deadline, "{round}");
        }
        for key in keys.iter().step_by(3) {
            it.handle.cancel(key).expect("a live entry");
        }
        advance(ms(2_100)).await;
        for round in (0..100).filter(|round| round % 3 != 0) {
            assert_eq!(it.polled(), Some(round.to_string()));
            assert!(it.handle.extend(&keys[round], ms(1)).is_err());
        }
        assert!(it.queue.poll_expired(&mut Context::from_waker(&Waker::from(Arc::new(Nobody)))).is_ready());
        assert!(it.queue.is_empty());
    });
}

#[test]
fn the_numbers_tell_how_late_the_first_is_though_a_handle_extends_it_meanwhile() {
    paused().block_on(async {
        let mut it = Overtaken::new(LAST_STAMP);
        let key = it.insert("extended", 10);
        it.insert("beside", 11);
        advance(ms(30)).await;
        let accepted = it.extend_after_look(key, 500);
        let late = it.queue.numbers().late;
        assert!(accepted.take().is_some() && late >= ms(19), "{late:?}");
        assert_eq!(it.queue.numbers().late, ms(19));
    });
}
