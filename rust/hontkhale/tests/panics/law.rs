//! The law of a queue, gone through slot by slot and list by list: what the proofs say of its links, bits, counts and
//! words, looked up in memory. Tests call it where a call was left by a panic, which the proofs know nothing of.
//!
//! It takes as long as the queue has slots, so no other call makes it.

use crate::core::{DelayCore, Slots, Words};
use crate::ticks::Mark;
use crate::wheels::lists::{list_of, Row, NOT_FILED};
use crate::wheels::{Wheel, LISTS};
use alloc::vec;
use alloc::vec::Vec;
use core::mem;

type Broken = &'static str;

// What is said of a queue that isn't as it has to be.
fn holds(is_so: bool, otherwise: Broken) -> Result<(), Broken> {
    if is_so {
        Ok(())
    } else {
        Err(otherwise)
    }
}

// Whether a bit of a row of words is set.
fn is_set(bits: &[u64], at: usize) -> bool {
    bits[at / 64] >> (at % 64) & 1 == 1
}

// The bits that are set; each word that has one is told by its summary.
fn counted(bits: &[u64], summary: &[u64]) -> Result<usize, Broken> {
    for (at, word) in bits.iter().enumerate() {
        holds(
            is_set(summary, at) == (*word != 0),
            "a summary tells of a word what isn't so",
        )?;
    }
    Ok(bits.iter().map(|word| word.count_ones() as usize).sum())
}

// Walks a list by its links and returns how many indexes stand in it.
fn walked(wheel: &Wheel, list: usize) -> Result<usize, Broken> {
    let lists = &wheel.lists;
    let rows: &[Row] = &lists.rows;
    let (capacity, head) = (lists.capacity(), lists.capacity() + list);
    let (mut at, mut count) = (head, 0);
    loop {
        let next = rows[at].next as usize;
        holds(rows[next].prev as usize == at, "a link back isn't the link ahead")?;
        if next == head {
            return Ok(count);
        }
        holds(next < capacity, "a list leads to the head of another one")?;
        holds(
            usize::from(lists.home(next)) == list + 1,
            "an index stands in a list that isn't its home",
        )?;
        let filed = lists.filed(next);
        holds(wheel.tick() <= filed, "an index is filed before the wheel's tick")?;
        holds(
            list_of(wheel.tick(), filed) == list,
            "an index stands in a list that isn't its tick's",
        )?;
        (at, count) = (next, count + 1);
        holds(count <= capacity, "a list has no end")?;
    }
}

fn wheel_holds(wheel: &Wheel) -> Result<(), Broken> {
    let lists = &wheel.lists;
    let mut linked = 0;
    for list in 0..LISTS {
        let count = walked(wheel, list)?;
        let is_marked = is_set(&lists.maps, list);
        holds(is_marked == (count > 0), "an occupancy bit isn't its list's")?;
        linked += count;
    }
    let loose = (0..lists.capacity()).filter(|index| lists.home(*index) == 0);
    let mut count = 0;
    for index in loose {
        holds(lists.rows[index].filed == NOT_FILED, "a loose index is filed")?;
        count += 1;
    }
    holds(
        linked + count == lists.capacity(),
        "an index is neither loose nor in its list",
    )?;
    Ok(())
}

// How often each slot is given away as free.
fn times_free<T>(slots: &Slots<T>) -> Result<Vec<usize>, Broken> {
    counted(&slots.free.bits, &slots.free.summary)?;
    let mut times = vec![0; slots.capacity()];
    for (index, times) in times.iter_mut().enumerate() {
        let recent = slots.free.recent.iter().filter(|at| usize::from(**at) == index);
        *times = recent.count() + usize::from(is_set(&slots.free.bits, index));
    }
    Ok(times)
}

fn slots_hold<T>(slots: &Slots<T>) -> Result<(), Broken> {
    let (deferred, worn) = (&slots.deferred, &slots.deferred_worn);
    holds(
        counted(&deferred.bits, &deferred.summary)? == deferred.count,
        "a count isn't that of its bits",
    )?;
    holds(
        counted(&worn.bits, &worn.summary)? == worn.count,
        "a count isn't that of its bits",
    )?;
    let free = times_free(slots)?;
    let (mut held, mut fit) = (0, 0);
    for (index, cell) in slots.cells.iter().enumerate() {
        let has_stamp = cell.stamp < slots.last();
        let waits = is_set(&deferred.bits, index);
        let waits_worn = is_set(&worn.bits, index);
        let is_held = cell.born > 0;
        held += usize::from(is_held);
        fit += usize::from(!is_held && has_stamp);
        holds(cell.born <= cell.stamp, "an entry is born after its slot's stamp")?;
        holds(!is_held || cell.value.is_some(), "an entry has no value")?;
        holds(
            !waits || (!is_held && has_stamp),
            "a slot that can't be taken counts as one whose value waits",
        )?;
        holds(
            !waits_worn || (!is_held && !has_stamp),
            "a slot with a stamp left counts as worn",
        )?;
        holds(
            free[index] == usize::from(!is_held && has_stamp && !waits),
            "a slot isn't free just once",
        )?;
        let may_lie = is_held || waits || waits_worn || !mem::needs_drop::<T>();
        holds(may_lie || cell.value.is_none(), "a value waits that no bit tells of")?;
        holds(
            !(waits || waits_worn) || cell.value.is_some(),
            "a bit tells of a value that isn't there",
        )?;
    }
    holds(held == slots.held_count, "the count of entries isn't theirs")?;
    holds(fit == slots.free_count, "the count of free slots isn't theirs")
}

impl<T, W: Words> DelayCore<T, W> {
    /// Goes through all that the queue keeps, for tests: each list by its links, each bit, count and word.
    ///
    /// # Errors
    /// What isn't as it has to be.
    pub fn check_law(&mut self) -> Result<(), Broken> {
        wheel_holds(&self.wheel)?;
        slots_hold(&self.slots)?;
        holds(
            self.wheel.tick() <= self.noted,
            "the wheel's tick is after the noted one",
        )?;
        for index in 0..self.slots.capacity() {
            let filed = self.wheel.filed(index);
            holds(
                self.slots.is_held(index) == filed.is_some(),
                "an entry isn't filed, or what is filed is none",
            )?;
            let Some(filed) = filed else {
                continue;
            };
            let word = self.words.look(index);
            holds(word.stamp == self.slots.stamp(index), "a word's stamp isn't its slot's")?;
            match word.mark {
                Mark::LiveMark => holds(filed <= word.field, "an entry is filed after its deadline")?,
                Mark::CancelledMark => {}
                _ => Err("an entry's word is that of one that came out")?,
            }
        }
        let ended = self.expired + self.removed;
        holds(
            ended + self.slots.linked() as u64 <= self.inserted,
            "more came out than went in",
        )
    }
}

impl<T> crate::shards::ShardState<T> {
    /// Goes through all that the shard keeps, for tests: its queue, and that a parked poller waits for no later tick
    /// than the next wake.
    ///
    /// # Errors
    /// What isn't as it has to be.
    pub fn check_law(&mut self) -> Result<(), Broken> {
        self.watched.core.check_law()?;
        let next_wake = self.next_wake();
        let waits_lawfully = match (self.parked(), next_wake) {
            (None, _) => true,
            (Some(until), Some(wake)) => until <= wake,
            (Some(_), None) => false,
        };
        holds(waits_lawfully, "a poller is parked until after the next wake")
    }
}

mod tests {
    use super::Broken;
    use crate::core::{CoreConfig, DelayCore, Steps, VecWords};
    use crate::ticks::Key;
    use crate::wheels::LISTS;
    use alloc::boxed::Box;
    use alloc::vec::Vec;

    type Queue = DelayCore<Box<u64>, VecWords>;

    const CAPACITY: usize = 70;

    /// A queue of slots of each kind: entries near and far, cancelled ones, free slots, worn ones, and such as have a deferred
    /// value.
    fn queue() -> Queue {
        let config = CoreConfig {
            shard: 0,
            capacity: CAPACITY,
            last_stamp: 2,
        };
        let words = VecWords::new(CAPACITY).expect("memory");
        let mut queue = Queue::new(config, words).expect("a queue");
        let mut keys: Vec<Key> = (0..50u64)
            .map(|at| queue.insert(Box::new(at), 400 + at * at * 97).expect("a slot"))
            .collect();
        for key in &mut keys[..8] {
            *key = queue.reset(&key.entry(), 700).expect("it waits");
        }
        keys[..16]
            .iter()
            .for_each(|key| _ = queue.cancel(key).expect("it waits"));
        keys[16..20]
            .iter()
            .for_each(|key| drop(queue.remove(&key.entry()).expect("it waits")));
        queue.sweep_some_deferring(4, 8);
        assert!(queue.poll_deferring(300).is_ok());
        queue
    }

    fn row(queue: &mut Queue, at: usize) -> &mut crate::wheels::lists::Row {
        &mut queue.wheel.lists.rows[at]
    }

    /// What was planted, and a fault that a panic amid a call could leave.
    type Plant = (&'static str, fn(&mut Queue));

    const PLANTS: [Plant; 27] = [
        ("a link back", |queue| row(queue, 30).prev = 31),
        ("a link ahead", |queue| row(queue, 30).next = 31),
        ("a head's link", |queue| {
            let head = row(queue, 30).home as usize - 1 + CAPACITY;
            row(queue, head).next = head as u32;
        }),
        ("a home", |queue| row(queue, 30).home += 1),
        ("no home", |queue| row(queue, 30).home = 0),
        ("a filing in another list", |queue| row(queue, 30).filed -= 80_000),
        ("a later filing", |queue| row(queue, 30).filed += 1),
        ("a filing of nothing", |queue| {
            let loose = (0..CAPACITY).find(|at| !queue.slots.is_held(*at)).expect("a slot");
            row(queue, loose).filed = 5_000;
        }),
        ("a bit of an empty list", |queue| {
            let list = (0..LISTS).find(|list| !super::is_set(&queue.wheel.lists.maps, *list));
            let list = list.expect("an empty list");
            queue.wheel.lists.maps[list / 64] |= 1 << (list % 64);
        }),
        ("no bit of a list", |queue| {
            let list = (0..LISTS).find(|list| super::is_set(&queue.wheel.lists.maps, *list));
            let list = list.expect("a list");
            queue.wheel.lists.maps[list / 64] &= !(1 << (list % 64));
        }),
        ("a stamp", |queue| queue.slots.cells[30].stamp += 1),
        ("a birth after the stamp", |queue| queue.slots.cells[30].born += 1),
        ("no birth", |queue| queue.slots.cells[30].born = 0),
        ("no value", |queue| queue.slots.cells[30].value = None),
        ("a value of nothing", |queue| {
            queue.slots.cells[60].value = Some(Box::new(0))
        }),
        ("a count of entries", |queue| queue.slots.held_count += 1),
        ("a count of free slots", |queue| queue.slots.free_count -= 1),
        ("a free slot that is held", |queue| queue.slots.free.recent.push(30)),
        ("a free slot less", |queue| {
            let (at, word) = queue
                .slots
                .free
                .bits
                .iter_mut()
                .enumerate()
                .find(|it| *it.1 > 0)
                .expect("a bit");
            *word &= *word - 1;
            if *word == 0 {
                queue.slots.free.summary[at / 64] &= !(1 << (at % 64));
            }
        }),
        ("a summary", |queue| queue.slots.free.summary[0] ^= 1),
        ("a count of deferred values", |queue| queue.slots.deferred.count += 1),
        ("a bit of deferred values", |queue| {
            queue.slots.deferred.bits[0] ^= 1 << 30
        }),
        ("a count of worn slots' values", |queue| {
            queue.slots.deferred_worn.count += 1
        }),
        ("a word that was removed", |queue| {
            let stamp = queue.slots.stamp(30);
            queue.words.finish(30, stamp).expect("a live word");
        }),
        ("a word's stamp", |queue| {
            let stamp = queue.slots.stamp(30);
            queue.words.renew(30, stamp, 60_000_000).expect("a live word");
        }),
        ("a noted tick", |queue| queue.noted = 299),
        ("a count of inserts", |queue| queue.inserted = 40),
    ];

    #[test]
    fn each_planted_fault_is_found_and_no_other() {
        assert_eq!(queue().check_law(), Ok(()));
        let missed = |(what, plant): &Plant| -> Option<&'static str> {
            let mut queue = queue();
            assert!(queue.slots.is_held(30) && queue.deferred() > 0);
            plant(&mut queue);
            let found: Result<(), Broken> = queue.check_law();
            found.is_ok().then_some(*what)
        };
        let missed: Vec<&str> = PLANTS.iter().filter_map(missed).collect();
        assert!(missed.is_empty(), "{missed:?}");
    }
}

#[path = "../models/draw.rs"]
mod draw;

mod drawn {
    //! Drawn calls of a queue over plain words, and over shared ones.

    use super::draw::{calls, Draw};
    use crate::core::{CoreConfig, DelayCore, VecWords, Words};
    use crate::ticks::{Key, LAST_TICK};
    use crate::words::{numbered_queue, Keeper};

    type Over<W> = DelayCore<Box<u64>, W>;

    /// A call by a key: an extend to a tick, or a cancel.
    type ByKey<'c, W> = &'c mut dyn FnMut(&mut Over<W>, &Key, Option<u64>);

    fn call<W: Words>(queue: &mut Over<W>, draw: &mut Draw, keys: &mut Vec<Key>, by_key: ByKey<'_, W>) {
        let tick = queue.noted() + draw.of_bits(12);
        let (near, far) = (tick + draw.of_bits(37), LAST_TICK - draw.of_bits(37));
        let when = draw.one_of(&[tick, near, far]);
        let most = draw.below(70);
        let key = draw.one_of(&keys[keys.len().saturating_sub(100)..]);
        match draw.below(20) {
            0..=5 => keys.extend(queue.insert(Box::new(when), when).ok()),
            6 | 7 => keys.extend(queue.reset(&key.entry(), when).ok()),
            8 => drop(queue.remove(&key.entry())),
            9 => drop(queue.reap(&key.entry())),
            10 | 11 => by_key(queue, &key, Some(when)),
            12 | 13 => by_key(queue, &key, None),
            14 => drop(queue.poll(tick)),
            15 => drop(queue.poll_deferring(tick)),
            16 | 17 => drop(queue.poll_some(tick, most as u32)),
            18 => drop(queue.sweep_some(draw.below(70) as usize, most as usize)),
            _ if draw.one_in(8) => drop(queue.clear()),
            _ => drop(queue.sweep()),
        }
    }

    /// A round of calls, after each of which the law is gone through, and after a fold of the queue that is cleared.
    fn play<W: Words>(mut queue: Over<W>, draw: &mut Draw, by_key: ByKey<'_, W>) {
        let mut keys = vec![queue.insert(Box::new(1), 1).expect("a slot")];
        for _ in 0..200 {
            call(&mut queue, draw, &mut keys, by_key);
            assert_eq!(queue.check_law(), Ok(()), "after a call");
        }
        queue.clear();
        let folded = queue.fold().ok().expect("a queue that holds nothing");
        let mut unfolded: Over<W> = folded.unfold().ok().expect("memory");
        assert_eq!(unfolded.check_law(), Ok(()), "after a fold");
    }

    #[test]
    fn the_law_holds_after_each_drawn_call() {
        let mut draw = Draw::new(71);
        for _ in 0..calls() / 1_000 {
            let config = CoreConfig {
                shard: 0,
                capacity: draw.one_of(&[1, 2, 3, 5, 16, 64, 70]),
                last_stamp: draw.one_of(&[1, 2, 7, 200, 1_048_575]),
            };
            let words = VecWords::new(config.capacity).expect("memory");
            let plain = Over::<VecWords>::new(config, words).ok().expect("a queue");
            play(plain, &mut draw, &mut |queue, key, when| match when {
                Some(when) => drop(queue.extend(key, when)),
                None => drop(queue.cancel(key)),
            });
            let mut shared = numbered_queue(config).expect("a queue");
            let mut caller = shared.issue().expect("a caller");
            play(shared, &mut draw, &mut |_: &mut Over<Keeper>, key, when| match when {
                Some(when) => drop(caller.extend(key, when)),
                None => drop(caller.cancel(key)),
            });
        }
    }
}
