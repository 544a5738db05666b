//! A poll in pieces beside a whole one, a sweep of some slots, and a reap of one entry, with values that are counted.

use hontkhale::parts::owner::{
    shared_queue, Caller, CoreError, DelayCore, Expired, Keeper, Key, Piece, ReapError, Turn, LAST_TICK,
};
use std::collections::BTreeSet;
use std::rc::Rc;

const ENTRIES: usize = 3_000;

/// Marsaglia's xorshift.
struct Dice(u64);

impl Dice {
    fn below(&mut self, limit: u64) -> u64 {
        self.0 ^= self.0 << 13;
        self.0 ^= self.0 >> 7;
        self.0 ^= self.0 << 17;
        self.0 % limit
    }
}

/// A value that is counted while it is held.
#[derive(Debug)]
struct Held(usize, #[allow(dead_code)] Rc<()>);

/// A queue of entries of which a caller extended some and cancelled others, and the values that it holds.
struct Side {
    queue: DelayCore<Held, Keeper>,
    keys: Vec<Key>,
    caller: Caller,
    values: Rc<()>,
}

impl Side {
    fn new(seed: u64) -> Side {
        let mut queue = shared_queue(ENTRIES).unwrap();
        let (mut dice, values) = (Dice(seed), Rc::new(()));
        let caller = queue.issue().unwrap();
        let mut whens: Vec<u64> = (0..ENTRIES).map(|_| 1 + dice.below(80_000)).collect();
        whens[ENTRIES / 2..].fill(70_000);
        let held = whens
            .iter()
            .enumerate()
            .map(|(at, when)| (Held(at, values.clone()), when));
        let keys = held
            .map(|(value, when)| queue.insert_or_drop(value, *when).unwrap())
            .collect();
        let mut side = Side {
            queue,
            keys,
            caller,
            values,
        };
        for (key, when) in side.keys.iter().zip(whens) {
            match dice.below(6) {
                0 => drop(side.caller.extend(key, when + dice.below(20_000)).unwrap()),
                1 => drop(side.caller.cancel(key).unwrap()),
                _ => {}
            }
        }
        side
    }

    /// How many values the queue holds.
    fn held(&self) -> usize {
        Rc::strong_count(&self.values) - 1
    }

    fn cancelled(&self) -> usize {
        self.caller.cancels() as usize
    }
}

/// The deadlines in the order in which they came, and the values as a set: those of one tick come in any order.
fn told(outs: Vec<Expired<Held>>) -> (Vec<u64>, BTreeSet<usize>) {
    (
        outs.iter().map(|out| out.deadline).collect(),
        outs.iter().map(|out| out.value.0).collect(),
    )
}

/// More calls than any poll here takes, each of which makes a step at least.
const MOST_CALLS: usize = 100 * ENTRIES;

/// Polls to the end in pieces: what came out, the next tick, and how many calls said Working.
fn in_pieces<T>(queue: &mut DelayCore<T, Keeper>, now: u64, most: u32) -> (Vec<Expired<T>>, Option<u64>, usize) {
    let (mut outs, mut workings) = (Vec::new(), 0);
    loop {
        match queue.poll_some(now, most).unwrap() {
            Piece::Answer(Turn::Out(out)) => outs.push(out),
            Piece::Answer(Turn::Waiting { next }) => return (outs, Some(next), workings),
            Piece::Answer(Turn::Idle) => return (outs, None, workings),
            Piece::Working => workings += 1,
        }
        assert!(workings < MOST_CALLS, "pieces of {most} steps come to no end");
    }
}

#[test]
fn pieces_are_the_whole_poll() {
    for most in [1, 2, 3, 10, 64, 1_000, u32::MAX] {
        let (mut one, mut other) = (Side::new(0x9e37_79b9), Side::new(0x9e37_79b9));
        let (mut now, mut workings) = (0, 0);
        while now < 200_000 {
            let outs: Vec<_> = due!(one.queue, now).collect();
            let (pieces, rest, count) = in_pieces(&mut other.queue, now, most);
            assert_eq!(one.queue.next_wake().is_some(), rest.is_some());
            assert!(rest.map_or(true, |tick| tick > now));
            assert_eq!(told(outs), told(pieces));
            // Pieces look at each entry that moves, and reap those that are found cancelled sooner.
            assert!(other.held() <= one.held());
            workings += count;
            now += 1 + now / 2;
        }
        assert!(most > 10 || workings > ENTRIES / 10);
        assert_eq!((one.held(), other.held(), other.queue.is_empty()), (0, 0, true));
        let (tally, pieces) = (one.queue.tally(), other.queue.tally());
        assert_eq!((tally.expired, tally.cancelled), (pieces.expired, pieces.cancelled));
    }
}

/// How many calls a poll takes in which nothing comes out.
fn calls_of(most: u32) -> usize {
    let mut side = Side::new(11);
    for key in &side.keys {
        let _ = side.caller.extend(key, 1_000_000);
    }
    let (outs, next, workings) = in_pieces(&mut side.queue, 500_000, most);
    assert!(outs.is_empty() && next.is_some());
    workings + 1
}

// promise: core.piece-looks
#[test]
fn a_piece_makes_so_many_steps() {
    let steps = calls_of(1);
    assert!(steps > ENTRIES);
    // Few steps first: a look that leaves all as it was would make one call of many go on for ever.
    for most in [2, 3, 7, 64, 500] {
        assert_eq!(calls_of(most), steps.div_ceil(most as usize), "{most}");
    }
    assert_eq!(calls_of(u32::MAX), 1);
}

#[test]
fn no_step_notes_the_tick_alone() {
    let mut side = Side::new(5);
    let held = side.held();
    for _ in 0..1_000 {
        assert!(matches!(side.queue.poll_some(90_000, 0), Ok(Piece::Working)));
    }
    assert_eq!(
        (side.held(), side.queue.tally().expired, side.queue.tally().cancelled),
        (held, 0, 0)
    );
    for tick in [LAST_TICK + 1, u64::MAX] {
        for most in [0, 1, u32::MAX] {
            let refused = side.queue.poll_some(tick, most).unwrap_err();
            assert_eq!(refused, CoreError::TickTooLarge { limit: LAST_TICK });
        }
    }
    // The tick that was noted stays.
    let (outs, _, _) = in_pieces(&mut side.queue, 0, 5);
    assert!(outs.iter().any(|out| out.deadline > 70_000));
    assert!(matches!(
        side.queue.poll_some(LAST_TICK, u32::MAX),
        Ok(Piece::Answer(Turn::Out(_) | Turn::Idle))
    ));
}

/// One other call at a key that is drawn. `left` has the values of the live entries.
fn another_call(side: &mut Side, dice: &mut Dice, left: &mut BTreeSet<usize>, next: &mut usize) {
    let key = side.keys[dice.below(side.keys.len() as u64) as usize];
    match dice.below(5) {
        0 if side.queue.len() < ENTRIES => {
            let value = Held(*next, side.values.clone());
            side.keys
                .push(side.queue.insert_or_drop(value, dice.below(150_000)).unwrap());
            left.insert(*next);
            *next += 1;
        }
        1 => drop(side.queue.reset(&key.entry(), dice.below(150_000))),
        2 => {
            let taken = side.queue.remove(&key.entry());
            assert!(taken.map_or(true, |out| left.remove(&out.value.0)));
        }
        3 => drop(side.caller.extend(&key, dice.below(150_000))),
        _ => {
            let value = side.queue.get(&key.entry()).map(|held| held.0);
            if side.caller.cancel(&key).is_ok() {
                assert!(left.remove(&value.unwrap()));
            }
        }
    }
}

fn live_values(side: &mut Side) -> BTreeSet<usize> {
    let (queue, keys) = (&mut side.queue, &side.keys);
    let live = keys
        .iter()
        .map(Key::entry)
        .filter(|entry| queue.deadline(entry).is_ok())
        .collect::<Vec<_>>();
    live.iter().map(|entry| queue.get(entry).unwrap().0).collect()
}

#[test]
fn every_call_may_come_between_the_pieces() {
    let mut dice = Dice(3);
    for most in [1, 5, 40] {
        let mut side = Side::new(77);
        let mut left = live_values(&mut side);
        let (mut next, mut late) = (ENTRIES, 0);
        loop {
            match side.queue.poll_some(75_000, most).unwrap() {
                Piece::Answer(Turn::Out(out)) => {
                    assert!(out.deadline <= 75_000 && left.remove(&out.value.0));
                    late = late.max(out.deadline);
                }
                Piece::Working => {}
                Piece::Answer(Turn::Waiting { .. } | Turn::Idle) => break,
            }
            another_call(&mut side, &mut dice, &mut left, &mut next);
        }
        assert!(late > 70_000);
        assert_eq!(live_values(&mut side), left);
        let early = |key: &Key| {
            side.queue
                .deadline(&key.entry())
                .is_ok_and(|deadline| deadline <= 75_000)
        };
        // What a call put in behind the last piece is due at once.
        assert!(side.keys.iter().copied().filter(early).count() <= 1);
        side.queue.sweep();
        assert_eq!(side.held(), left.len());
    }
}

#[test]
fn a_sweep_of_some_slots_drops_their_values() {
    let mut side = Side::new(21);
    let (cancelled, before) = (side.cancelled(), live_values(&mut side));
    let (mut reaped, mut from) = (0, Some(0));
    assert_eq!((side.held(), side.queue.len()), (ENTRIES, ENTRIES));
    while let Some(slot) = from {
        let swept = side.queue.sweep_some(slot, 70);
        assert_eq!(swept.next, Some(slot + 70).filter(|&it| it < ENTRIES));
        assert!(swept.reaped <= 70);
        reaped += swept.reaped;
        assert_eq!(
            (side.held(), side.queue.len()),
            (ENTRIES - reaped, ENTRIES - reaped),
            "its slots, and no others"
        );
        from = swept.next;
    }
    assert_eq!(
        (reaped, side.queue.sweep(), side.held()),
        (cancelled, 0, ENTRIES - cancelled)
    );
    assert_eq!(live_values(&mut side), before);
    for (from, count) in [
        (usize::MAX, usize::MAX),
        (0, usize::MAX),
        (ENTRIES, 0),
        (ENTRIES + 9, 1),
    ] {
        let swept = side.queue.sweep_some(from, count);
        assert_eq!((swept.reaped, swept.next), (0, None));
    }
    assert_eq!(side.queue.sweep_some(5, 0).next, Some(5));
    assert_eq!(in_pieces(&mut side.queue, 200_000, 9).0.len(), ENTRIES - cancelled);
}

#[test]
fn a_reap_takes_one_entry_out() {
    let (mut queue, value) = (shared_queue(3).unwrap(), Rc::new(()));
    let insert = |when| queue.insert_or_drop(Held(0, value.clone()), when).unwrap();
    let keys: Vec<Key> = (0..3).map(insert).collect();
    let mut caller = queue.issue().unwrap();
    assert!(keys.iter().all(|key| queue.reap(&key.entry()) == Err(ReapError::Live)));
    assert_eq!((caller.cancel(&keys[0]), caller.cancel(&keys[1])), (Ok(0), Ok(1)));
    assert_eq!(
        (queue.reap(&keys[1].entry()), Rc::strong_count(&value), queue.len()),
        (Ok(()), 3, 2)
    );
    assert_eq!(queue.reap(&keys[1].entry()), Err(ReapError::Missing));
    let again = queue.insert_or_drop(Held(1, value.clone()), 50).unwrap();
    assert_eq!(
        (again.entry().index(), queue.reap(&keys[1].entry())),
        (1, Err(ReapError::Missing))
    );
    assert_eq!(queue.reap(&again.entry()), Err(ReapError::Live));
    assert!(matches!(queue.poll(0), Ok(Turn::Waiting { .. })));
    // The poll has reaped it already.
    assert_eq!(
        (queue.reap(&keys[0].entry()), queue.len()),
        (Err(ReapError::Missing), 2)
    );
    assert_eq!(
        (caller.cancel(&again), queue.get(&again.entry()).map(|held| held.0)),
        (Ok(50), Some(1))
    );
    assert_eq!(
        (queue.reap(&again.entry()), Rc::strong_count(&value), queue.len()),
        (Ok(()), 2, 1)
    );
    assert_eq!(ReapError::Live.to_string(), "the entry is live");
}

/// The iterator beside single polls.
#[test]
fn many_at_once_are_one_by_one() {
    for entries in [0, 1, 63, 64, 65, 200] {
        let mut one_by_one = DelayCore::with_capacity(1_000).unwrap();
        let mut at_once = DelayCore::with_capacity(1_000).unwrap();
        for entry in 0..entries {
            let when = entry * 37 % 101;
            one_by_one.insert_or_drop(entry, when).unwrap();
            at_once.insert_or_drop(entry, when).unwrap();
        }
        at_once.insert_or_drop(entries, 500).unwrap();
        for many in due!(at_once, 200) {
            match one_by_one.poll(200) {
                Ok(Turn::Out(one)) => assert_eq!((one.value, one.deadline), (many.value, many.deadline)),
                turn => panic!("{turn:?}"),
            }
        }
        assert!(matches!(one_by_one.poll(200), Ok(Turn::Idle)));
        assert_eq!((at_once.next_wake().is_some(), due!(at_once, 500).count()), (true, 1));
        assert!(at_once.poll(LAST_TICK + 1).is_err() && at_once.is_empty());
    }
}
