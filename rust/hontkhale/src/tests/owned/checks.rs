//! One owner's queue, beside its worked cases: its entries, peeks, open slots, renewals, and threads that race.

use crate::tests::checks::queues;
use crate::tests::kit::same;

mod entries {
    //! The live entries of a queue over plain words, one after the other, and the value of one of them.

    use super::same;
    use crate::core::{CoreConfig, DelayCore, VecWords};
    use crate::tests::kit::Fail;
    use crate::ticks::{EntryId, Key};

    type Queue = DelayCore<String, VecWords>;

    // A queue of five slots, each of which is used twice at the most.
    fn queue_of_five() -> Result<Queue, Fail> {
        let config = CoreConfig {
            shard: 0,
            capacity: 5,
            last_stamp: 2,
        };
        let words = VecWords::new(5)?;
        match DelayCore::new(config, words) {
            Ok(queue) => Ok(queue),
            Err((error, _)) => Err(Fail::from(error)),
        }
    }

    fn inserted(queue: &mut Queue, name: &str, when: u64) -> Result<Key, Fail> {
        let value = String::from(name);
        Ok(queue.insert_or_drop(value, when)?)
    }

    // Each of those and nothing else is listed, in that order.
    fn lists(queue: &Queue, expected: &[(Key, u64, &str)]) {
        let mut rest = expected.iter();
        for entry in queue.entries() {
            let listed = (entry.key, entry.deadline, entry.value.as_str());
            same("entries", rest.next(), Some(&listed));
        }
        same("entries", rest.next(), None);
    }

    fn value_of<'a>(queue: &'a Queue, entry: &EntryId) -> Option<&'a str> {
        let value = queue.get(entry)?;
        Some(value.as_str())
    }

    // Uses up the slot that is free first.
    fn wears_a_slot(queue: &mut Queue) -> Result<(), Fail> {
        for name in ["first", "second"] {
            let key = inserted(queue, name, 5)?;
            lists(queue, &[(key, 5, name)]);
            queue.remove(&key.entry())?;
        }
        same("worn", queue.worn(), 1);
        Ok(())
    }

    fn is_reset(queue: &mut Queue, entry: &EntryId, when: u64) -> Result<Key, Fail> {
        Ok(queue.reset(entry, when)?)
    }

    fn is_extended(queue: &mut Queue, key: &Key, when: u64) {
        same("extend", queue.extend(key, when), Ok(when));
    }

    fn is_cancelled(queue: &mut Queue, key: &Key, when: u64) {
        same("cancel", queue.cancel(key), Ok(when));
    }

    fn is_swept(queue: &mut Queue, removed: usize) {
        same("sweep", queue.sweep(), removed);
    }

    // The queue of the test below, which drops it.
    fn lists_what_lives(queue: &mut Queue) -> Result<(), Fail> {
        let early = inserted(queue, "reset", 10)?;
        let cancelled = inserted(queue, "cancelled", 30)?;
        let extended = inserted(queue, "extended", 40)?;
        let reset = is_reset(queue, &early.entry(), 20)?;
        is_extended(queue, &extended, 50);
        is_cancelled(queue, &cancelled, 30);
        let live = [(reset, 20, "reset"), (extended, 50, "extended")];
        lists(queue, &live);
        let (early, cancelled) = (early.entry(), cancelled.entry());
        same("get", value_of(queue, &early), Some("reset"));
        same("get", value_of(queue, &cancelled), Some("cancelled"));
        is_swept(queue, 1);
        same("get", value_of(queue, &cancelled), None);
        lists(queue, &live);
        Ok(())
    }

    fn lists_all_along(queue: &mut Queue) -> Result<(), Fail> {
        lists(queue, &[]);
        wears_a_slot(queue)?;
        lists_what_lives(queue)
    }

    // A worn slot, one whose entry was reset, one whose entry is cancelled and still linked, one whose entry was
    // extended, and one that was never used.
    // promise: entries.plain-words
    #[test]
    fn live_entries_are_listed_once() -> Result<(), Fail> {
        let mut queue = queue_of_five()?;
        lists_all_along(&mut queue)
    }
}

mod front {
    //! The front door: queues made by their capacity, and an insert that `?` takes.

    use super::queues::issued;
    use super::same;
    use crate::core::{CoreConfig, CoreError, DelayCore, Turn, VecWords};
    use crate::tests::checks::front::plain_queue;
    use crate::tests::kit::Fail;
    use crate::ticks::{LAST_STAMP, LAST_TICK};
    use crate::words::{shared_queue, Caller, Keeper};

    // promise: core.numbers-out
    #[test]
    fn a_config_of_a_capacity() -> Result<(), Fail> {
        let config = CoreConfig {
            shard: 0,
            capacity: 7,
            last_stamp: LAST_STAMP,
        };
        same("of", CoreConfig::of(7), config);
        Ok(())
    }

    // Why an insert into a queue of two is refused.
    fn refused(queue: &mut DelayCore<char, VecWords>, when: u64) -> Option<CoreError> {
        queue.insert_or_drop('c', when).err()
    }

    // The queue takes two entries and no third, and gives the sooner.
    fn takes_two(queue: &mut DelayCore<char, VecWords>) -> Result<(), Fail> {
        queue.insert_or_drop('b', 20)?;
        queue.insert_or_drop('a', 10)?;
        let full = CoreError::Full { linked: 2, worn: 0 };
        same("insert", refused(queue, 5), Some(full));
        let late = LAST_TICK.saturating_add(1);
        let too_far = CoreError::TooFar { limit: LAST_TICK };
        same("late insert", refused(queue, late), Some(too_far));
        let Turn::Out(first) = queue.poll(10)? else {
            return Err(Fail::from("nothing came out"));
        };
        same("poll", (first.value, first.deadline), ('a', 10));
        Ok(())
    }

    // promise: core.numbers-out
    #[test]
    fn a_queue_by_its_capacity() -> Result<(), Fail> {
        let mut queue = plain_queue(2)?;
        takes_two(&mut queue)
    }

    // An entry that the caller extends doesn't come out at its first deadline.
    fn waits_longer(queue: &mut DelayCore<char, Keeper>, caller: &mut Caller) -> Result<(), Fail> {
        let key = queue.insert_or_drop('a', 10)?;
        same("extend", caller.extend(&key, 30), Ok(30));
        let Turn::Waiting { next } = queue.poll(10)? else {
            return Err(Fail::from("it came out before its deadline"));
        };
        same("poll", next, 30);
        Ok(())
    }

    // promise: core.numbers-out
    #[test]
    fn a_queue_that_callers_extend() -> Result<(), Fail> {
        let mut queue = shared_queue(2)?;
        let mut caller = issued(&mut queue)?;
        waits_longer(&mut queue, &mut caller)
    }
}

mod open_slots {
    //! Entries that are cancelled, extended or due while their slot is open, over shared words: by pieces they come out,
    //! move or are reaped as by a whole poll.

    use super::queues::{issued, over_shared};
    use super::same;
    use crate::core::{CoreError, DelayCore, Piece, Turn};
    use crate::tests::kit::Fail;
    use crate::ticks::{Key, LAST_STAMP};
    use crate::words::{Caller, Keeper};

    type Core = DelayCore<char, Keeper>;

    // The slot that starts here has all of them.
    const OPENS: u64 = 4_096;

    // With 'x' an entry that is due as the slot starts is cancelled, and with 'e' one is extended.
    const ENTRIES: [(char, u64); 6] = [
        ('d', OPENS),
        ('x', OPENS),
        ('e', OPENS),
        ('l', 5_000),
        ('c', 5_000),
        ('o', 5_000),
    ];

    // What comes out, at its deadline.
    const OUT: [(char, u64); 4] = [('d', OPENS), ('l', 5_000), ('e', 6_000), ('o', 7_000)];

    // The entries from that one on, and then those before it; with their keys, in the order of the row.
    fn filled(core: &mut Core, first: usize) -> Result<Vec<Key>, Fail> {
        let mut keys = Vec::new();
        for at in 0..ENTRIES.len() {
            let (value, when) = ENTRIES[(first + at) % ENTRIES.len()];
            keys.push(core.insert_or_drop(value, when)?);
        }
        keys.rotate_right(first);
        Ok(keys)
    }

    fn change(caller: &mut Caller, keys: &[Key]) {
        same("x", caller.cancel(&keys[1]), Ok(OPENS));
        same("e", caller.extend(&keys[2], 6_000), Ok(6_000));
        same("c", caller.cancel(&keys[4]), Ok(5_000));
        same("o", caller.extend(&keys[5], 7_000), Ok(7_000));
    }

    // A poll by pieces of so many steps, or a whole one where none are told.
    fn polled(core: &mut Core, tick: u64, most: u32) -> Result<Turn<char>, CoreError> {
        if most == 0 {
            return core.poll(tick);
        }
        for _piece in 0..100 {
            if let Piece::Answer(turn) = core.poll_some(tick, most)? {
                return Ok(turn);
            }
        }
        panic!("no answer at {tick} by pieces of {most} steps")
    }

    // All that comes out at a tick.
    fn comes_out(core: &mut Core, tick: u64, most: u32) -> Result<Vec<(char, u64)>, CoreError> {
        let mut out = Vec::new();
        while let Turn::Out(expired) = polled(core, tick, most)? {
            out.push((expired.value, expired.deadline));
        }
        Ok(out)
    }

    // The words change once the slot is open, or before a whole poll that opens it.
    fn goes_its_way(core: &mut Core, first: usize, most: u32) -> Result<(), Fail> {
        let mut caller = issued(core)?;
        let keys = filled(core, first)?;
        if most > 0 {
            let opens = core.poll_some(OPENS, 1)?;
            same("opens", matches!(opens, Piece::Working), true);
            same("hangs there", core.filed(&keys[3].entry()), Some(OPENS));
        }
        change(&mut caller, &keys);
        for (number, out) in OUT.iter().enumerate() {
            if number > 0 {
                same("before it", comes_out(core, out.1 - 1, most)?, Vec::new());
            }
            same("comes out", comes_out(core, out.1, most)?, vec![*out]);
            // A piece looks at each index that hangs with its slot, so it reaps at once what was cancelled.
            same("are left", core.len() == 3 - number, most > 0 || number > 0);
        }
        let tally = core.tally();
        same("ends", (tally.expired, tally.cancelled, tally.linked), (4, 2, 0));
        same("cancels", caller.give_back(), 2);
        Ok(())
    }

    // promise: core.poll-some-comes
    #[test]
    fn what_hangs_open_ends_as_by_a_whole_poll() -> Result<(), Fail> {
        for most in 0..=3 {
            for first in 0..ENTRIES.len() {
                let mut core: Core = over_shared(ENTRIES.len(), LAST_STAMP)?;
                goes_its_way(&mut core, first, most)?;
            }
        }
        Ok(())
    }
}

mod peeks {
    //! What a peek names between the pieces of a poll, while a slot is open, and how its caller looks further.

    use super::queues::plain;
    use super::same;
    use crate::core::{CoreError, DelayCore, Look, Piece, Turn, VecWords};
    use crate::tests::kit::Fail;
    use crate::ticks::{Key, LAST_STAMP};

    type Core = DelayCore<char, VecWords>;

    // The live entry that has the least deadline, found among all.
    fn least_live(core: &Core) -> Option<Key> {
        let mut least: Option<(u64, Key)> = None;
        for entry in core.entries() {
            match least {
                Some((deadline, _)) if deadline <= entry.deadline => {}
                _ => least = Some((entry.deadline, entry.key)),
            }
        }
        let (_, key) = least?;
        Some(key)
    }

    // What comes out next: the entry that a peek names, where it is filed at its deadline, and else one that has the
    // least.
    fn comes_next(core: &Core) -> Option<Key> {
        let named = core.peek()?;
        match core.look(&named) {
            Ok(Look::StillLive(deadline)) if core.filed(&named.entry()) == Some(deadline) => Some(named),
            _ => least_live(core),
        }
    }

    // What a piece of one step gives: the key of what came out, none where the poll goes on or waits.
    fn gives(core: &mut Core, tick: u64) -> Result<Option<Key>, CoreError> {
        match core.poll_some(tick, 1)? {
            Piece::Answer(Turn::Out(out)) => Ok(Some(out.key)),
            _ => Ok(None),
        }
    }

    // Two entries of the slot that starts at 4,096, where the wheel has the later one first.
    fn opens_a_slot(core: &mut Core) -> Result<(), Fail> {
        let late = core.insert_or_drop('l', 8_000)?;
        let early = core.insert_or_drop('e', 4_100)?;
        same("the piece that opens it", gives(core, 4_096), Ok(None));
        same("peek", core.peek(), Some(late));
        same("filed", core.filed(&late.entry()), Some(4_096));
        for _piece in 0..3 {
            same("next", comes_next(core), Some(early));
            same("a piece within it", gives(core, 4_096), Ok(None));
        }
        same("peek at its deadline", core.peek(), Some(early));
        same("arrival", gives(core, 4_100), Ok(None));
        same("out", gives(core, 4_100), Ok(Some(early)));
        Ok(())
    }

    // promise: core.live-entry
    #[test]
    fn peek_within_an_open_slot() -> Result<(), Fail> {
        let mut queue = plain(2, LAST_STAMP)?;
        opens_a_slot(&mut queue.core)
    }

    // Puts one entry in for each deadline, and answers their keys.
    fn inserted(core: &mut Core, deadlines: &[u64]) -> Result<Vec<Key>, Fail> {
        let mut keys = Vec::new();
        for deadline in deadlines {
            let key = core.insert_or_drop('e', *deadline)?;
            keys.push(key);
        }
        Ok(keys)
    }

    // Before each piece what comes next is known: the last of the keys, until it comes out.
    fn goes_by_pieces(core: &mut Core, keys: &mut Vec<Key>) {
        for _piece in 0..100 {
            let next = comes_next(core);
            same("next", next, keys.last().copied());
            match gives(core, 9_000) {
                Ok(Some(out)) => same("out", Some(out), keys.pop()),
                other => same("no refusal", other, Ok(None)),
            }
        }
        same("all came out", keys.len(), 0);
    }

    // promise: core.live-entry
    #[test]
    fn what_comes_next_is_known_before_each_piece() -> Result<(), Fail> {
        let mut queue = plain(9, LAST_STAMP)?;
        let falling = [8_300, 8_191, 8_000, 5_000, 4_200, 4_127, 4_100, 70, 3];
        let mut keys = inserted(&mut queue.core, &falling)?;
        goes_by_pieces(&mut queue.core, &mut keys);
        Ok(())
    }
}

mod race {
    //! A caller that extends, a caller that cancels and the keeper's own queue, each in a thread of its own.

    use super::queues::{issued, over_shared};
    use super::same;
    use crate::core::{CoreError, DelayCore, Turn};
    use crate::tests::kit::{join, Fail};
    use crate::ticks::{Key, LAST_STAMP};
    use crate::words::{Caller, Keeper};

    const ENTRIES: usize = 200;

    // By the deadline that an entry was inserted with: the deadline of an answer, 0 where there is none.
    type Answers = [u64; ENTRIES + 1];

    type Core = DelayCore<usize, Keeper>;

    // Extends each entry of an even deadline by 1000.
    fn extend_even(caller: &mut Caller, keys: &[Key]) -> Answers {
        let mut answers = [0; ENTRIES + 1];
        for (i, key) in keys.iter().enumerate() {
            if i < ENTRIES && i % 2 == 1 {
                answers[i + 1] = caller.extend(key, i as u64 + 1001).unwrap_or(0);
            }
        }
        answers
    }

    // Cancels each entry whose deadline is a multiple of 5.
    fn cancel_fifths(caller: &mut Caller, keys: &[Key]) -> Answers {
        let mut answers = [0; ENTRIES + 1];
        for (i, key) in keys.iter().enumerate() {
            if i < ENTRIES && i % 5 == 4 {
                answers[i + 1] = caller.cancel(key).unwrap_or(0);
            }
        }
        answers
    }

    // Polls at 2000 until nothing is linked. An entry's value is the deadline that it was inserted with.
    fn poll_all(core: &mut Core) -> Option<Answers> {
        let mut answers = [0; ENTRIES + 1];
        for _ in 0..100_000_000u64 {
            match core.poll(2000).ok()? {
                Turn::Out(entry) if entry.value <= ENTRIES && entry.deadline <= entry.noted => {
                    answers[entry.value] = entry.deadline;
                }
                Turn::Idle => return Some(answers),
                Turn::Out(_) | Turn::Waiting { .. } => return None,
            }
        }
        None
    }

    // The key of a new entry of a deadline, which is its value too.
    fn insert_at(core: &mut Core, deadline: usize) -> Result<Key, CoreError> {
        core.insert(deadline, deadline as u64).map_err(|refused| refused.0)
    }

    // An entry at each deadline from 1 to 200, and their keys in that order.
    fn fill(core: &mut Core, keys: &mut Vec<Key>) -> Result<(), Fail> {
        for deadline in 1..=ENTRIES {
            let key = insert_at(core, deadline)?;
            keys.push(key);
        }
        Ok(())
    }

    // An entry whose extend was answered came out at the deadline that it was extended to, one whose cancel was answered
    // gave up that deadline and didn't come out.
    fn agree(extended: &Answers, cancelled: &Answers, expired: &Answers) {
        for deadline in 1..=ENTRIES {
            let own = deadline as u64;
            let due = if extended[deadline] > 0 { own + 1000 } else { own };
            let answers = if cancelled[deadline] > 0 { (0, due) } else { (due, 0) };
            let told = (expired[deadline], cancelled[deadline]);
            same(deadline, told, answers);
        }
    }

    // Nothing is live, and what was inserted expired or was cancelled.
    fn adds_up(core: &mut Core, cancels: u64) {
        same("returned", core.returned(), Ok(cancels));
        let tally = core.tally();
        same(
            "tally",
            (tally.inserted, tally.removed, tally.cancelled, tally.linked),
            (200, 0, cancels, 0),
        );
        let ended = tally.expired.checked_add(cancels);
        same("expired and cancelled", ended, Some(200));
    }

    // What the three threads answer: the extends and the cancels, and the polls.
    fn race(
        core: &mut Core,
        extender: &mut Caller,
        canceller: &mut Caller,
        keys: &[Key],
    ) -> ((Answers, Answers), Option<Answers>) {
        join(
            || join(|| extend_even(extender, keys), || cancel_fifths(canceller, keys)),
            || poll_all(core),
        )
    }

    // The three threads meet, and what they answer agrees: the number of cancels.
    fn meet(core: &mut Core, extender: &mut Caller, canceller: &mut Caller, keys: &[Key]) -> u64 {
        let ((extended, cancelled), expired) = race(core, extender, canceller, keys);
        let Some(expired) = expired else {
            panic!("the polls came to no end, or an entry came out before its deadline")
        };
        agree(&extended, &cancelled, &expired);
        cancelled.iter().filter(|answer| **answer > 0).count() as u64
    }

    fn ends(extender: Caller, canceller: Caller) -> (u64, u64) {
        (canceller.give_back(), extender.give_back())
    }

    // The queue is filled and the three threads meet: the number of cancels.
    fn contest(core: &mut Core, extender: &mut Caller, canceller: &mut Caller) -> Result<u64, Fail> {
        let mut keys = Vec::with_capacity(ENTRIES);
        fill(core, &mut keys)?;
        Ok(meet(core, extender, canceller, &keys))
    }

    // promise: words.extends-cancels
    #[test]
    fn extends_and_cancels_race_with_polls() -> Result<(), Fail> {
        let mut core: Core = over_shared(256, LAST_STAMP)?;
        let mut extender = issued(&mut core)?;
        let mut canceller = issued(&mut core)?;
        let cancels = contest(&mut core, &mut extender, &mut canceller)?;
        same("give back", ends(extender, canceller), (cancels, 0));
        adds_up(&mut core, cancels);
        Ok(())
    }
}

mod renewals {
    //! A queue that is renewed over fresh words: what a key and a caller from before reach then.

    use super::queues::issued;
    use super::same;
    use crate::core::{CallError, CoreConfig, CoreError, DelayCore, Look, RenewError, VecWords, Words};
    use crate::tests::kit::Fail;
    use crate::ticks::{Key, LAST_STAMP};
    use crate::words::{Caller, Keeper};

    // Words of which there are always more.
    trait Anew: Words + Sized {
        /// A row that was never used.
        fn anew(rows: usize) -> Result<Self, Fail>;
    }

    impl Anew for VecWords {
        fn anew(rows: usize) -> Result<VecWords, Fail> {
            Ok(VecWords::new(rows)?)
        }
    }

    impl Anew for Keeper {
        fn anew(rows: usize) -> Result<Keeper, Fail> {
            Ok(Keeper::new(rows)?)
        }
    }

    // A queue of texts under the number 0.
    fn queue<W: Anew>(capacity: usize, last_stamp: u32) -> Result<DelayCore<String, W>, Fail> {
        let config = CoreConfig {
            shard: 0,
            capacity,
            last_stamp,
        };
        match DelayCore::new(config, W::anew(capacity)?) {
            Ok(queue) => Ok(queue),
            Err((error, _words)) => Err(error.into()),
        }
    }

    // How a renewal over as many fresh words goes.
    fn renewed<W: Anew>(
        queue: &mut DelayCore<String, W>,
        number: u32,
        rows: usize,
    ) -> Result<Result<(), RenewError>, Fail> {
        let words = W::anew(rows)?;
        match queue.renew(number, words) {
            Ok(_old) => Ok(Ok(())),
            Err((error, _words)) => Ok(Err(error)),
        }
    }

    // A renewal under that number, over so many fresh words, answers so.
    fn renews<W: Anew>(
        queue: &mut DelayCore<String, W>,
        under: (u32, usize),
        answer: Result<(), RenewError>,
    ) -> Result<(), Fail> {
        let (number, rows) = under;
        let renewed = renewed(queue, number, rows)?;
        same("renew", (under, renewed), (under, answer));
        Ok(())
    }

    // The owner finds nothing by a key.
    fn is_unknown<W: Anew>(queue: &mut DelayCore<String, W>, key: &Key) {
        let entry = key.entry();
        let reset = queue.reset(&entry, 9);
        let removed = queue.remove(&entry).err();
        let (deadline, place) = (queue.deadline(&entry), queue.place(&entry));
        same(
            "calls by an entry",
            (reset, removed, deadline, place),
            (
                Err(CoreError::Missing),
                Some(CoreError::Missing),
                Err(CoreError::Missing),
                None,
            ),
        );
    }

    // Takes an entry out, and answers the key that came with it.
    fn taken_out<W: Anew>(queue: &mut DelayCore<String, W>, key: &Key) -> Result<Key, Fail> {
        Ok(queue.remove(&key.entry())?.key)
    }

    // An entry is taken out, the queue is renewed under the number, and an entry comes after it: the keys of both.
    fn followed<W: Anew>(queue: &mut DelayCore<String, W>, number: u32) -> Result<(Key, Key), Fail> {
        let old = queue.insert_or_drop(format!("old"), 5)?;
        same("remove", taken_out(queue, &old)?, old);
        renews(queue, (number, 1), Ok(()))?;
        let new = queue.insert_or_drop(format!("new"), 6)?;
        Ok((old, new))
    }

    // The queue's own calls by a key.
    fn is_unknown_to_all(queue: &mut DelayCore<String, VecWords>, key: &Key) {
        same("extend", queue.extend(key, 9), Err(CallError::Unknown));
        same("cancel", queue.cancel(key), Err(CallError::Unknown));
        same("look", queue.look(key), Err(CallError::Unknown));
        is_unknown(queue, key);
    }

    // A key from before a renewal, while another entry has its slot and its stamp.
    fn old_key_is_unknown(queue: &mut DelayCore<String, VecWords>) -> Result<(), Fail> {
        let (old, new) = followed(queue, 3)?;
        same(
            "slot and stamp",
            (new.entry().index(), new.stamp()),
            (old.entry().index(), old.stamp()),
        );
        is_unknown_to_all(queue, &old);
        same("deadline", queue.deadline(&new.entry()), Ok(6));
        Ok(())
    }

    // Calls by key of the owner.
    // promise: renew.keys-callers
    #[test]
    fn old_keys_never_reach_a_new_entry() -> Result<(), Fail> {
        let mut queue: DelayCore<String, VecWords> = queue(1, LAST_STAMP)?;
        old_key_is_unknown(&mut queue)
    }

    // A caller from before a renewal stays at the words from before, and the queue's new entry doesn't feel it.
    fn old_caller_stays(queue: &mut DelayCore<String, Keeper>, caller: &mut Caller) -> Result<(), Fail> {
        let (_old, new) = followed(queue, 1)?;
        let how = Look::LookRemoved(5);
        same("cancel", caller.cancel(&new), Err(CallError::Ended { how }));
        same("extend", caller.extend(&new, 90), Err(CallError::Ended { how }));
        same("deadline", queue.deadline(&new.entry()), Ok(6));
        Ok(())
    }

    // promise: renew.keys-callers
    #[test]
    fn old_callers_stay_at_the_old_words() -> Result<(), Fail> {
        let mut queue: DelayCore<String, Keeper> = queue(1, LAST_STAMP)?;
        let mut caller = issued(&mut queue)?;
        old_caller_stays(&mut queue, &mut caller)
    }
}

mod deferred {
    //! What a queue of one owner does with a value that it frees: it drops it before the call returns, or defers it. What is
    //! deferred is what it freed, less what was taken out: calls are drawn, and each value is followed until it comes out, once.

    use super::same;
    use crate::core::{CoreConfig, DelayCore, Expired, Piece, Turn, VecWords};
    use crate::tests::kit::{Draw, Fail, HeapBox, LocalHeap};
    use crate::ticks::Key;

    type Boxes<'heap> = DelayCore<HeapBox<'heap, u64>, VecWords>;

    // Two entries whose values have memory of the heap. The first is cancelled, and its value takes so much of it.
    fn put<'heap>(queue: &mut Boxes<'heap>, heap: &'heap LocalHeap) -> Result<usize, Fail> {
        let first = queue.insert_or_drop(HeapBox::new(heap, 1), 5)?;
        let one = heap.used();
        queue.insert_or_drop(HeapBox::new(heap, 2), 9)?;
        queue.cancel(&first)?;
        Ok(one)
    }

    fn drops_at_once<'heap>(queue: &mut Boxes<'heap>, heap: &'heap LocalHeap) -> Result<(), Fail> {
        let one = put(queue, heap)?;
        same("sweep", (queue.sweep(), heap.used()), (1, one));
        same("clear", (queue.clear(), heap.used()), (1, 0));
        Ok(())
    }

    // What is deferred is no entry any more, and has its memory until it is taken out.
    fn defers<'heap>(queue: &mut Boxes<'heap>, heap: &'heap LocalHeap) -> Result<(), Fail> {
        let one = put(queue, heap)?;
        let both = heap.used();
        same("sweep", (queue.sweep_deferring(), heap.used()), (1, both));
        same("clear", (queue.clear_deferring(), heap.used()), (1, both));
        same("deferred", (queue.deferred(), queue.len()), (2, 0));
        drop(queue.take_deferred());
        same("take one", (queue.deferred(), heap.used()), (1, one));
        drop(queue.take_deferred());
        same("take both", (queue.deferred(), heap.used()), (0, 0));
        same("none", queue.take_deferred().is_none(), true);
        Ok(())
    }

    fn lets_go(heap: &LocalHeap) -> Result<(), Fail> {
        let mut queue: Boxes = DelayCore::with_capacity(4)?;
        drops_at_once(&mut queue, heap)?;
        defers(&mut queue, heap)
    }

    // promise: core.deferred slots.owner-drops
    #[test]
    fn one_owner_drops_at_once_or_defers() -> Result<(), Fail> {
        let heap = LocalHeap::new();
        lets_go(&heap)
    }

    type Value<'heap> = HeapBox<'heap, u64>;

    /// How many queues are drawn, and the calls of each.
    const QUEUES: u64 = 60;
    const CALLS: u64 = 600;

    /// A queue beside the values that it holds, and those that it freed and that weren't taken out.
    struct Play<'heap> {
        queue: DelayCore<Value<'heap>, VecWords>,
        heap: &'heap LocalHeap,
        held: Vec<(Key, u64)>,
        waiting: Vec<u64>,
        numbers: u64,
        tick: u64,
    }

    impl<'heap> Play<'heap> {
        // Of few slots, each of which is worn after one to three values; or of some dozens, which are never worn.
        fn drawn(draw: &mut Draw, heap: &'heap LocalHeap) -> Result<Self, Fail> {
            let (capacity, last_stamp) = match draw.below(4) {
                0 => (60 + draw.below(30) as usize, 1_000),
                _ => (1 + draw.below(9) as usize, 1 + draw.below(3) as u32),
            };
            let config = CoreConfig {
                shard: 0,
                capacity,
                last_stamp,
            };
            let queue = DelayCore::new(config, VecWords::new(capacity)?).map_err(|refused| refused.0)?;
            Ok(Play {
                queue,
                heap,
                held: Vec::new(),
                waiting: Vec::new(),
                numbers: 0,
                tick: 0,
            })
        }

        fn call(&mut self, draw: &mut Draw) -> Result<(), Fail> {
            match draw.below(16) {
                0..=5 => self.inserts(draw),
                6 | 7 => self.cancels(draw),
                8 => self.removes(draw),
                9 | 10 => self.polls(draw)?,
                11 => {
                    self.queue.sweep_deferring();
                }
                12 => {
                    let (from, count) = (draw.below(9) as usize, draw.below(9) as usize);
                    self.queue.sweep_some_deferring(from, count);
                }
                13 if draw.below(4) == 0 => {
                    self.queue.clear_deferring();
                }
                13 => self.reaps(draw),
                14 => self.takes_displaced(),
                _ => self.takes(draw),
            }
            self.lets_go();
            self.renews()?;
            self.compares();
            Ok(())
        }

        // What is held no more, and didn't come out, was freed.
        fn lets_go(&mut self) {
            let (queue, waiting) = (&self.queue, &mut self.waiting);
            self.held.retain(|(key, number)| {
                let is_held = queue.get(&key.entry()).is_some();
                if !is_held {
                    waiting.push(*number);
                }
                is_held
            });
        }

        // A value that comes out was held, and is it no more.
        fn gives(&mut self, value: &Value) {
            let before = self.held.len();
            self.held.retain(|(_, number)| *number != **value);
            assert_eq!(self.held.len() + 1, before, "value {} comes out of an entry", **value);
        }

        // A value that is taken out was freed, and waits no more.
        fn took(&mut self, value: &Value) {
            let at = self.waiting.iter().position(|number| *number == **value);
            self.waiting
                .swap_remove(at.expect("a value that was freed, and wasn't taken out"));
        }

        fn inserts(&mut self, draw: &mut Draw) {
            let number = self.numbers;
            self.numbers += 1;
            let value = HeapBox::new(self.heap, number);
            let (answer, displaced) = self.queue.insert_deferring(value, self.tick + draw.below(50));
            if let Some(value) = displaced {
                self.took(&value);
            }
            if let Ok(key) = answer {
                self.held.push((key, number));
            }
        }

        fn key(&self, draw: &mut Draw) -> Option<Key> {
            let at = draw.below(self.held.len() as u64) as usize;
            self.held.get(at).map(|(key, _)| *key)
        }

        fn cancels(&mut self, draw: &mut Draw) {
            if let Some(key) = self.key(draw) {
                let _is_cancelled = self.queue.cancel(&key);
            }
        }

        fn removes(&mut self, draw: &mut Draw) {
            let Some(key) = self.key(draw) else { return };
            if let Ok(removed) = self.queue.remove(&key.entry()) {
                self.gives(&removed.value);
            }
        }

        fn reaps(&mut self, draw: &mut Draw) {
            if let Some(key) = self.key(draw) {
                let _is_reaped = self.queue.reap_deferring(&key.entry());
            }
        }

        fn polls(&mut self, draw: &mut Draw) -> Result<(), Fail> {
            self.tick += draw.below(40);
            let piece = match draw.below(2) {
                0 => self.queue.poll_some_deferring(self.tick, draw.below(5) as u32)?,
                _ => Piece::Answer(self.queue.poll_deferring(self.tick)?),
            };
            if let Piece::Answer(Turn::Out(Expired { value, .. })) = piece {
                self.gives(&value);
            }
            Ok(())
        }

        // Takes some out: each is one of those that wait, and none comes exactly where none waits.
        fn takes(&mut self, draw: &mut Draw) {
            for _ in 0..=draw.below(6) {
                let waiting = self.waiting.len();
                match self.queue.take_deferred() {
                    Some(value) => self.took(&value),
                    None => assert_eq!(waiting, 0, "values that wait where none is taken out"),
                }
                self.compares();
            }
        }

        fn takes_displaced(&mut self) {
            if let Some(value) = self.queue.take_displaced() {
                self.took(&value);
            }
        }

        // Where each slot is worn the queue is renewed, beside what waits.
        fn renews(&mut self) -> Result<(), Fail> {
            if self.queue.worn() == self.queue.capacity() {
                let words = VecWords::new(self.queue.capacity())?;
                let renewed = self.queue.renew(self.queue.shard() + 1, words);
                renewed.map_err(|refused| refused.0)?;
            }
            Ok(())
        }

        fn compares(&self) {
            assert_eq!(self.queue.deferred(), self.waiting.len(), "values that wait");
            let living = self.held.len() + self.waiting.len();
            assert_eq!(self.heap.used(), living * size_of::<u64>(), "values that live");
        }

        // All that waits comes out, and then nothing.
        fn ends(mut self) {
            while let Some(value) = self.queue.take_deferred() {
                self.took(&value);
                drop(value);
                self.compares();
            }
            assert!(self.waiting.is_empty(), "values that wait where none is taken out");
            self.compares();
        }
    }

    // promise: core.deferred slots.value-deferred
    #[test]
    fn what_is_deferred_is_what_was_freed_less_what_was_taken_out() -> Result<(), Fail> {
        let mut draw = Draw::new(1);
        for _ in 0..QUEUES {
            let heap = LocalHeap::new();
            let mut play = Play::drawn(&mut draw, &heap)?;
            for _ in 0..CALLS {
                play.call(&mut draw)?;
            }
            play.ends();
            assert_eq!(heap.used(), 0, "values that outlive their queue");
        }
        Ok(())
    }

    // A value that needs no drop is forgotten where it is freed, and its slot is free at once.
    fn defers_none(queue: &mut DelayCore<u64, VecWords>) -> Result<(), Fail> {
        for round in 0..3 {
            queue.insert_or_drop(round, 5)?;
            queue.insert_or_drop(round, 9)?;
            assert_eq!((queue.clear_deferring(), queue.deferred()), (2, 0));
            assert_eq!((queue.take_displaced(), queue.take_deferred()), (None, None));
        }
        Ok(())
    }

    // promise: core.deferred slots.value-deferred
    #[test]
    fn values_that_need_no_drop_are_not_deferred() -> Result<(), Fail> {
        let mut queue = DelayCore::with_capacity(2)?;
        defers_none(&mut queue)?;
        let Ok(folded) = queue.fold() else {
            panic!("a fold of an empty queue is refused")
        };
        let Ok(mut queue) = folded.unfold() else {
            panic!("an unfold is refused")
        };
        defers_none(&mut queue)
    }
}
