//! The cache and the idle sessions, beside their worked rows.

use crate::tests::kit::same;

mod calls {
    //! The calls of a cache of letters, each with what it has to answer, and the loop that makes the calls of a table. Those
    //! of the worked rows are made as there.

    use super::same;
    use crate::apps::TtlCache;
    use crate::core::CoreError;
    use crate::tests::apps_checks::calls as rows;
    use crate::tests::kit::Fail;

    pub use rows::Letters;

    /// A call, and what it has to answer.
    #[derive(Clone, Copy)]
    pub enum Call {
        /// Key, value, time to live and tick: the value that was there, or why key and value come back.
        Put(char, u32, u64, u64, Result<Option<u32>, CoreError>),
        /// Likewise.
        Set(char, u32, u64, u64, Result<Option<u32>, CoreError>),
        /// Key, time to live and tick: the deadline.
        Renew(char, u64, u64, Result<u64, CoreError>),
        /// Likewise.
        Touch(char, u64, u64, Result<u64, CoreError>),
        /// Key and tick: the value that leaves.
        Take(char, u64, Option<u32>),
        /// At a tick: the key and value that come out.
        TakeExpired(u64, Result<Option<(char, u32)>, CoreError>),
        /// Up to a tick: how many keys are dropped.
        Purge(u64, Result<usize, CoreError>),
        Refresh,
        /// Key and tick: the value that is seen.
        Get(char, u64, Option<u32>),
        /// At a tick: how many values are seen, and their sum.
        Seen(u64, usize, u32),
        Len(usize),
        Capacity(usize),
        Moment(u64),
        /// How many slots are worn.
        Worn(usize),
        NextDeadline(Option<u64>),
        NextWake(Option<u64>),
    }

    use Call::{
        Capacity, Get, Len, Moment, NextDeadline, NextWake, Purge, Put, Refresh, Renew, Seen, Set, Take, TakeExpired,
        Touch, Worn,
    };

    // The sum of the values that are seen.
    fn sum_seen(cache: &Letters, now: u64) -> u32 {
        let mut sum = 0u32;
        for (_key, value) in cache.seen(now) {
            sum = sum.saturating_add(*value);
        }
        sum
    }

    fn seen(cache: &Letters, now: u64) -> (usize, u32) {
        (cache.seen(now).count(), sum_seen(cache, now))
    }

    // The call at that number of a table answers as it has to.
    fn answers(cache: &mut Letters, number: usize, call: Call) {
        let call = match call {
            Put(key, value, ttl, now, answer) => rows::Call::Put(key, value, ttl, now, answer),
            Renew(key, ttl, now, answer) => rows::Call::Renew(key, ttl, now, answer),
            Take(key, now, value) => rows::Call::Take(key, now, value),
            Purge(now, answer) => rows::Call::Purge(now, answer),
            Get(key, now, value) => rows::Call::Get(key, now, value),
            Len(len) => rows::Call::Len(len),
            Moment(moment) => rows::Call::Moment(moment),
            NextDeadline(deadline) => rows::Call::NextDeadline(deadline),
            Set(key, value, ttl, now, expected) => {
                let refused = expected.map_err(|error| (error, key, value));
                return same(number, cache.set(key, value, ttl, now), refused);
            }
            Touch(key, ttl, now, answer) => return same(number, cache.touch(&key, ttl, now), answer),
            TakeExpired(now, pair) => return same(number, cache.take_expired(now), pair),
            Refresh => return same(number, cache.refresh(), Ok(())),
            Seen(now, count, sum) => return same(number, seen(cache, now), (count, sum)),
            Capacity(capacity) => return same(number, cache.capacity(), capacity),
            Worn(worn) => return same(number, cache.worn(), worn),
            NextWake(wake) => return same(number, cache.next_wake(), wake),
        };
        rows::answers(cache, number, call)
    }

    /// Each call of a table answers as it has to.
    pub fn each_answers(cache: &mut Letters, calls: &[Call]) {
        for (number, call) in calls.iter().enumerate() {
            answers(cache, number, *call);
        }
    }

    /// Likewise, of a fresh cache of that capacity.
    pub fn plays(capacity: usize, calls: &[Call]) -> Result<(), Fail> {
        let mut cache = TtlCache::with_capacity(capacity)?;
        each_answers(&mut cache, calls);
        Ok(())
    }

    /// Likewise, of a cache with that last stamp.
    pub fn plays_up_to(capacity: usize, last_stamp: u32, calls: &[Call]) -> Result<(), Fail> {
        let mut cache = TtlCache::new(capacity, last_stamp)?;
        each_answers(&mut cache, calls);
        Ok(())
    }
}

mod many {
    //! As many keys as a cache may have, under a hasher with a seed, and the calls that a stranger's keys need.

    use super::calls::Call::{Capacity, Len, Moment, Put, Take, TakeExpired, Worn};
    use super::calls::{plays, plays_up_to, Letters};
    use super::same;
    use crate::apps::TtlCache;
    use crate::core::CoreError;
    use crate::tests::kit::Fail;
    use crate::ticks::{CAPACITY_LIMIT, LAST_STAMP};
    use std::hash::RandomState;

    type Widest = TtlCache<u32, u32, RandomState>;

    fn is_filled(cache: &mut Widest) {
        for key in 0..CAPACITY_LIMIT as u32 {
            same(key, cache.put(key, key, 10, 0), Ok(None));
        }
        same("len", cache.len(), CAPACITY_LIMIT);
    }

    fn is_full(cache: &mut Widest) {
        let full = CoreError::Full {
            linked: CAPACITY_LIMIT,
            worn: 0,
        };
        same("put", cache.put(65536, 0, 10, 0), Err((full, 65536, 0)));
        for key in (0..CAPACITY_LIMIT as u32).step_by(257) {
            same(key, cache.get(&key, 9).copied(), Some(key));
        }
        same("purge", cache.purge(10), Ok(CAPACITY_LIMIT));
    }

    // No put is refused for want of memory where there is some, however many keys there are.
    // promise: cache.new-with-capacity
    #[test]
    fn the_greatest_number_of_keys() -> Result<(), Fail> {
        let hasher = RandomState::new();
        let mut cache: Widest = TtlCache::with_hasher(CAPACITY_LIMIT, hasher)?;
        is_filled(&mut cache);
        is_full(&mut cache);
        Ok(())
    }

    // The last tick, as the tables of the rows have it.
    const LAST: u64 = 4398046511103;

    // What is due comes out with its key, in the order of its deadlines, until nothing is.
    // promise: cache.purge-take-expired
    #[test]
    fn expired_pairs_come_out() -> Result<(), Fail> {
        let calls = &[
            Put('a', 1, 20, 0, Ok(None)),
            Put('b', 2, 10, 0, Ok(None)),
            Put('c', 3, 30, 0, Ok(None)),
            TakeExpired(9, Ok(None)),
            TakeExpired(20, Ok(Some(('b', 2)))),
            TakeExpired(5, Ok(Some(('a', 1)))),
            TakeExpired(20, Ok(None)),
            TakeExpired(30, Ok(Some(('c', 3)))),
            TakeExpired(30, Ok(None)),
            Len(0),
            Moment(30),
            TakeExpired(LAST + 1, Err(CoreError::TickTooLarge { limit: LAST })),
        ];
        plays(3, calls)
    }

    fn refused(capacity: usize) -> Option<CoreError> {
        Letters::with_capacity(capacity).err()
    }

    fn puts_often(cache: &mut Letters) {
        for turn in 0..LAST_STAMP.min(1000) {
            same(turn, cache.put('a', 1, 5, 0).is_ok(), true);
        }
    }

    // A slot without a key and without a stamp left is told.
    // promise: cache.len-is-empty
    #[test]
    fn worn_slots_are_told() -> Result<(), Fail> {
        let calls = &[
            Put('a', 1, 5, 0, Ok(None)),
            Worn(0),
            Take('a', 0, Some(1)),
            Worn(1),
            Capacity(2),
        ];
        plays_up_to(2, 1, calls)?;
        same("no capacity", refused(0), Some(CoreError::BadConfig));
        puts_often(&mut TtlCache::with_capacity(1)?);
        Ok(())
    }
}

mod memo {
    //! A cache as a memo: what is made where nothing is seen, what comes back, and what is counted.

    use crate::apps::{CountedCache, MemoAnswer, TtlCache};
    use crate::core::CoreError;
    use crate::tests::kit::Fail;

    type Letters = TtlCache<char, u32>;

    // Whoever asks for 'a' at these ticks makes it where it is due, and else gets what was made.
    fn is_made_when_due(cache: &mut Letters) {
        let mut times = 0u32;
        for (now, made, answer, count) in [(0, 1, 1, 1), (9, 2, 1, 1), (10, 3, 3, 2), (19, 4, 3, 2), (20, 5, 5, 3)] {
            let value = cache.get_or_insert_with('a', 10, now, || {
                times = times.saturating_add(1);
                made
            });
            assert_eq!((value, times), (Ok(answer), count), "at {now}");
            assert_eq!(cache.get(&'a', now).copied(), Some(answer), "at {now}");
        }
    }

    // Whoever asks for a key, and would make that value, gets that answer.
    fn answers(cache: &mut Letters, key: char, ttl: u64, now: u64, made: u32, answer: MemoAnswer<u32>) {
        let value = cache.get_or_insert_with(key, ttl, now, move || made);
        assert_eq!(value, answer, "{key} at {now}");
    }

    // A value is made where none is seen, and else a copy of the one that is comes, and none is made.
    // promise: cache.get-or-insert-with cache.leaves-dropped
    #[test]
    fn made_where_none_is_seen() -> Result<(), Fail> {
        let mut cache: Letters = TtlCache::with_capacity(2)?;
        is_made_when_due(&mut cache);

        // What is due at once is made, and isn't seen.
        answers(&mut cache, 'b', 0, 20, 6, Ok(6));
        assert_eq!((cache.get(&'b', 20).copied(), cache.len()), (None, 2));
        Ok(())
    }

    // What was made comes back where it can't be set.
    // promise: cache.get-or-insert-with
    #[test]
    fn what_was_made_comes_back() -> Result<(), Fail> {
        let mut cache: Letters = TtlCache::new(1, 2)?;
        answers(&mut cache, 'a', 10, 0, 1, Ok(1));
        let full = CoreError::Full { linked: 1, worn: 0 };
        answers(&mut cache, 'b', 10, 5, 2, Err((full, Some(2))));
        let too_far = CoreError::TooFar { limit: 4398046511103 };
        answers(&mut cache, 'b', u64::MAX, 5, 2, Err((too_far, Some(2))));
        answers(&mut cache, 'a', u64::MAX, 5, 2, Ok(1));

        // Slots that are worn are no reason to refuse.
        for now in 10..300 {
            answers(&mut cache, 'c', 1, now, now as u32, Ok(now as u32));
        }
        Ok(())
    }

    type Counted = CountedCache<char, u32>;

    // Each of these look-ups counts as what it is.
    fn counts_look_ups(counted: &mut Counted) {
        for (key, now, hits, misses) in [
            ('a', 0, 0, 1),
            ('a', 9, 1, 1),
            ('b', 9, 1, 2),
            ('a', 9, 2, 2),
            ('a', 10, 2, 3),
            ('a', 11, 3, 3),
        ] {
            let _made = counted.get_or_insert_with(key, 10, now, || 1);
            assert_eq!((counted.hits(), counted.misses()), (hits, misses), "{key} at {now}");
        }
    }

    // What goes by the cache itself isn't counted.
    fn counts_what_is_seen(counted: &mut Counted) {
        assert!(counted.sees(&'a', 19) && !counted.sees(&'a', 20));
        assert!(counted.cache.contains(&'a', 19));
        assert_eq!((counted.hits(), counted.misses()), (4, 4));
    }

    // A look-up is a hit where a value was seen, and else a miss, also where it is refused.
    // promise: cache.countedcache-counts
    #[test]
    fn hits_and_misses() -> Result<(), Fail> {
        let mut counted: Counted = CountedCache::new(TtlCache::with_capacity(1)?);
        assert_eq!((counted.hits(), counted.misses()), (0, 0));
        counts_look_ups(&mut counted);
        counts_what_is_seen(&mut counted);
        Ok(())
    }
}

mod readers {
    //! What the readers of a cache tell, and what a login and a handle take of the queue below them, counted.

    use super::calls::plays_up_to;
    use super::calls::Call::{Capacity, Len, Moment, NextDeadline, Purge, Put, Seen};
    use crate::apps::IdleSessions;
    use crate::core::CoreError;
    use crate::shards::{QueueConfig, QueueError};
    use crate::tests::kit::Fail;
    use crate::ticks::LAST_STAMP;

    // Where one session has room, one login fills it, and the audit counts one.
    // promise: sessions.into-queue-queue
    #[test]
    fn a_login_enters_once() -> Result<(), Fail> {
        let sessions = IdleSessions::new(QueueConfig::of(1, 1), 100)?;
        assert!(sessions.login(0, "ann", 0).is_ok());
        let full = QueueError::Core(CoreError::Full { linked: 1, worn: 0 });
        assert_eq!(sessions.login(0, "bob", 0), Err(full));
        let totals = sessions.into_queue().audit()?;
        assert_eq!((totals.inserted, totals.live), (1, 1));
        Ok(())
    }

    // There are 1024 handles, so each call takes one and no more.
    // promise: sessions.handle-takes
    #[test]
    fn a_handle_takes_one() -> Result<(), Fail> {
        let sessions = IdleSessions::new(QueueConfig::of(1, 1), 100)?;
        for turn in 0..1024 {
            match sessions.handle() {
                Ok(handle) => {
                    let _cancels = handle.give_back();
                }
                Err(_) => assert!(false, "handle {turn} was refused"),
            }
        }
        let beyond = QueueError::TooManyHandles { limit: 1024 };
        assert_eq!(sessions.handle().err(), Some(beyond));
        Ok(())
    }

    // What the readers tell from a put to the purge that drops it.
    // promise: cache.seen-seen
    #[test]
    fn cache_readers() -> Result<(), Fail> {
        let calls = &[
            Len(0),
            Capacity(3),
            Moment(0),
            NextDeadline(None),
            Put('a', 1, 30, 5, Ok(None)),
            Put('b', 2, 10, 5, Ok(None)),
            Len(2),
            Moment(5),
            Seen(5, 2, 3),
            Seen(14, 2, 3),
            Seen(15, 1, 1),
            Seen(34, 1, 1),
            Seen(35, 0, 0),
            NextDeadline(Some(15)),
            Purge(15, Ok(1)),
            NextDeadline(Some(35)),
            Len(1),
        ];
        plays_up_to(3, LAST_STAMP, calls)
    }
}

mod refresh {
    //! Slots that have no stamp left: a refresh, the calls that refresh by themselves, and what leaves a cache.

    use super::calls::Call::{Get, Len, Moment, NextDeadline, Purge, Put, Refresh, Renew, Set, Take, Touch, Worn};
    use super::calls::{each_answers, Call, Letters};
    use super::same;
    use crate::apps::TtlCache;
    use crate::core::CoreError;
    use crate::tests::kit::{AllocError, Fail, HeapString, LocalHeap};

    // Two keys until tick 10, in slots that are both at their last stamp.
    fn wears(cache: &mut Letters) {
        let calls = &[
            Put('a', 1, 10, 0, Ok(None)),
            Put('b', 2, 10, 0, Ok(None)),
            Put('a', 3, 10, 0, Ok(Some(1))),
            Put('b', 4, 10, 0, Ok(Some(2))),
            Renew('a', 5, 0, Err(CoreError::Worn)),
        ];
        each_answers(cache, calls);
    }

    // Each call of a table answers as it has to, where both slots are worn.
    fn plays_worn(calls: &[Call]) -> Result<(), Fail> {
        let mut cache = TtlCache::new(2, 2)?;
        wears(&mut cache);
        each_answers(&mut cache, calls);
        Ok(())
    }

    // A refresh leaves what is seen, and each key can be renewed again.
    // promise: cache.refresh-slot
    #[test]
    fn a_refresh_keeps_what_is_seen() -> Result<(), Fail> {
        let calls = &[
            Refresh,
            Len(2),
            Moment(0),
            Worn(0),
            NextDeadline(Some(10)),
            Get('a', 9, Some(3)),
            Get('b', 9, Some(4)),
            Get('a', 10, None),
            Renew('a', 15, 1, Ok(16)),
            Purge(10, Ok(1)),
            Get('a', 15, Some(3)),
        ];
        plays_worn(calls)
    }

    const ALL_WORN: CoreError = CoreError::Full { linked: 1, worn: 1 };

    const ALL_KEPT: CoreError = CoreError::Full { linked: 2, worn: 0 };

    // A key in a worn slot gets its deadline and its value, and one that isn't kept the place of a worn slot.
    // promise: cache.touch-set
    #[test]
    fn touch_and_set_refresh() -> Result<(), Fail> {
        let touch_refreshes = &[Touch('a', 15, 1, Ok(16)), Touch('c', 15, 1, Err(CoreError::Missing))];
        let set_refreshes = &[Set('b', 5, 15, 1, Ok(Some(4))), Get('b', 15, Some(5))];

        // A put is refused for want of stamps, where a set isn't.
        let set_takes_a_worn_place = &[
            Take('b', 1, Some(4)),
            Worn(1),
            Put('c', 6, 15, 1, Err(ALL_WORN)),
            Set('c', 6, 15, 1, Ok(None)),
            Len(2),
            Worn(0),
            Set('d', 7, 5, 2, Err(ALL_KEPT)),
        ];
        plays_worn(touch_refreshes)?;
        plays_worn(set_refreshes)?;
        plays_worn(set_takes_a_worn_place)
    }

    type Numbers = TtlCache<char, u64>;

    fn sets_a_number(cache: &mut Numbers, key: char, ttl: u64, now: u64) {
        same(now, cache.set(key, now, ttl, now).is_ok(), true);
    }

    fn goes_on(cache: &mut Numbers) {
        for now in 0..300 {
            sets_a_number(cache, 'a', 10, now);
            same(now, cache.touch(&'a', 20, now).is_ok(), true);
            sets_a_number(cache, 'b', 1, now);
        }
        let seen = cache.get(&'a', 300).copied();
        same("at the end", (cache.len(), seen), (2, Some(299)));
    }

    fn one_stamp_is_not_enough(cache: &mut Numbers) {
        same("set", cache.set('a', 1, 10, 0).is_ok(), true);
        same("touch", cache.touch(&'a', 10, 0), Err(CoreError::Worn));
    }

    // Two stamps a slot are enough for as many calls as one likes; one stamp is not.
    // promise: cache.touch-set
    #[test]
    fn two_stamps_are_enough() -> Result<(), Fail> {
        goes_on(&mut TtlCache::new(2, 2)?);
        one_stamp_is_not_enough(&mut TtlCache::new(1, 1)?);
        Ok(())
    }

    type Texts<'heap> = TtlCache<char, HeapString<'heap>>;

    // Whether a call is taken that puts a value that owns memory, and how much memory is taken then. What it answers is
    // dropped, be it the old value or the one that was refused.
    type Taken = Result<(bool, usize), AllocError>;

    fn puts<'heap>(cache: &mut Texts<'heap>, heap: &'heap LocalHeap, key: char, ttl: u64) -> Taken {
        let text = HeapString::new(heap, "a value");
        let is_taken = cache.put(key, text, ttl, 0).is_ok();
        Ok((is_taken, heap.used()))
    }

    fn sets<'heap>(cache: &mut Texts<'heap>, heap: &'heap LocalHeap, key: char) -> Taken {
        let text = HeapString::new(heap, "a value");
        let is_taken = cache.set(key, text, 10, 10).is_ok();
        Ok((is_taken, heap.used()))
    }

    // Two values are kept then, each of which has as much memory as is told.
    fn lets_go_by_puts<'heap>(cache: &mut Texts<'heap>, heap: &'heap LocalHeap) -> usize {
        let first = puts(cache, heap, 'a', 10);
        let one = heap.used();
        same("put a", (first, one > 0), (Ok((true, one)), true));
        let two = one.saturating_mul(2);
        for (key, ttl, taken) in &[('a', 10, (true, one)), ('b', 5, (true, two)), ('c', 5, (false, two))] {
            same(*key, puts(cache, heap, *key, *ttl), Ok(*taken));
        }
        one
    }

    fn lets_go_by_time(cache: &mut Texts, heap: &LocalHeap, one: usize) {
        same("purge", (cache.purge(5), heap.used()), (Ok(1), one));
        let is_out = matches!(cache.take_expired(10), Ok(Some(_)));
        same("take_expired", (is_out, heap.used()), (true, 0));
    }

    // One value is kept then.
    fn lets_go_by_take<'heap>(cache: &mut Texts<'heap>, heap: &'heap LocalHeap, one: usize) {
        same("set a", sets(cache, heap, 'a'), Ok((true, one)));
        let is_out = cache.take(&'a', 10).is_some();
        same("take", (is_out, heap.used()), (true, 0));
        same("set b", sets(cache, heap, 'b'), Ok((true, one)));
        same("refresh", (cache.refresh(), heap.used()), (Ok(()), one));
    }

    fn lets_go<'heap>(cache: &mut Texts<'heap>, heap: &'heap LocalHeap) {
        let one = lets_go_by_puts(cache, heap);
        lets_go_by_time(cache, heap, one);
        lets_go_by_take(cache, heap, one);
    }

    // Values that own memory leave a cache by each call that lets one go, and the last with the cache.
    fn let_go(heap: &LocalHeap) -> Result<(), Fail> {
        lets_go(&mut TtlCache::with_capacity(2)?, heap);
        same("drop", heap.used(), 0);
        Ok(())
    }

    // promise: cache.leaves-dropped
    #[test]
    fn what_leaves_is_dropped() -> Result<(), Fail> {
        let heap = LocalHeap::new();
        let_go(&heap)
    }
}

mod sessions {
    //! Idle sessions: touches from another thread, who logs out and moves, what is refused, and the audit.

    use crate::apps::IdleSessions;
    use crate::core::{CallError, CoreError, Look, Turn};
    use crate::shards::{Handle, QueueConfig, QueueError, Totals};
    use crate::tests::apps_checks::sessions::{begins, ends, logs_out, sessions, touches, waits, IDLE, LAST};
    use crate::tests::kit::{join, Fail};
    use crate::ticks::Key;

    // promise: sessions.touch-logout
    #[test]
    fn touched_from_another_thread() -> Result<(), Fail> {
        let sessions = sessions(IDLE)?;
        let ann = sessions.login(0, "ann", 0)?;
        sessions.login(0, "bob", 0)?;
        let handle = sessions.handle()?;
        let shared = &sessions;
        let (touched, quiet) = join(
            move || {
                let mut handle = handle;
                let touched = shared.touch(&mut handle, &ann, 60);
                let _cancels = handle.give_back();
                touched
            },
            move || shared.next_idle(0, IDLE - 1).is_ok(),
        );
        assert_eq!(touched, Ok(160));
        assert!(quiet);
        ends(&sessions, IDLE, "bob", IDLE);
        ends(&sessions, 160, "ann", 160);
        waits(&sessions, 160, None);
        Ok(())
    }

    // The first of three sessions logs out, once, and the second ends; the third's deadline is later.
    fn first_logs_out(sessions: &IdleSessions, handle: &mut Handle, ann: &Key) {
        logs_out(sessions, handle, ann, Ok(IDLE));
        let ended = CallError::Ended {
            how: Look::LookCancelled,
        };
        logs_out(sessions, handle, ann, Err(ended));
        touches(sessions, handle, ann, 50, Err(ended));
        ends(sessions, 1000, "bob", IDLE);
        if let Ok(Turn::Out(ended)) = sessions.next_idle(0, 1000) {
            assert!(false, "{} came out", ended.value);
        }
    }

    fn three_begin(sessions: &IdleSessions) -> Result<Key, Fail> {
        let ann = begins(sessions, "ann", 0)?;
        begins(sessions, "bob", 0)?;
        begins(sessions, "cy", 1000)?;
        Ok(ann)
    }

    // Who logged out never comes out, and is counted by the audit of the queue itself.
    // promise: sessions.touch-logout sessions.into-queue-queue
    #[test]
    fn logged_out_sessions_never_come_out() -> Result<(), Fail> {
        let sessions = sessions(IDLE)?;
        let ann = three_begin(&sessions)?;
        let mut handle = sessions.handle()?;
        first_logs_out(&sessions, &mut handle, &ann);
        assert_eq!(handle.give_back(), 1);
        let totals = Totals {
            inserted: 3,
            expired: 1,
            removed: 0,
            cancelled: 1,
            live: 1,
        };
        assert_eq!(sessions.into_queue().audit(), Ok(totals));
        Ok(())
    }

    // Sessions of two shards, with room for one in each.
    fn two_shards_refuse(sessions: &IdleSessions) -> Result<(), Fail> {
        assert_eq!((sessions.shards(), sessions.idle()), (2, IDLE));
        let ann = sessions.login(3, "ann", 0)?;
        assert_eq!(ann.entry().shard(), 1);
        let full = QueueError::Core(CoreError::Full { linked: 1, worn: 0 });
        assert_eq!(sessions.login(1, "bob", 0), Err(full));
        let too_large = QueueError::Core(CoreError::TickTooLarge { limit: LAST });
        assert_eq!(sessions.next_idle(1, LAST + 1).err(), Some(too_large));
        assert_eq!(sessions.next_idle(2, 0).err(), Some(QueueError::Unknown));
        Ok(())
    }

    // The refusals that a queue has too: a bad configuration, no free slot, no such shard, and a tick beyond the last.
    // promise: sessions.new-queue
    #[test]
    fn sessions_refuse_as_their_queue() -> Result<(), Fail> {
        let bad = QueueError::Core(CoreError::BadConfig);
        for config in [
            QueueConfig::of(0, 4),
            QueueConfig::of(65, 4),
            QueueConfig::of(1, 65537),
            QueueConfig {
                last_stamp: 1048576,
                ..QueueConfig::of(1, 4)
            },
        ] {
            let refused = IdleSessions::new(config, IDLE).err();
            assert_eq!(refused, Some(bad), "{config:?}");
        }
        let sessions = IdleSessions::new(QueueConfig::of(2, 1), IDLE)?;
        two_shards_refuse(&sessions)
    }

    // Who is idle ends, and who is active stays where no other may begin.
    fn wears_out(old: &IdleSessions) -> Result<Key, Fail> {
        let ann = begins(old, "ann", 10)?;
        begins(old, "bob", 0)?;
        ends(old, IDLE, "bob", IDLE);
        let worn = QueueError::Core(CoreError::Full { linked: 1, worn: 1 });
        assert_eq!(old.login(0, "cy", 100), Err(worn));
        Ok(ann)
    }

    fn moves(
        old: &IdleSessions,
        held: &mut Handle,
        new: &IdleSessions,
        handle: &mut Handle,
        ann: &Key,
    ) -> Result<(), Fail> {
        begins(new, "cy", 100)?;
        logs_out(old, held, ann, Ok(110));
        let moved = begins(new, "ann", 105)?;
        touches(new, handle, &moved, 120, Ok(220));
        waits(old, 220, None);
        ends(new, 220, "cy", 200);
        ends(new, 220, "ann", 220);
        Ok(())
    }

    // The new sessions and their handle, which are dropped before the old ones.
    fn moves_to_new(config: QueueConfig, old: &IdleSessions, held: &mut Handle) -> Result<(), Fail> {
        let ann = wears_out(old)?;
        let new = IdleSessions::new(config, IDLE)?;
        let mut handle = new.handle()?;
        moves(old, held, &new, &mut handle, &ann)
    }

    // Where slots are worn, new sessions take over: who is active moves by a logout and a login, and who is idle ends in
    // the old.
    // promise: sessions.handle-takes
    #[test]
    fn sessions_move_to_new_ones() -> Result<(), Fail> {
        let config = QueueConfig {
            last_stamp: 1,
            ..QueueConfig::of(1, 2)
        };
        let old = IdleSessions::new(config, IDLE)?;
        let mut held = old.handle()?;
        moves_to_new(config, &old, &mut held)
    }
}

mod wakes {
    //! The next wake of a cache: which it is, and that whoever purges at each wake gets to each deadline in few purges.

    use super::calls::Call::{Moment, NextDeadline, NextWake, Purge, Put, Refresh, Renew, Take};
    use super::calls::{each_answers, plays, Letters};
    use super::same;
    use crate::apps::TtlCache;
    use crate::tests::kit::Fail;

    // A key that is put at tick 0 wakes there.
    fn wakes(ttl: u64, wake: u64) -> Result<(), Fail> {
        let calls = &[
            Put('a', 1, ttl, 0, Ok(None)),
            NextWake(Some(wake)),
            NextDeadline(Some(ttl)),
        ];
        plays(4, calls)
    }

    // At tick 0 a wake is the deadline with all its digits of base 64 but the first set to 0.
    // promise: cache.next-wake-isn
    #[test]
    fn wakes_by_the_first_digit() -> Result<(), Fail> {
        let table: &[(u64, u64)] = &[
            (0, 0),
            (1, 1),
            (63, 63),
            (64, 64),
            (127, 64),
            (1000, 960),
            (4095, 4032),
            (4096, 4096),
            (5000, 4096),
            (262149, 262144),
            (68719476735, 67645734912),
            // Further ahead than the wheel reaches, so filed where it ends.
            (70000000000, 67645734912),
        ];
        for (ttl, wake) in table {
            wakes(*ttl, *wake)?;
        }
        plays(4, &[NextWake(None)])
    }

    // The first of several deadlines is the one that wakes, and a take or a purge leaves the next one.
    // promise: cache.next-wake-isn
    #[test]
    fn wakes_for_the_first() -> Result<(), Fail> {
        let calls = &[
            Put('a', 1, 5000, 0, Ok(None)),
            Put('b', 1, 1000, 0, Ok(None)),
            Put('c', 1, 1001, 0, Ok(None)),
            NextWake(Some(960)),
            Purge(960, Ok(0)),
            NextWake(Some(1000)),
            Take('b', 960, Some(1)),
            NextWake(Some(1001)),
            Purge(1001, Ok(1)),
            NextWake(Some(4096)),
            Take('a', 1001, Some(1)),
            NextWake(None),
        ];
        plays(4, calls)
    }

    // Purges at a wake, which has to be ahead of the one before and no later than the deadline.
    fn purges_at(cache: &mut Letters, before: u64, wake: u64, deadline: u64) {
        same(wake, (before < wake, wake <= deadline), (true, true));
        same(wake, cache.purge(wake).is_ok(), true);
    }

    // Purges at each wake until nothing is kept, and answers how many purges that took.
    fn purges(cache: &mut Letters) -> Option<usize> {
        let mut before = 0u64;
        for turn in 0..1_000usize {
            let (Some(wake), Some(deadline)) = (cache.next_wake(), cache.next_deadline()) else {
                return Some(turn);
            };
            purges_at(cache, before, wake, deadline);
            before = wake;
        }
        None
    }

    fn takes_purges(cache: &mut Letters, ttl: u64, count: usize) {
        each_answers(cache, &[Put('a', 1, ttl, 0, Ok(None))]);
        same(ttl, purges(cache), Some(count));
    }

    // A deadline that stands in the highest level of the wheel takes a purge for each level, and one a tick ahead takes
    // one.
    // promise: cache.next-wake-isn
    #[test]
    fn six_purges_for_a_deadline() -> Result<(), Fail> {
        let table: &[(u64, usize)] = &[
            (1, 1),
            (100, 2),
            (1000, 2),
            (5000, 3),
            (68719476735, 6),
            (1090785345, 6),
        ];
        for (ttl, count) in table {
            takes_purges(&mut TtlCache::with_capacity(4)?, *ttl, *count);
        }
        Ok(())
    }

    // A renewal and a refresh leave the wheel where it was: the wake may lie before the moment then, and a purge brings
    // it up.
    // promise: cache.next-wake-isn
    #[test]
    fn a_purge_brings_the_wake_up() -> Result<(), Fail> {
        let calls = &[
            Put('a', 1, 1000, 0, Ok(None)),
            Put('b', 1, 2000, 0, Ok(None)),
            Renew('a', 1010, 990, Ok(2000)),
            NextWake(Some(1984)),
            Purge(1990, Ok(0)),
            NextWake(Some(2000)),
            Refresh,
            Moment(1990),
            NextWake(Some(1984)),
            Purge(1990, Ok(0)),
            NextWake(Some(2000)),
        ];
        plays(4, calls)
    }
}
