//! The expiring cache and idle sessions: the worked rows.

use crate::tests::kit::same;

pub mod calls {
    //! The calls of a cache of letters, each with what it has to answer, and the loop that makes the calls of a table.

    use crate::tests::kit::Fail;
    use super::same;
    use crate::apps::TtlCache;
    use crate::core::CoreError;

    /// A cache whose keys are letters.
    pub type Letters = TtlCache<char, u32>;

    /// A call, and what it has to answer.
    #[derive(Clone, Copy)]
    pub enum Call {
        /// Key, value, time to live and tick: the value that was there, or why key and value come back.
        Put(char, u32, u64, u64, Result<Option<u32>, CoreError>),
        /// Key, time to live and tick: the deadline.
        Renew(char, u64, u64, Result<u64, CoreError>),
        /// Key and tick: the value that leaves.
        Take(char, u64, Option<u32>),
        /// Up to a tick: how many keys are dropped.
        Purge(u64, Result<usize, CoreError>),
        /// Key and tick: the value that is seen.
        Get(char, u64, Option<u32>),
        Len(usize),
        Moment(u64),
        NextDeadline(Option<u64>),
    }

    use Call::{Get, Len, Moment, NextDeadline, Purge, Put, Renew, Take};

    // A value, and whether there is one.
    fn get(cache: &Letters, key: char, now: u64) -> (Option<u32>, bool) {
        (cache.get(&key, now).copied(), cache.contains(&key, now))
    }

    // What a reader tells, at that number of a table.
    fn tells(cache: &Letters, number: usize, call: Call) {
        match call {
            Get(key, now, value) => same(number, get(cache, key, now), (value, value.is_some())),
            Len(len) => same(number, (cache.len(), cache.is_empty()), (len, len == 0)),
            Moment(moment) => same(number, cache.moment(), moment),
            NextDeadline(deadline) => same(number, cache.next_deadline(), deadline),
            _ => same(number, "a call", "a reader"),
        }
    }

    // A put, which hands key and value back where it is refused.
    fn puts(cache: &mut Letters, number: usize, call: Call) {
        let (answer, key, value, expected) = match call {
            Put(key, value, ttl, now, expected) => {
                (cache.put(key, value, ttl, now), key, value, expected)
            }
            _ => return tells(cache, number, call),
        };
        same(
            number,
            answer,
            expected.map_err(|error| (error, key, value)),
        );
    }

    /// The call at that number of a table answers as it has to.
    pub fn answers(cache: &mut Letters, number: usize, call: Call) {
        match call {
            Renew(key, ttl, now, answer) => same(number, cache.renew(&key, ttl, now), answer),
            Take(key, now, value) => same(number, cache.take(&key, now), value),
            Purge(now, answer) => same(number, cache.purge(now), answer),
            _ => puts(cache, number, call),
        }
    }

    /// Each call of a table answers as it has to.
    pub fn each_answers(cache: &mut Letters, calls: &[Call]) {
        for (number, call) in calls.iter().enumerate() {
            answers(cache, number, *call);
        }
    }

    /// Likewise, of a fresh cache of that capacity and last stamp.
    pub fn plays_up_to(
        capacity: usize,
        last_stamp: u32,
        calls: &[Call],
    ) -> Result<(), Fail> {
        let mut cache = TtlCache::new(capacity, last_stamp)?;
        each_answers(&mut cache, calls);
        Ok(())
    }
}
pub mod rows {
    //! The worked rows.

    use crate::tests::kit::Fail;
    use super::same;
    use super::calls::Call::{Get, Len, Moment, NextDeadline, Purge, Put, Renew, Take};
    use super::calls::{Letters, each_answers, plays_up_to};
    use crate::apps::TtlCache;
    use crate::core::CoreError;
    use crate::ticks::LAST_STAMP;

    // The last tick, as the tables of the rows have it.
    const LAST: u64 = 4398046511103;

    const FULL: CoreError = CoreError::Full { linked: 2, worn: 0 };

    const TOO_LARGE: CoreError = CoreError::TickTooLarge { limit: LAST };

    const TOO_FAR: CoreError = CoreError::TooFar { limit: LAST };

    // promise: cache.get-contains
    #[test]
    fn cache_walk() -> Result<(), Fail> {
        let calls = &[
            Put('a', 1, 10, 0, Ok(None)),
            Get('a', 9, Some(1)),
            Get('a', 10, None),
            Put('b', 2, 10, 0, Ok(None)),
            Put('c', 3, 5, 0, Err(FULL)),
            Put('c', 3, 5, 10, Ok(None)),
            Len(1),
            Renew('c', 20, 12, Ok(32)),
            Put('c', 4, 1, 12, Ok(Some(3))),
            Take('c', 12, Some(4)),
            Renew('c', 1, 12, Err(CoreError::Missing)),
            Purge(68719476736, Ok(0)),
            Purge(LAST + 1, Err(TOO_LARGE)),
        ];
        plays_up_to(2, LAST_STAMP, calls)
    }

    // promise: cache.put-kept
    #[test]
    fn cache_worn_key() -> Result<(), Fail> {
        let calls = &[
            Put('a', 1, 5, 0, Ok(None)),
            Put('a', 2, 5, 0, Err(CoreError::Worn)),
            Get('a', 0, Some(1)),
        ];
        plays_up_to(2, 1, calls)
    }

    fn refused(capacity: usize, last_stamp: u32) -> Option<CoreError> {
        TtlCache::<char, u32>::new(capacity, last_stamp).err()
    }

    // promise: cache.new-with-capacity
    #[test]
    fn bad_configs() {
        let table: &[(usize, u32, Option<CoreError>)] = &[
            (0, 1, Some(CoreError::BadConfig)),
            (65537, 1, Some(CoreError::BadConfig)),
            (1, 0, Some(CoreError::BadConfig)),
            (1, 1048576, Some(CoreError::BadConfig)),
            (1, 1, None),
            (65536, 1048575, None),
        ];
        for (number, (capacity, last_stamp, answer)) in table.iter().enumerate() {
            let refused = refused(*capacity, *last_stamp);
            same(number, refused, *answer);
        }
    }

    // How far ahead the wheel of a queue reaches.
    const REACH: u64 = 68719476735;

    // The least deadline is told where the queue files what is further ahead than its wheel reaches, too.
    // promise: cache.next-deadline
    #[test]
    fn far_deadlines() -> Result<(), Fail> {
        let calls = &[
            Put('a', 1, REACH + 100, 0, Ok(None)),
            NextDeadline(Some(REACH + 100)),
            Put('b', 2, REACH - 30, 50, Ok(None)),
            NextDeadline(Some(REACH + 20)),
            Purge(REACH + 19, Ok(0)),
            Purge(REACH + 20, Ok(1)),
            NextDeadline(Some(REACH + 100)),
            Purge(REACH + 100, Ok(1)),
        ];
        plays_up_to(4, LAST_STAMP, calls)
    }

    // A put and a renewal are refused alike, and nothing changes.
    fn refuses(cache: &mut Letters, ttl: u64, now: u64, error: CoreError) {
        let calls = &[
            Put('b', 2, ttl, now, Err(error)),
            Renew('a', ttl, now, Err(error)),
            Len(1),
            Moment(0),
        ];
        each_answers(cache, calls);
    }

    fn out_of_range(cache: &mut Letters) {
        each_answers(cache, &[Put('a', 1, 5, 0, Ok(None))]);
        let table: &[(u64, u64, CoreError)] = &[
            (0, LAST + 1, TOO_LARGE),
            (u64::MAX, u64::MAX, TOO_LARGE),
            (1, LAST, TOO_FAR),
            (u64::MAX, 0, TOO_FAR),
            (LAST - 6, 7, TOO_FAR),
        ];
        for (ttl, now, error) in table {
            refuses(cache, *ttl, *now, *error);
        }
        let calls = &[
            Put('b', 2, LAST - 7, 7, Ok(None)),
            Len(1),
            Moment(7),
            NextDeadline(Some(LAST)),
        ];
        each_answers(cache, calls);
    }

    // A value that was refused for its tick or deadline comes back, and nothing changes.
    // promise: cache.put-kept
    #[test]
    fn put_out_of_range() -> Result<(), Fail> {
        out_of_range(&mut TtlCache::new(1, LAST_STAMP)?);
        Ok(())
    }
}
pub mod sessions {
    //! Idle sessions at the border of the last tick.

    use crate::tests::kit::Fail;
    use super::same;
    use crate::apps::{IdleSessions, Name};
    use crate::core::{CallError, CoreError, Turn};
    use crate::shards::{Handle, QueueConfig, QueueError};
    use crate::ticks::{EntryId, Key};

    /// The last tick, as the tables of the rows have it.
    pub const LAST: u64 = 4398046511103;

    /// How long a session may be idle in these tests.
    pub const IDLE: u64 = 100;

    pub fn sessions(idle: u64) -> Result<IdleSessions, QueueError> {
        IdleSessions::new(QueueConfig::of(1, 4), idle)
    }

    // A poll of the one shard. What it promises isn't passed on, here and in the calls below: a test sees for itself.
    fn poll(sessions: &IdleSessions, now: u64) -> Result<Turn<Name>, QueueError> {
        sessions.next_idle(0, now)
    }

    /// A poll gives the session of that name, which ended at that tick.
    pub fn ends(sessions: &IdleSessions, now: u64, name: &str, at: u64) {
        match poll(sessions, now) {
            Ok(Turn::Out(ended)) => same(now, (ended.value.text(), ended.deadline), (name, at)),
            _ => assert!(false, "{name} didn't come out at {now}"),
        }
    }

    /// A poll gives no session, and names the tick to wait for, where there is one.
    pub fn waits(sessions: &IdleSessions, now: u64, answer: Option<u64>) {
        let told = match poll(sessions, now) {
            Ok(Turn::Waiting { next }) => Ok(Some(next)),
            Ok(Turn::Idle) => Ok(None),
            _ => Err("a session came out"),
        };
        same(now, told, Ok(answer));
    }

    fn login(sessions: &IdleSessions, name: &str, now: u64) -> Result<Key, QueueError> {
        sessions.login(0, name, now)
    }

    pub fn begins(sessions: &IdleSessions, name: &str, now: u64) -> Result<Key, Fail> {
        Ok(login(sessions, name, now)?)
    }

    pub type Answer = Result<u64, CallError>;

    fn touch(sessions: &IdleSessions, handle: &mut Handle, key: &Key, now: u64) -> Answer {
        sessions.touch(handle, key, now)
    }

    pub fn touches(
        sessions: &IdleSessions,
        handle: &mut Handle,
        key: &Key,
        now: u64,
        answer: Answer,
    ) {
        same(now, touch(sessions, handle, key, now), answer);
    }

    pub fn logs_out(
        sessions: &IdleSessions,
        handle: &mut Handle,
        key: &Key,
        answer: Answer,
    ) {
        same("logout", sessions.logout(handle, key), answer);
    }

    // A login and a touch at a tick end at the last one, or are refused.
    fn idles(
        sessions: &IdleSessions,
        handle: &mut Handle,
        row: usize,
        now: u64,
        is_tick: bool,
    ) {
        let answer = login(sessions, "ann", now);
        let ann = Key::new(EntryId::new(0, 0, 1), 1);
        let touched = touch(sessions, handle, &ann, now);
        if is_tick {
            same(row, answer, Ok(ann));
            same(row, touched, Ok(LAST));
            ends(sessions, LAST, "ann", LAST);
        } else {
            let too_far = QueueError::Core(CoreError::TooFar { limit: LAST });
            same(row, answer, Err(too_far));
            same(row, touched, Err(CallError::TooFar { limit: LAST }));
            waits(sessions, LAST, None);
        }
    }

    fn idles_by_handle(
        sessions: &IdleSessions,
        row: usize,
        now: u64,
        is_tick: bool,
    ) -> Result<(), QueueError> {
        let mut handle = sessions.handle()?;
        idles(sessions, &mut handle, row, now, is_tick);
        Ok(())
    }

    // One row, of sessions that may be idle for so long.
    fn idles_for(
        row: usize,
        (idle, now, is_tick): (u64, u64, bool),
    ) -> Result<(), QueueError> {
        let sessions = sessions(idle)?;
        same(row, sessions.idle(), idle);
        idles_by_handle(&sessions, row, now, is_tick)
    }

    // A session's deadline may be the last tick and no later one; a sum that has no `u64` is later too.
    // promise: sessions.login-queue
    #[test]
    fn idle_beyond_the_last_tick() -> Result<(), Fail> {
        let rows = [
            (IDLE, LAST - IDLE, true),
            (IDLE, LAST - IDLE + 1, false),
            (IDLE, LAST, false),
            (IDLE, u64::MAX - IDLE, false),
            (IDLE, u64::MAX - IDLE + 1, false),
            (IDLE, u64::MAX, false),
            (0, LAST, true),
            (0, LAST + 1, false),
            (LAST, 0, true),
            (LAST, 1, false),
            (u64::MAX, 0, false),
            (u64::MAX, 1, false),
            (u64::MAX, u64::MAX, false),
        ];
        for (row, idling) in rows.iter().enumerate() {
            idles_for(row, *idling)?;
        }
        Ok(())
    }
}
