//! Sessions of many threads, each of which ends when it was idle for long enough.

use crate::apps::name::Name;
use crate::core::{CallError, CoreError, Turn};
use crate::memory::AllocError;
use crate::shards::{Handle, QueueConfig, QueueError, SharedDelayQueue};
use crate::ticks::{Key, LAST_TICK};

/// Sessions of many threads, each of which ends when nobody touched it for a time. Ticks are of one millisecond, and
/// the program passes them in: no clock is read.
///
/// ```
/// use hontkhale::parts::owner::Turn;
/// use hontkhale::parts::sessions::IdleSessions;
/// use hontkhale::parts::shards::QueueConfig;
///
/// let sessions = IdleSessions::new(QueueConfig::of(1, 100), 30_000)?;
/// let mut handle = sessions.handle()?;
/// let key = sessions.login(0, "alice", 0)?;
/// assert_eq!(sessions.touch(&mut handle, &key, 20_000), Ok(50_000));
/// assert!(matches!(sessions.next_idle(0, 30_000)?, Turn::Waiting { .. }));
/// assert!(matches!(sessions.next_idle(0, 50_000)?, Turn::Out(idle) if idle.value.text() == "alice"));
/// # Ok::<(), hontkhale::parts::shards::QueueError>(())
/// ```
///
/// Many threads may log in, and poll for the sessions that ended, each call under the lock of one shard. Each thread
/// that touches sessions has a handle, whose calls take no lock. All memory but that of names and handles is taken
/// when the sessions are made.
pub struct IdleSessions {
    queue: SharedDelayQueue<Name>,
    idle: u64,
}

impl IdleSessions {
    /// Makes a table of sessions that is empty at tick 0. Each session may be idle for `idle` ticks of one
    /// millisecond.
    ///
    /// It takes time and memory in proportion to the slots of all shards. Later only `login` takes memory, for the
    /// name, and `handle`.
    ///
    /// # Errors
    /// - `BadConfig` if a number of `config` is out of its range.
    /// - `NoMemory` if memory is refused.
    pub fn new(config: QueueConfig, idle: u64) -> Result<IdleSessions, QueueError> {
        let queue = SharedDelayQueue::new(config)?;
        Ok(IdleSessions { queue, idle })
    }

    /// Begins a session at `now`, a tick of one millisecond, and returns its key. The session ends at `now` and the
    /// idle time, unless it is touched before. It goes to the shard `route` modulo the number of shards: spread the
    /// routes evenly.
    ///
    /// It takes the lock of that shard for constant time, and memory for a copy of `name`.
    ///
    /// # Errors
    /// No session begins then. In this order:
    /// - `TooFar` if the deadline is beyond the last tick.
    /// - `NoMemory` if the copy of the name is refused its memory.
    /// - `Full` if the shard has no free slot.
    pub fn login(&self, route: u64, name: &str, now: u64) -> Result<Key, QueueError> {
        let deadline = self.deadline_from(now);
        if deadline > LAST_TICK {
            return Err(QueueError::Core(CoreError::TooFar { limit: LAST_TICK }));
        }
        let Ok(name) = self.name_of(name) else {
            return Err(QueueError::Core(CoreError::NoMemory));
        };
        self.queue.insert_or_drop(route, name, deadline)
    }

    /// Makes a handle, by which one thread at a time touches sessions and logs them out without a lock. It has a
    /// caller of each shard, so a queue makes at most 1,024 handles in all, given back or not.
    ///
    /// It takes the lock of each shard in turn, and memory for the callers.
    ///
    /// # Errors
    /// The callers that were made before the refusal are given back, but stay counted. In this order:
    /// - `NoMemory` if there is no room for the callers.
    /// - `TooManyHandles` if a shard has made 1,024 callers; `NoMemory` if one is refused its memory.
    pub fn handle(&self) -> Result<Handle, QueueError> {
        self.queue.handle()
    }

    // A copy of a name's text.
    fn name_of(&self, text: &str) -> Result<Name, AllocError> {
        Name::of(text)
    }
}

impl IdleSessions {
    /// Returns the number of shards.
    pub fn shards(&self) -> usize {
        self.queue.shards()
    }

    /// Returns for how many ticks of one millisecond a session may be idle.
    pub fn idle(&self) -> u64 {
        self.idle
    }

    // The deadline of a session that is used last at `now`. A sum that has no `u64` is beyond the last tick like this
    // one.
    fn deadline_from(&self, now: u64) -> u64 {
        now.saturating_add(self.idle)
    }

    /// Keeps a session alive: raises its deadline to `now` and the idle time, and returns the deadline that is then
    /// in force. That is this deadline, or a later one that the session had. `now` is a tick of one millisecond.
    /// `handle` is one that these sessions made.
    ///
    /// It takes constant time, no lock and no memory.
    ///
    /// # Errors
    /// In this order:
    /// - `TooFar` if the deadline is beyond the last tick.
    /// - `Unknown` if no slot has the key, or if there is no such shard.
    /// - `Stale` if the slot has had a later session, or the session a later key.
    /// - `Ended` if the session expired or was logged out; it says how.
    ///
    /// ```
    /// use hontkhale::parts::sessions::IdleSessions;
    /// use hontkhale::parts::shards::QueueConfig;
    ///
    /// let sessions = IdleSessions::new(QueueConfig::of(1, 100), 30_000)?;
    /// let mut handle = sessions.handle()?;
    /// let key = sessions.login(0, "alice", 0)?;
    /// assert_eq!(sessions.touch(&mut handle, &key, 20_000), Ok(50_000));
    /// assert_eq!(sessions.touch(&mut handle, &key, 10_000), Ok(50_000));
    /// # Ok::<(), hontkhale::parts::shards::QueueError>(())
    /// ```
    pub fn touch(&self, handle: &mut Handle, key: &Key, now: u64) -> Result<u64, CallError> {
        handle.extend(key, self.deadline_from(now))
    }

    /// Ends a session, and returns the deadline that it gave up, a tick of one millisecond. The session won't come
    /// out of [`IdleSessions::next_idle`]. A later poll of its shard frees its slot and drops its name. `handle` is
    /// one that these sessions made.
    ///
    /// It takes constant time, no lock and no memory.
    ///
    /// # Errors
    /// In this order:
    /// - `Unknown` if no slot has the key, or if there is no such shard.
    /// - `Stale` if the slot has had a later session, or the session a later key.
    /// - `Ended` if the session expired or was logged out; it says how.
    ///
    /// ```
    /// use hontkhale::parts::sessions::IdleSessions;
    /// use hontkhale::parts::shards::QueueConfig;
    ///
    /// let sessions = IdleSessions::new(QueueConfig::of(1, 100), 30_000)?;
    /// let mut handle = sessions.handle()?;
    /// let key = sessions.login(0, "alice", 0)?;
    /// assert_eq!(sessions.logout(&mut handle, &key), Ok(30_000));
    /// assert!(sessions.logout(&mut handle, &key).is_err());
    /// # Ok::<(), hontkhale::parts::shards::QueueError>(())
    /// ```
    pub fn logout(&self, handle: &mut Handle, key: &Key) -> Result<u64, CallError> {
        handle.cancel(key)
    }
}

impl IdleSessions {
    /// Takes a session out of `shard` that was idle for long enough at `now`, a tick of one millisecond. Call it
    /// again while it returns `Out`. It returns:
    /// - `Out` has the session's key, its deadline and its name.
    /// - `Waiting` if no session has ended: the shard has nothing to do before the tick `next`.
    /// - `Idle` if the shard has no session.
    ///
    /// It takes the shard's lock, and no memory. A call takes constant time for each session that it moves down the
    /// wheel or frees. A session moves at most five times after it began or was touched.
    ///
    /// # Errors
    /// In this order:
    /// - `Unknown` if there is no such shard.
    /// - `TickTooLarge` if `now` is beyond the last tick.
    ///
    /// ```
    /// use hontkhale::parts::owner::Turn;
    /// use hontkhale::parts::sessions::IdleSessions;
    /// use hontkhale::parts::shards::QueueConfig;
    ///
    /// let sessions = IdleSessions::new(QueueConfig::of(1, 100), 30_000)?;
    /// sessions.login(0, "alice", 0)?;
    /// while let Turn::Out(ended) = sessions.next_idle(0, 30_000)? {
    ///     assert_eq!(ended.value.text(), "alice");
    /// }
    /// # Ok::<(), hontkhale::parts::shards::QueueError>(())
    /// ```
    pub fn next_idle(&self, shard: usize, now: u64) -> Result<Turn<Name>, QueueError> {
        self.queue.poll(shard, now)
    }

    /// Returns the queue under the sessions, in which each session is an entry of its name. An audit takes it.
    pub fn into_queue(self) -> SharedDelayQueue<Name> {
        self.queue
    }
}
