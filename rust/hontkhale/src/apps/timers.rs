//! The timers of a cache's keys, kept by the delay queue of one owner. Nobody cancels one, so each runs until it is
//! due.

use crate::core::{CoreConfig, CoreError, DelayCore, Look, Turn, VecWords};
use crate::ticks::{Key, CAPACITY_LIMIT, LAST_STAMP};

// Whether the numbers that a cache is made by are in their ranges.
pub(crate) fn is_setting(capacity: usize, last_stamp: u32) -> bool {
    0 < capacity && capacity <= CAPACITY_LIMIT && 0 < last_stamp && last_stamp <= LAST_STAMP
}

type Queue<K> = DelayCore<K, VecWords>;

// The timers of keys.
pub(crate) struct Timers<K> {
    queue: Queue<K>,
    last_stamp: u32,
}

impl<K> Timers<K> {
    // Slots of which none is used. Refused as BadConfig where the capacity isn't 1 to 65536 or the last stamp isn't 1
    // to 1048575, and else as NoMemory.
    pub(crate) fn new(capacity: usize, last_stamp: u32) -> Result<Timers<K>, CoreError> {
        if !is_setting(capacity, last_stamp) {
            return Err(CoreError::BadConfig);
        }
        let config = CoreConfig {
            shard: 0,
            capacity,
            last_stamp,
        };
        let words = VecWords::new(capacity)?;
        match DelayCore::new(config, words) {
            Ok(queue) => Ok(Timers { queue, last_stamp }),
            Err((error, _words)) => Err(error),
        }
    }

    // As many slots with as many stamps, of which none is used. Refused as NoMemory alone: the numbers were in their
    // ranges when these timers were made.
    pub(crate) fn anew(&self) -> Result<Timers<K>, CoreError> {
        match Timers::new(self.capacity(), self.last_stamp) {
            Ok(fresh) => Ok(fresh),
            Err(_) => Err(CoreError::NoMemory),
        }
    }
}

impl<K> Timers<K> {
    // How many timers are set.
    pub(crate) fn len(&self) -> usize {
        self.queue.len()
    }

    // How many slots have no timer and no stamp left.
    pub(crate) fn worn(&self) -> usize {
        self.queue.worn()
    }

    // How many slots there are.
    pub(crate) fn capacity(&self) -> usize {
        self.queue.capacity()
    }

    // The least deadline of a timer, where the queue files its first one by its own deadline: none is then before it.
    // None where no timer is set, or where all are more than `REACH` ticks ahead, and so filed earlier. Time as the
    // timers that share the first one's list.
    pub(crate) fn first_deadline(&self) -> Option<u64> {
        let key = self.queue.peek()?;
        let filed = self.queue.filed(&key.entry())?;
        match self.queue.look(&key) {
            Ok(Look::StillLive(deadline)) if deadline == filed => Some(deadline),
            _ => None,
        }
    }

    // When the queue looks at a timer next; none where none is set. Constant time.
    pub(crate) fn next_wake(&self) -> Option<u64> {
        self.queue.next_wake()
    }

    // Stops one timer that is due at `now`, and answers its key; none where none is due.
    pub(crate) fn stop_due(&mut self, now: u64) -> Option<K> {
        // requires now ≤ LAST_TICK
        // requires self.old.noted ≤ now
        let Ok(turn) = self.queue.poll(now) else {
            unreachable!();
        };
        match turn {
            Turn::Out(expired) => Some(expired.value),
            Turn::Waiting { .. } => None,
            Turn::Idle => None,
        }
    }

    // Sets a timer at a free slot.
    pub(crate) fn start(&mut self, key: K, when: u64) -> Key {
        // requires when ≤ LAST_TICK
        // requires self.old.noted ≤ when
        // requires HasRoom self.old
        match self.queue.insert(key, when) {
            Ok(key) => key,
            Err(_) => unreachable!(),
        }
    }

    // Gives a timer another deadline, and its slot's next stamp; none where the slot has none left. A reset is
    // refused for nothing else: the timer is there, and nobody cancels it.
    pub(crate) fn restart(&mut self, key: &Key, when: u64) -> Option<Key> {
        // requires when ≤ LAST_TICK
        // requires self.old.noted ≤ when
        // requires IsTimer self.old.slots key.now
        self.queue.reset(&key.entry(), when).ok()
    }

    // Whether a timer is set.
    pub(crate) fn is_set(&self, key: &Key) -> bool {
        self.queue.get(&key.entry()).is_some()
    }

    // Stops a timer, and hands its key over; none where it isn't set.
    pub(crate) fn stop(&mut self, key: &Key) -> Option<K> {
        Some(self.queue.remove(&key.entry()).ok()?.value)
    }
}
