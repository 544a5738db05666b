//! What the handles of a queue share with its owner: the words of its entries, and under which key the words have those that
//! haven't their first one any more.

use crate::clock::Clock;
use crate::key::{Key, Name};
use hontkhale::parts::directory::Directory;
use hontkhale::parts::owner::{self, CallError, Look, OpenWords};
use std::collections::HashMap;
use std::sync::atomic::{AtomicU64, AtomicUsize, Ordering::SeqCst};
use std::sync::mpsc::Sender;
use std::sync::{Mutex, MutexGuard, PoisonError};

/// The number that the program's next queue has: 0 is nobody's.
static NEXT: AtomicU64 = AtomicU64::new(1);

/// Draws a number that wasn't drawn before while the program runs: a key names the queue that made it by such a number. None is
/// given by hand, and the greatest of 64 bits stays.
///
/// # Panics
/// Where all were drawn, here and at every later call: a count that began again would name what is there already. At a billion
/// draws a second that is after 584 years.
fn draw(next: &AtomicU64) -> u64 {
    let drawn = next.fetch_update(SeqCst, SeqCst, |next| next.checked_add(1));
    drawn.expect("a number that no queue has: all were drawn")
}

/// The names under which the words have entries that got another stamp by a sooner reset or went to another place, by the names
/// that their users have.
pub(crate) type Names = HashMap<Name, Name>;

pub(crate) struct Shared {
    pub clock: Clock,
    /// The queue's number.
    pub number: u64,
    /// The words of each core that was made, by its number.
    pub words: Directory<OpenWords>,
    /// Held by the owner while it gives an entry another name: who finds the first one ended waits here for the next.
    names: Mutex<Names>,
    /// Where handles tell the owner what they cancelled, and how often they did.
    cancelled: Sender<Key>,
    cancels: AtomicUsize,
}

impl Shared {
    pub fn new(words: Directory<OpenWords>, cancelled: Sender<Key>) -> Shared {
        Shared {
            clock: Clock::new(),
            number: draw(&NEXT),
            words,
            names: Mutex::default(),
            cancelled,
            cancels: AtomicUsize::new(0),
        }
    }

    /// The names, for a moment: nobody's code runs while they are held.
    pub fn names(&self) -> MutexGuard<'_, Names> {
        self.names.lock().unwrap_or_else(PoisonError::into_inner)
    }

    /// Makes a step on an entry's word, and returns the deadline that the step tells. None where the entry has ended, or the key is
    /// another queue's.
    #[inline(always)]
    pub fn step(&self, key: &Key, step: impl Fn(&OpenWords, &owner::Key) -> Result<u64, CallError>) -> Option<u64> {
        if key.queue != self.number {
            return None;
        }
        match step(self.words.get(key.name.core())?, &key.name.key()) {
            Err(CallError::Stale { .. } | CallError::Ended { how: Look::LookRemoved(_) }) => {
                self.step_by_name(key, step)
            }
            stepped => stepped.ok(),
        }
    }

    /// The same where the entry may have another name by now.
    #[cold]
    fn step_by_name(&self, key: &Key, step: impl Fn(&OpenWords, &owner::Key) -> Result<u64, CallError>) -> Option<u64> {
        let names = self.names();
        let name = names.get(&key.name)?;
        step(self.words.get(name.core())?, &name.key()).ok()
    }

    /// A handle's note of what it cancelled.
    pub fn tell_cancel(&self, key: &Key) {
        // Nobody hears it where the queue has gone.
        let _ = self.cancelled.send(*key);
        self.cancels.fetch_add(1, SeqCst);
    }

    /// The cancels that were accepted. One is counted after it is made, so the owner may have freed its place before.
    #[inline]
    pub fn cancels(&self) -> usize {
        self.cancels.load(SeqCst)
    }
}

#[cfg(test)]
mod tests {
    use super::draw;
    use std::collections::HashSet;
    use std::panic::catch_unwind;
    use std::sync::atomic::{AtomicU64, Ordering::SeqCst};
    use std::thread;

    /// A count near its end, beyond which the first numbers of all would come again.
    #[test]
    fn the_last_number_is_refused_and_not_wrapped() {
        static IDS: AtomicU64 = AtomicU64::new(u64::MAX - 3);
        let drawn: Vec<Option<u64>> = (0..8).map(|_| catch_unwind(|| draw(&IDS)).ok()).collect();
        let left = [Some(u64::MAX - 3), Some(u64::MAX - 2), Some(u64::MAX - 1)];
        assert_eq!(drawn, [&left[..], &[None; 5]].concat());
    }

    /// 32 bits are no end: a count of so many would wrap here.
    #[test]
    fn more_than_32_bits_of_numbers_are_drawn() {
        let ids = AtomicU64::new(u64::from(u32::MAX) - 1);
        let drawn: Vec<u64> = (0..4).map(|_| draw(&ids)).collect();
        assert_eq!(drawn, [0xffff_fffe, 0xffff_ffff, 0x1_0000_0000, 0x1_0000_0001]);
    }

    #[test]
    fn threads_draw_no_number_twice() {
        let ids = AtomicU64::new(1);
        let drawn: Vec<u64> = thread::scope(|scope| {
            let draw = || (0..10_000).map(|_| draw(&ids)).collect::<Vec<u64>>();
            let threads: Vec<_> = (0..4).map(|_| scope.spawn(draw)).collect();
            threads.into_iter().flat_map(|thread| thread.join().expect("it draws")).collect()
        });
        assert_eq!(drawn.iter().collect::<HashSet<_>>().len(), 40_000);
        assert!(!drawn.contains(&0) && ids.load(SeqCst) == 40_001);
    }
}
