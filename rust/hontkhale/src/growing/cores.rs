//! The cores of one owner, and the calls on them.

use crate::core::{CoreError, DelayCore, Piece, Removed, Turn, Words};
use crate::growing::NEVER;
use crate::index::{nth, nth_mut};
use crate::memory::AllocError;
use crate::ticks::{EntryId, Key, LAST_TICK};
use alloc::vec::Vec;

/// Of how many cores a tick is known before which none of its live entries has a deadline.
pub(crate) const KNOWN: usize = 16;

/// Where nobody has the turn.
const NOBODY: usize = usize::MAX;

/// Which core has the least wake.
#[derive(Clone, Copy)]
pub(crate) struct Least {
    // Its place.
    pub place: usize,
    // Its wake.
    pub wake: u64,
    // No other core has a live entry with a deadline before this tick.
    pub others: u64,
}

/// What is to be polled next.
#[derive(Clone, Copy)]
pub(crate) enum Due {
    /// The core at a place. No other one has a live entry with a deadline before `others`.
    In { place: usize, others: u64 },
    /// None is due before this tick, and none ever where there is no tick.
    Rests(Option<u64>),
}

// What is least, once a core with that wake joins those before it.
pub(crate) fn joined(least: Option<Least>, place: usize, wake: Option<u64>) -> Option<Least> {
    let Some(wake) = wake else {
        return least;
    };
    let Some(so_far) = least else {
        return Some(Least {
            place,
            wake,
            others: NEVER,
        });
    };
    if wake < so_far.wake {
        return Some(Least {
            place,
            wake,
            others: so_far.wake,
        });
    }
    Some(Least {
        place: so_far.place,
        wake: so_far.wake,
        others: so_far.others.min(wake),
    })
}

/// Which core's turn it is to be polled, and what is known of the others, so that who is next is found without a look
/// at each.
pub(crate) struct Turns {
    // The core that has the turn. No other one has a live entry with a deadline before `others`.
    place: usize,
    others: u64,
    // No live entry of a core has a deadline before its tick here.
    bounds: [u64; KNOWN],
}

impl Turns {
    /// Nothing is known.
    pub fn new() -> Turns {
        // The one core of most stores goes on with the turn.
        Turns {
            place: 0,
            others: 0,
            bounds: [0; KNOWN],
        }
    }

    /// The core that has the turn. Where there is no such one, nobody has it.
    #[inline(always)]
    pub fn place(&self) -> usize {
        self.place
    }

    /// The tick before which no other core has a live entry with a deadline.
    #[inline(always)]
    pub fn others(&self) -> u64 {
        self.others
    }

    /// Notes that an entry of a core gets a deadline.
    #[inline(always)]
    pub fn lower(&mut self, at: usize, when: u64) {
        if at == self.place {
            return;
        }
        self.others = self.others.min(when);
        if at < KNOWN {
            let bound = *nth(&self.bounds, at);
            *nth_mut(&mut self.bounds, at) = bound.min(when);
        }
    }

    /// Notes when a core wakes. Nobody has the turn then.
    #[inline(always)]
    pub fn note(&mut self, at: usize, wake: u64) {
        self.place = NOBODY;
        self.others = 0;
        if at < KNOWN {
            *nth_mut(&mut self.bounds, at) = wake;
        }
    }

    /// Gives a core the turn, where no other one has a live entry with a deadline before `others`.
    #[inline(always)]
    pub fn give(&mut self, place: usize, others: u64) {
        self.place = place;
        self.others = others;
        if place < KNOWN {
            *nth_mut(&mut self.bounds, place) = 0;
        }
    }

    /// The one of the first cores that has the least tick, and the least tick of the others; none where all is known to
    /// be idle.
    #[inline(always)]
    pub fn first(&self, cores: usize) -> Option<(usize, u64)> {
        // requires cores ≤ KNOWN
        let mut place = NOBODY;
        let mut least = NEVER;
        let mut others = NEVER;
        for at in 0..cores {
            let bound = *nth(&self.bounds, at);
            if bound < least {
                others = least;
                least = bound;
                place = at;
            } else {
                others = others.min(bound);
            }
        }
        if place == NOBODY {
            return None;
        }
        Some((place, others))
    }
}

/// Why a core doesn't come into a store.
#[derive(Clone, Copy, Debug, PartialEq, Eq)]
pub enum TakeError {
    /// An entry is linked in it.
    StillLinked,
    /// A core of the store has its number, or it is the last one of all.
    UsedNumber,
    /// Memory was refused.
    NoMemory,
}

/// A delay queue of one owner that grows and shrinks.
///
/// A call by an entry's id compares its number with those of the cores, the newest first, until it has found its core.
/// What it costs, as it is told with the call, is in that core.
pub struct Cores<T, W: Words> {
    pub(crate) cores: Vec<DelayCore<T, W>>,
    pub(crate) opened: usize,
    pub(crate) next: u32,
    pub(crate) noted: u64,
    pub(crate) turns: Turns,
}

// Why a reset is refused where no core has the entry's number.
pub(crate) fn missing_at(when: u64) -> CoreError {
    if when > LAST_TICK {
        return CoreError::TooFar { limit: LAST_TICK };
    }
    CoreError::Missing
}

// Whether nothing is linked in a core, and no value waits for its drop there.
pub(crate) fn is_foldable<T, W: Words>(core: &DelayCore<T, W>) -> bool {
    core.is_empty() && core.deferred() == 0
}

// Takes a live entry out of a core.
#[inline(always)]
fn remove_from<T, W: Words>(core: &mut DelayCore<T, W>, entry: &EntryId) -> Result<Removed<T>, CoreError> {
    core.remove(entry)
}

// The place of the open core, once the core at a place is gone.
fn opened_after(opened: usize, at: usize) -> usize {
    if at < opened {
        opened - 1
    } else {
        opened
    }
}

// Why an insert is refused where no core is open.
fn closed_at(when: u64) -> CoreError {
    if when > LAST_TICK {
        return CoreError::TooFar { limit: LAST_TICK };
    }
    CoreError::Full { linked: 0, worn: 0 }
}

impl<T, W: Words> Cores<T, W> {
    /// A row of no cores.
    pub fn new() -> Cores<T, W> {
        Cores {
            cores: Vec::new(),
            opened: 0,
            next: 0,
            noted: 0,
            turns: Turns::new(),
        }
    }

    /// Returns how many cores there are.
    pub fn count(&self) -> usize {
        self.cores.len()
    }

    /// Returns the core at a place. It returns none where there is no such place.
    #[inline]
    pub fn get(&self, place: usize) -> Option<&DelayCore<T, W>> {
        if place >= self.cores.len() {
            return None;
        }
        Some(nth(&self.cores, place))
    }

    /// Returns the place of the open core. Where there is no such place, no core is open.
    #[inline]
    pub fn opened(&self) -> usize {
        self.opened
    }

    /// Returns the greatest tick, of one millisecond, that was noted.
    pub fn noted(&self) -> u64 {
        self.noted
    }

    /// Opens the core at a place, so that inserts go there from now on. It returns whether there is such a place.
    pub fn open(&mut self, place: usize) -> bool {
        if place >= self.cores.len() {
            return false;
        }
        self.opened = place;
        true
    }

    /// Closes the open core: inserts are refused until another one is opened or comes in.
    pub fn close(&mut self) {
        self.opened = self.cores.len();
    }

    // The place of the core of that number.
    #[inline(always)]
    pub(crate) fn place_of(&self, number: u32) -> Option<usize> {
        for newer in 0..self.cores.len() {
            // The newest core has the most entries.
            let at = self.cores.len() - 1 - newer;
            if nth(&self.cores, at).shard() == number {
                return Some(at);
            }
        }
        None
    }

    // The core of an entry's number.
    pub(crate) fn of(&self, entry: &EntryId) -> Option<&DelayCore<T, W>> {
        let at = self.place_of(entry.shard())?;
        Some(nth(&self.cores, at))
    }

    /// Takes a live entry out, and returns its value with its key and its current deadline, a tick of one millisecond.
    /// Constant time, and no memory is taken.
    ///
    /// # Errors
    /// In this order:
    /// - `Missing` if the entry isn't in the store any more, or never was.
    /// - `WasCancelled` if the entry was cancelled.
    #[inline(always)]
    pub fn remove(&mut self, entry: &EntryId) -> Result<Removed<T>, CoreError> {
        let Some(at) = self.place_of(entry.shard()) else {
            return Err(CoreError::Missing);
        };
        remove_from(nth_mut(&mut self.cores, at), entry)
    }

    /// Takes a live entry out if its current deadline isn't after `tick`, both of one millisecond, and returns its
    /// value with its key and that deadline. It returns none if the deadline is later: the entry stays as it is.
    /// Constant time, and no memory is taken.
    ///
    /// # Errors
    /// In this order:
    /// - `Missing` if the entry isn't in the store any more, or never was.
    /// - `WasCancelled` if the entry was cancelled.
    pub fn remove_if_due(&mut self, entry: &EntryId, tick: u64) -> Result<Option<Removed<T>>, CoreError> {
        let Some(at) = self.place_of(entry.shard()) else {
            return Err(CoreError::Missing);
        };
        nth_mut(&mut self.cores, at).remove_if_due(entry, tick)
    }

    /// Gives a live entry the deadline `when`, a tick of one millisecond, sooner or later than the one that it has, and
    /// returns its new key. Constant time, and no memory is taken.
    ///
    /// # Errors
    /// In this order:
    /// - `TooFar` if `when` is beyond the last tick.
    /// - `Missing` if the entry isn't in the store any more, or never was.
    /// - `WasCancelled` if the entry was cancelled.
    /// - `Worn` if the entry's slot has no stamp left for another key.
    #[inline(always)]
    pub fn reset(&mut self, entry: &EntryId, when: u64) -> Result<Key, CoreError> {
        let Some(at) = self.place_of(entry.shard()) else {
            return Err(missing_at(when));
        };
        self.turns.lower(at, when);
        nth_mut(&mut self.cores, at).reset(entry, when)
    }

    /// Returns the current deadline of a live entry, a tick of one millisecond. Constant time.
    ///
    /// # Errors
    /// In this order:
    /// - `Missing` if the entry isn't in the store any more, or never was.
    /// - `WasCancelled` if the entry was cancelled.
    pub fn deadline(&mut self, entry: &EntryId) -> Result<u64, CoreError> {
        let Some(at) = self.place_of(entry.shard()) else {
            return Err(CoreError::Missing);
        };
        nth_mut(&mut self.cores, at).deadline(entry)
    }

    /// Returns the key that an insert may give next: that of a free slot of the open core in which no value waits for
    /// its drop. It returns none if no core is open, or no such slot is left. Constant time.
    pub fn next_key(&self) -> Option<Key> {
        if self.opened >= self.cores.len() {
            return None;
        }
        nth(&self.cores, self.opened).next_key()
    }

    /// Calls a closure with the value of an entry, which it may change where it is, and returns what it returns. It
    /// returns none, and doesn't call it, if the entry isn't in the store any more, or never was. A cancelled entry has
    /// its value until it is freed.
    pub fn with_value<R, F: FnOnce(&mut T) -> R>(&mut self, entry: &EntryId, call: F) -> Option<R> {
        // requires F.IsAlwaysCallable call
        let at = self.place_of(entry.shard())?;
        nth_mut(&mut self.cores, at).with_value(entry, call)
    }

    /// Puts `value` into the open core, to come out at the tick `when` of one millisecond, and returns its key. No
    /// value is dropped: one that waits for its drop in the slot that the entry takes comes out beside the key.
    /// Constant time, and no memory is taken.
    ///
    /// # Errors
    /// `value` comes back. In this order:
    /// - `TooFar` if `when` is beyond the last tick.
    /// - `Full` if no core is open, or the open one has no slot free.
    #[inline(always)]
    pub fn insert(&mut self, value: T, when: u64) -> (Result<Key, (CoreError, T)>, Option<T>) {
        if self.opened >= self.cores.len() {
            return (Err((closed_at(when), value)), None);
        }
        self.turns.lower(self.opened, when);
        nth_mut(&mut self.cores, self.opened).insert_deferring(value, when)
    }

    // Whether a core may come in.
    fn may_take(&self, core: &DelayCore<T, W>) -> Result<(), TakeError> {
        if !core.is_empty() {
            return Err(TakeError::StillLinked);
        }
        if core.shard() == u32::MAX {
            return Err(TakeError::UsedNumber);
        }
        if self.place_of(core.shard()).is_some() {
            return Err(TakeError::UsedNumber);
        }
        Ok(())
    }

    /// Takes memory for `cores` more in the list of cores.
    ///
    /// # Errors
    /// If memory is refused.
    pub fn reserve(&mut self, cores: usize) -> Result<(), AllocError> {
        Ok(self.cores.try_reserve(cores)?)
    }

    /// Takes a core in, which is open from then on. The one that was open drains. A later tick that the core noted is
    /// noted. It takes memory for the list of cores alone.
    ///
    /// # Errors
    /// The core comes back, and nothing changes. In this order:
    /// - `StillLinked` if an entry is linked in the core.
    /// - `UsedNumber` if a core of the store has its number, or it is the last one of all.
    /// - `NoMemory` if memory is refused.
    #[allow(clippy::result_large_err)]
    pub fn take_in(&mut self, core: DelayCore<T, W>) -> Result<(), (TakeError, DelayCore<T, W>)> {
        if let Err(error) = self.may_take(&core) {
            return Err((error, core));
        }
        let number = core.shard();
        if self.cores.try_reserve(1).is_err() {
            return Err((TakeError::NoMemory, core));
        }
        self.next = self.next.max(number + 1);
        self.noted = self.noted.max(core.noted());
        self.opened = self.cores.len();
        self.turns = Turns::new();
        self.cores.push(core);
        Ok(())
    }

    // The place of a core that has drained.
    fn drained(&self) -> Option<usize> {
        for at in 0..self.cores.len() {
            if at != self.opened && is_foldable(nth(&self.cores, at)) {
                return Some(at);
            }
        }
        None
    }

    /// Takes a core out that has drained: it isn't the open one, and holds nothing, not even a value that waits for its
    /// drop. Folded, it keeps its words alone.
    pub fn take_drained(&mut self) -> Option<DelayCore<T, W>> {
        let at = self.drained()?;
        let core = self.take_at(at);
        Some(core)
    }

    // Takes the core at a place out, which has drained.
    pub(crate) fn take_at(&mut self, at: usize) -> DelayCore<T, W> {
        // requires (c : Core T W) × HasDrained self.old at c
        self.opened = opened_after(self.opened, at);
        self.turns = Turns::new();
        self.cores.remove(at)
    }
}

// The next wake of a core.
pub(crate) fn wake_of<T, W: Words>(core: &DelayCore<T, W>) -> Option<u64> {
    core.next_wake()
}

// Whether a core that wakes so wakes by a tick.
#[inline(always)]
fn wakes_by(wake: Option<u64>, tick: u64) -> bool {
    match wake {
        Some(wake) => wake <= tick,
        None => false,
    }
}

// What a store answers where a piece of the core that wakes first came to an answer, and no other core has a live entry
// with a deadline before `others`.
fn as_told<T>(piece: Piece<T>, noted: u64, others: u64) -> Piece<T> {
    match piece {
        Piece::Answer(Turn::Waiting { next }) if noted < others => {
            Piece::Answer(Turn::Waiting { next: next.min(others) })
        }
        Piece::Answer(Turn::Idle) if noted < others => {
            if others == NEVER {
                return Piece::Answer(Turn::Idle);
            }
            Piece::Answer(Turn::Waiting { next: others })
        }
        Piece::Answer(Turn::Out(expired)) => Piece::Answer(Turn::Out(expired)),
        _ => Piece::Working,
    }
}

impl<T, W: Words> Cores<T, W> {
    // Which core wakes first, none where nothing is linked.
    #[inline(never)]
    fn least(&self) -> Option<Least> {
        let mut least = None;
        for at in 0..self.cores.len() {
            least = joined(least, at, wake_of(nth(&self.cores, at)));
        }
        least
    }

    // What is to be polled next: the core whose turn it is, as long as it wakes before the others.
    #[inline(always)]
    fn due(&mut self) -> Due {
        let (place, others) = (self.turns.place(), self.turns.others());
        if place < self.cores.len() {
            if self.noted < others {
                return Due::In { place, others };
            }
            let wake = wake_of(nth(&self.cores, place));
            if wakes_by(wake, others) {
                return Due::In { place, others };
            }
            self.turns.note(place, wake.unwrap_or(NEVER));
        }
        self.take_turns()
    }

    // Gives the turn to the core that wakes first.
    #[inline(always)]
    fn take_turns(&mut self) -> Due {
        let Some(least) = self.next_turn() else {
            return Due::Rests(None);
        };
        if least.wake > self.noted {
            return Due::Rests(Some(least.wake));
        }
        Due::In {
            place: least.place,
            others: least.others,
        }
    }

    // The core that wakes first. It has the turn then.
    #[inline(always)]
    fn next_turn(&mut self) -> Option<Least> {
        if let Some(least) = self.sought() {
            return Some(least);
        }
        let least = self.least()?;
        self.turns.give(least.place, least.others);
        Some(least)
    }

    // The same by what is known of the cores, none where that takes a look at each.
    #[inline(always)]
    fn sought(&mut self) -> Option<Least> {
        let cores = self.cores.len();
        if cores > KNOWN {
            return None;
        }
        for _ in 0..KNOWN + 1 {
            let (place, others) = self.turns.first(cores)?;
            if let Some(least) = self.tries(place, others) {
                return Some(least);
            }
        }
        None
    }

    // Gives the core at a place the turn if it wakes by what the others have.
    #[inline(always)]
    fn tries(&mut self, place: usize, others: u64) -> Option<Least> {
        // requires place < length self.old.cores
        // requires OthersAreQuiet self.old place others
        let Some(wake) = wake_of(nth(&self.cores, place)) else {
            self.turns.note(place, NEVER);
            return None;
        };
        if wake > others {
            self.turns.note(place, wake);
            return None;
        }
        self.turns.give(place, others);
        Some(Least { place, wake, others })
    }

    /// Notes a tick, of one millisecond, and polls one core: it takes out one entry whose deadline in force is reached
    /// by the greatest tick noted, or tells when to come again, or that another core may have more. No value is
    /// dropped: that of each cancelled entry which it reaps waits until it is taken out. It may name a tick though what
    /// was to come then has left: whoever polls at that tick is told anew.
    ///
    /// # Errors
    /// `TickTooLarge` beyond the last tick, which is not noted then.
    #[inline(always)]
    pub fn poll(&mut self, tick: u64) -> Result<Piece<T>, CoreError> {
        if tick > LAST_TICK {
            return Err(CoreError::TickTooLarge { limit: LAST_TICK });
        }
        self.noted = self.noted.max(tick);
        match self.due() {
            Due::In { place, others } => Ok(self.poll_core(place, others)),
            Due::Rests(None) => Ok(Piece::Answer(Turn::Idle)),
            Due::Rests(Some(next)) => Ok(Piece::Answer(Turn::Waiting { next })),
        }
    }

    /// The same by at most `most` steps, each in constant time. So it also tells where it made them all, and more may
    /// be left.
    ///
    /// # Errors
    /// `TickTooLarge` beyond the last tick, which is not noted then.
    #[inline(always)]
    pub fn poll_some(&mut self, tick: u64, most: u32) -> Result<Piece<T>, CoreError> {
        if tick > LAST_TICK {
            return Err(CoreError::TickTooLarge { limit: LAST_TICK });
        }
        self.noted = self.noted.max(tick);
        match self.due() {
            Due::In { place, others } => Ok(self.poll_piece(place, others, most)),
            Due::Rests(None) => Ok(Piece::Answer(Turn::Idle)),
            Due::Rests(Some(next)) => Ok(Piece::Answer(Turn::Waiting { next })),
        }
    }

    // Polls one core, where no other has a live entry with a deadline before `others`.
    #[inline(always)]
    fn poll_core(&mut self, place: usize, others: u64) -> Piece<T> {
        // requires place < length self.old.cores
        // requires OthersAreQuiet self.old place others
        // requires HasTurn self.old place others
        let noted = self.noted;
        let answer = nth_mut(&mut self.cores, place).poll_deferring(noted.min(others));
        match answer {
            Ok(turn) => as_told(Piece::Answer(turn), noted, others),
            Err(_) => unreachable!(),
        }
    }

    // The same by at most so many steps.
    #[inline(always)]
    fn poll_piece(&mut self, place: usize, others: u64, most: u32) -> Piece<T> {
        // requires place < length self.old.cores
        // requires OthersAreQuiet self.old place others
        // requires HasTurn self.old place others
        let noted = self.noted;
        let answer = nth_mut(&mut self.cores, place).poll_some_deferring(noted.min(others), most);
        match answer {
            Ok(piece) => as_told(piece, noted, others),
            Err(_) => unreachable!(),
        }
    }

    /// Returns the tick, of one millisecond, at which the store has something to do next. It returns none if no entry
    /// is linked. No live entry has a deadline before that tick; the least deadline may be later.
    pub fn next_wake(&self) -> Option<u64> {
        let least = self.least()?;
        Some(least.wake)
    }

    /// Returns the key of an entry that is scheduled first, possibly a cancelled one. It returns none if no entry is
    /// linked.
    pub fn peek(&self) -> Option<Key> {
        let least = self.least()?;
        nth(&self.cores, least.place).peek()
    }

    /// Takes out a freed value that waits for its drop. It returns none if no value waits.
    pub fn take_deferred(&mut self) -> Option<T> {
        let at = self.waiting()?;
        nth_mut(&mut self.cores, at).take_deferred()
    }

    // The place of a core in which a value waits for its drop.
    fn waiting(&self) -> Option<usize> {
        for at in 0..self.cores.len() {
            if nth(&self.cores, at).deferred() > 0 {
                return Some(at);
            }
        }
        None
    }
}
