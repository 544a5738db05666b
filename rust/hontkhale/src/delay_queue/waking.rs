//! Where receivers wait, threads and tasks in one line, by the proved rule of [`crate::bell`].
//!
//! The first in line leads: it sleeps until the least hint, and the others sleep until they are called. Who lowers a hint that
//! the leader sleeps beyond calls the leader, and who leaves the lead calls the next one. A thread that is called runs, but a task
//! runs only if its runtime polls it: so a task that leads is to act by its tick and a grace, or, once called, within the grace.
//! As soon as a task has waited in a queue, those that follow sleep for a second at most, and behind a task that leads only until
//! it is to have acted. Who finds then that it hasn't takes the lead from it, and wakes it: it joins again where it is polled.
//! Each stay in line has a seat of a number of its own, so that one who has lost a seat touches nobody else's.

pub(crate) use crate::bell::Seat;
use crate::bell::{Call, Hint, Hints, Rung, Turns};
use crate::delay_queue::dropping::{first_panic, lose};
use crate::locks::hold;
use crate::memory::AllocError;
use std::alloc::{handle_alloc_error, Layout};
use std::cell::{Cell, RefCell};
use std::iter;
use std::mem::ManuallyDrop;
use std::panic::{catch_unwind, AssertUnwindSafe};
use std::sync::Mutex;
use std::task::Waker;
use std::thread::{self, Thread};

// They have no destructors, so that those of a thread's other values may wake receivers.
thread_local! {
    /// The line of which this thread calls a waker, by its address, and 0 where it calls none.
    static CALLING: Cell<usize> = const { Cell::new(0) };
    /// Those that are to be called once that waker has returned, each with its line.
    static NEXT: ManuallyDrop<RefCell<Vec<(usize, Sleeper)>>> = const { ManuallyDrop::new(RefCell::new(Vec::new())) };
}

/// What wakes a receiver.
pub(crate) enum Wakes {
    Thread(Thread),
    Task(Waker),
}

impl Wakes {
    /// Wakes it, and gives the panic of a waker.
    fn wake(self) -> thread::Result<()> {
        catch_unwind(AssertUnwindSafe(|| match self {
            Wakes::Thread(thread) => thread.unpark(),
            Wakes::Task(waker) => waker.wake(),
        }))
    }
}

/// One that sleeps.
pub(crate) struct Sleeper {
    seat: Seat,
    wakes: Wakes,
}

struct Waits {
    turns: Turns<Sleeper>,
    /// The threads that wait until the queue is empty, beside the line.
    askers: Vec<Thread>,
}

/// Those who receive from a queue and wait. Nobody's code runs while it is locked.
pub(crate) struct Waiting(Mutex<Waits>);

impl Waits {
    /// All that sleep, awake from now on.
    fn rise_all(&mut self, now: u64) -> Vec<Sleeper> {
        let mut risen = Vec::new();
        granted::<Sleeper, _>(self.turns.rise_all(now, &mut risen));
        risen
    }
}

/// What was made of memory for an `X`; the process ends where that is refused.
pub(crate) fn granted<X, R>(made: Result<R, AllocError>) -> R {
    made.unwrap_or_else(|_| handle_alloc_error(Layout::new::<X>()))
}

impl Waiting {
    /// A line for the receivers of so many shards, with the hints that these write, and all of them for whoever reads them.
    pub fn new(shards: usize) -> Result<(Waiting, Vec<Hint>, Hints), AllocError> {
        let mut turns = Turns::new(shards)?;
        let written = (0..shards).map(|_| turns.add_place()).collect::<Result<_, _>>()?;
        let hints = turns.hints()?;
        let askers = Vec::new();
        let waits = Waits { turns, askers };
        Ok((Waiting(Mutex::new(waits)), written, hints))
    }

    /// Puts a receiver to sleep, which joins the line where it has no seat there, and tells the tick at which it looks again by
    /// itself. None where it is to look again now: the queue is closed, it leads and something is due before `until`, or it has
    /// called others.
    pub fn sleep(&self, its: &mut Option<Seat>, wakes: Wakes, until: u64, now: u64) -> Option<u64> {
        let is_task = matches!(wakes, Wakes::Task(_));
        let mut waits = hold(&self.0);
        // Those that follow sleep without an end, until a task has waited.
        let is_first_task = is_task && !waits.turns.has_tasks();
        let seat = match *its {
            Some(seat) if waits.turns.sits(seat) => seat,
            _ => granted::<Sleeper, _>(waits.turns.join(is_task)),
        };
        let before = waits.turns.rise(seat);
        let mut called = if is_first_task { waits.rise_all(now) } else { Vec::new() };
        called.extend(waits.turns.overtake(seat, now));
        let slept = waits.turns.sleep(seat, until, now, Sleeper { seat, wakes });
        drop(waits);
        *its = Some(seat);
        // A waker may park this thread, which takes the wake that was meant for it: whoever calls one looks again.
        let calls_nobody = called.is_empty();
        lose(self.wake_each(called, now));
        drop(before);
        slept.ok().filter(|_| calls_nobody)
    }

    /// Leaves the line, and wakes the one that leads from then on. What a program's code panics with here is lost: the caller
    /// may have a value in hand. Within a waker of the line the next one is called after it: where each of many wakers drops its
    /// receiver, none is called on another one's stack.
    pub fn leave(&self, seat: Seat, now: u64) {
        let (slept, next) = self.left(seat, now);
        lose(catch_unwind(AssertUnwindSafe(|| drop(slept))));
        let is_calling = CALLING.get() == self.address();
        match next {
            Some(next) if is_calling && matches!(next.wakes, Wakes::Task(_)) => self.call_later(next),
            next => lose(self.wake_each(next, now)),
        }
    }

    fn left(&self, seat: Seat, now: u64) -> (Option<Sleeper>, Option<Sleeper>) {
        let (slept, called) = hold(&self.0).turns.leave(seat, now);
        (slept, called.map(|Call(next)| next))
    }

    /// Wakes the leader, which was rung.
    #[cold]
    pub fn ring(&self, rung: Rung, now: u64) -> thread::Result<()> {
        let called = hold(&self.0).turns.ring(rung, now);
        self.wake_each(called.map(|Call(leader)| leader), now)
    }

    /// Wakes all that sleep, and those that wait until the queue is empty.
    pub fn wake_all(&self, now: u64) -> thread::Result<()> {
        self.wake_askers();
        let all = hold(&self.0).rise_all(now);
        self.wake_each(all, now)
    }

    /// Notes that this thread waits until the queue is empty.
    pub fn add_asker(&self) {
        hold(&self.0).askers.push(thread::current());
    }

    pub fn remove_asker(&self) {
        let (askers, id) = (&mut hold(&self.0).askers, thread::current().id());
        if let Some(at) = askers.iter().position(|asker| asker.id() == id) {
            askers.swap_remove(at);
        }
    }

    /// Wakes those that wait until the queue is empty: each looks whether it is.
    pub fn wake_askers(&self) {
        hold(&self.0).askers.iter().for_each(Thread::unpark);
    }

    /// Closes for good: nobody sleeps any more. Those that are given are to be woken.
    #[must_use]
    pub fn close(&self) -> Vec<Sleeper> {
        let mut waits = hold(&self.0);
        iter::from_fn(|| waits.turns.close())
            .map(|Call(sleeper)| sleeper)
            .collect()
    }

    /// Wakes those that were called, and gives the first panic of a waker. Who has one that panics is out of the line, and the one
    /// that leads then is woken.
    pub fn wake_each(&self, called: impl IntoIterator<Item = Sleeper>, now: u64) -> thread::Result<()> {
        first_panic(called.into_iter().map(|sleeper| {
            let woken = self.wake(sleeper, now);
            iter::from_fn(|| self.next_to_call()).for_each(|next| lose(self.wake(next, now)));
            woken
        }))
    }

    fn wake(&self, Sleeper { seat, wakes }: Sleeper, now: u64) -> thread::Result<()> {
        let around = CALLING.replace(self.address());
        let woken = wakes.wake();
        if woken.is_err() {
            let (again, next) = self.left(seat, now);
            // It was polled meanwhile, and sleeps again.
            lose(again.map_or(Ok(()), |again| again.wakes.wake()));
            next.into_iter().for_each(|next| self.call_later(next));
        }
        CALLING.set(around);
        woken
    }

    /// What tells the line from others.
    fn address(&self) -> usize {
        self as *const Waiting as usize
    }

    fn call_later(&self, sleeper: Sleeper) {
        NEXT.with(|next| next.borrow_mut().push((self.address(), sleeper)));
    }

    fn next_to_call(&self) -> Option<Sleeper> {
        NEXT.with(|next| {
            let mut next = next.borrow_mut();
            let at = next.iter().rposition(|(line, _)| *line == self.address())?;
            let (_, sleeper) = next.swap_remove(at);
            if next.is_empty() {
                // Nobody drops the memory at the thread's end.
                *next = Vec::new();
            }
            Some(sleeper)
        })
    }
}
