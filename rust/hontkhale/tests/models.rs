//! Random calls of each queue beside a model of it over std's maps: each answer and each total is compared.
//!
//! The seeds are fixed. `HONTKHALE_CALLS=1000000` makes a million calls of each queue.

// The tests ask for a newer Rust than the crate, and an error is shown without the value that came back.
#![allow(clippy::incompatible_msrv, clippy::ok_expect)]

#[path = "models/draw.rs"]
mod draw;
#[path = "models/one_owner.rs"]
mod one_owner;
#[path = "models/shard.rs"]
mod shard;
#[path = "models/shards.rs"]
mod shards;
#[path = "models/twin.rs"]
mod twin;
#[path = "models/twins.rs"]
mod twins;
#[path = "models/value.rs"]
mod value;

mod ends {
    //! A test that would wait for ever fails.

    use super::draw::calls;
    use std::panic::resume_unwind;
    use std::sync::mpsc::{channel, RecvTimeoutError::Timeout};
    use std::thread;
    use std::time::Duration;

    /// Runs a test on a thread of its own. It fails where the test fails, and where it hasn't ended after some minutes, or
    /// longer where more calls are asked for.
    pub fn ends(test: impl FnOnce() + Send + 'static) {
        let (sender, receiver) = channel();
        let thread = thread::spawn(move || {
            test();
            sender.send(()).expect("a test that is waited for");
        });
        let limit = Duration::from_secs(120 + calls() / 1_000);
        if receiver.recv_timeout(limit) == Err(Timeout) {
            panic!("the test waits for ever");
        }
        if let Err(panic) = thread.join() {
            resume_unwind(panic);
        }
    }
}

mod wakes {
    //! A task that counts its wakes, and the poller that a model says is parked.

    use std::sync::atomic::{AtomicU64, Ordering};
    use std::sync::Arc;
    use std::task::{Wake, Waker};

    /// Counts how often it was woken.
    #[derive(Default)]
    pub struct Task {
        wakes: AtomicU64,
    }

    impl Wake for Task {
        fn wake(self: Arc<Self>) {
            self.wakes.fetch_add(1, Ordering::SeqCst);
        }
    }

    /// A task of a test, and how often it was to be woken.
    #[derive(Default)]
    pub struct Poller {
        task: Arc<Task>,
        expected: u64,
    }

    impl Poller {
        pub fn waker(&self) -> Waker {
            self.task.clone().into()
        }

        /// How often it was woken.
        pub fn wakes(&self) -> u64 {
            self.task.wakes.load(Ordering::SeqCst)
        }

        pub fn is_to_be_woken(&mut self) {
            self.expected += 1;
        }

        pub fn compares(&self) {
            assert_eq!(self.wakes(), self.expected, "wakes");
        }

        /// No waker of it is left.
        pub fn ends(self) {
            assert_eq!(Arc::strong_count(&self.task), 1, "wakers of a task");
        }
    }
}

mod ticks {
    //! The ticks, deadlines and keys that a model's test draws.

    use super::draw::Draw;
    use hontkhale::parts::owner::{EntryId, Key, LAST_TICK};

    /// What a round of calls is drawn by: its queue is fresh, and of these numbers.
    #[derive(Clone, Copy, Debug)]
    pub struct Round {
        pub capacity: usize,
        pub last_stamp: u32,
    }

    impl Round {
        pub fn draw(draw: &mut Draw) -> Round {
            Round {
                capacity: draw.one_of(&[1, 2, 3, 5, 16, 64, 70]),
                last_stamp: draw.one_of(&[1, 2, 7, 200, 5_000, 1_048_575, 1_048_575]),
            }
        }
    }

    /// The calls of a round.
    pub const ROUND: u64 = 5_000;

    // A length of time: mostly within the lowest levels, at times in each higher one.
    fn length(draw: &mut Draw) -> u64 {
        let bits = match draw.below(16) {
            0..=9 => 7,
            10..=13 => 13,
            14 => 24,
            _ => 37,
        };
        draw.of_bits(bits)
    }

    /// A deadline: mostly ahead of the tick, at times behind it, and now and then beyond the last tick.
    pub fn deadline(draw: &mut Draw, tick: u64) -> u64 {
        match draw.below(40) {
            0 => LAST_TICK + draw.below(3),
            1 => u64::MAX,
            2..=4 => tick.saturating_sub(length(draw)),
            _ => tick + length(draw),
        }
    }

    /// The tick of a poll: the time goes on a little, seldom a lot, and at times it is told late or too large.
    pub fn tick(draw: &mut Draw, noted: u64, next_wake: Option<u64>) -> u64 {
        match draw.below(60) {
            0 => LAST_TICK + 1 + draw.below(2),
            1..=4 => noted.saturating_sub(length(draw)),
            5..=19 => next_wake.unwrap_or(noted).min(LAST_TICK),
            20 => (noted + length(draw)).min(LAST_TICK),
            _ => (noted + draw.of_bits(8)).min(LAST_TICK),
        }
    }

    /// A key that was given out, mostly one of the last, or one like it that never was.
    pub fn key(draw: &mut Draw, keys: &[Key], shards: u32) -> Key {
        let back = draw.of_bits(7) as usize;
        let Some(key) = keys.iter().rev().nth(back.min(keys.len().saturating_sub(1))) else {
            return Key::new(EntryId::new(0, 0, 1), 1);
        };
        let (entry, stamp) = (key.entry(), key.stamp());
        match draw.below(40) {
            0 => Key::new(
                EntryId::new(draw.below(u64::from(shards) + 2) as u32, entry.index(), entry.born()),
                stamp,
            ),
            1 => Key::new(EntryId::new(entry.shard(), draw.below(80) as u32, entry.born()), stamp),
            2 => Key::new(
                EntryId::new(entry.shard(), entry.index(), stamp),
                draw.below(u64::from(stamp) + 3) as u32,
            ),
            3 => Key::new(EntryId::new(entry.shard(), u32::MAX, u32::MAX), u32::MAX),
            _ => *key,
        }
    }
}
