//! Which calls take memory, and what they answer where it is refused: each allocation of each call is refused in
//! turn, and counted. Each other call takes none.

// The tests ask for a newer Rust than the crate, and an error is shown without the value that came back, which may be large.
#![allow(clippy::incompatible_msrv, clippy::ok_expect, clippy::result_large_err)]

#[path = "memory/calls.rs"]
mod calls;
#[path = "memory/makings.rs"]
mod makings;
#[allow(dead_code)]
#[path = "memory/refusing.rs"]
mod refusing;

mod queues {
    //! What a thread holds of a queue that was dropped.

    use crate::refusing::used;
    use hontkhale::parts::owner::{DelayCore, VecWords};
    use hontkhale::DelayQueue;
    use std::time::Duration;

    #[test]
    fn the_thread_that_drops_a_queue_holds_nothing_of_it() {
        const FAR: Duration = Duration::from_secs(100_000);
        let holds = |entries: u64| {
            let before = used();
            let queue = DelayQueue::new();
            for number in 0..entries {
                let key = queue.insert(number, FAR).expect("room");
                queue.extend(&key, FAR * 2).expect("it waits");
            }
            drop(queue);
            used() - before
        };
        assert_eq!(holds(50_000), 0);
        assert_eq!(holds(1), 0);
    }

    /// A slot takes 56 bytes with its word, its links and a `u64`, and some bits.
    #[test]
    fn a_queue_takes_memory_by_its_capacity() {
        let takes = |capacity: usize| {
            let before = used();
            let queue = DelayCore::<u64, VecWords>::with_capacity(capacity).expect("memory");
            assert_eq!(queue.capacity(), capacity);
            used() - before
        };
        let (one, many) = (takes(1), takes(60_001));
        assert!(one < 12_000, "{one}");
        assert!(many - one < 57 * 60_000, "{many}");
    }
}
