//! Handles for any number of connections and queues, and what they cost.

mod common;

use common::{ends, ms, paused};
use hontkhale_tokio::DelayQueue;
use std::alloc::{GlobalAlloc, Layout, System};
use std::cell::Cell;

/// Counts what a thread has taken and not given back.
struct Counting;

thread_local! {
    static HELD: Cell<isize> = const { Cell::new(0) };
}

fn count(bytes: isize) {
    let _ = HELD.try_with(|held| held.set(held.get() + bytes));
}

// SAFETY: the system's allocator does all.
unsafe impl GlobalAlloc for Counting {
    unsafe fn alloc(&self, layout: Layout) -> *mut u8 {
        count(layout.size() as isize);
        unsafe { System.alloc(layout) }
    }

    unsafe fn dealloc(&self, at: *mut u8, layout: Layout) {
        count(-(layout.size() as isize));
        unsafe { System.dealloc(at, layout) }
    }
}

#[global_allocator]
static ALLOCATOR: Counting = Counting;

fn held() -> isize {
    HELD.with(Cell::get)
}

/// A thread's first call in a queue looks at that queue alone. Where it looked at all in which the thread had called before, this
/// didn't end in a hundred seconds, and the limit of `ends` would see it.
#[test]
fn a_thread_extends_in_sixteen_thousand_queues() {
    ends(|| {
        paused().block_on(async {
            let mut queues: Vec<_> = (0..16_000)
                .map(|value| {
                    let mut queue = DelayQueue::with_capacity(1);
                    let (handle, key) = (queue.handle(), queue.insert(value, ms(1_000)));
                    (queue, handle, key)
                })
                .collect();
            for round in 0..2 {
                for (queue, handle, key) in &mut queues {
                    let deadline = handle.extend(key, ms(2_000 + round)).unwrap();
                    assert_eq!(queue.deadline(key), deadline);
                }
            }
        });
    });
}

#[test]
fn what_a_dropped_queue_held_goes_with_it() {
    ends(|| {
        paused().block_on(async {
            let used_queue = |value: u64| {
                let mut queue = DelayQueue::new();
                let (handle, key) = (queue.handle(), queue.insert(value, ms(1_000)));
                assert!(handle.extend(&key, ms(2_000)).is_ok());
                (queue, handle)
            };
            let mut kept = Vec::with_capacity(8_000);
            drop(used_queue(0));
            let before = held();
            let queues: Vec<_> = (0..8_000).map(used_queue).collect();
            drop(queues);
            let after = held() - before;
            assert!(after < 4_096, "{after} bytes stayed after 8,000 queues");
            for (queue, handle) in (0..8_000).map(used_queue) {
                drop(queue);
                kept.push(handle);
            }
            let after = (held() - before) / 8_000;
            // The words of its slots, and what finds them.
            assert!(after < 4_096, "a handle keeps {after} bytes of a queue that has gone");
        });
    });
}

#[test]
fn a_handle_costs_a_queue_at_most_two_kibibytes() {
    ends(|| {
        paused().block_on(async {
            let cost = |with_handle: bool| {
                let before = held();
                let mut queue = DelayQueue::new();
                let key = queue.insert(1, ms(1_000));
                if with_handle {
                    let handle = queue.handle();
                    assert!(handle.extend(&key, ms(2_000)).is_ok());
                    std::mem::forget(handle);
                }
                let cost = held() - before;
                std::mem::forget(queue);
                cost
            };
            let (_, bare, handled) = (cost(true), cost(false), cost(true));
            assert!(handled - bare <= 2_048, "{} bytes more than {bare}", handled - bare);
        });
    });
}
