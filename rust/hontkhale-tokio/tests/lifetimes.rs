//! A slot of hontkhale's is worn after 1,048,575 stamps: here a queue goes on.

mod common;

use common::{ends, running};
use hontkhale_tokio::DelayQueue;
use std::time::Duration;

const MANY: u32 = 2_500_000;

#[test]
fn many_inserts_into_one_slot() {
    ends(|| {
        running().block_on(async {
            let mut queue = DelayQueue::with_capacity(1);
            for value in 0..MANY {
                let key = queue.insert(value, Duration::from_secs(1_000));
                assert_eq!(queue.remove(&key).into_inner(), value);
            }
            assert!(queue.capacity() < 200);
        });
    });
}

#[test]
fn many_resets_of_one_key() {
    ends(|| {
        running().block_on(async {
            for with_handle in [false, true] {
                let mut queue = DelayQueue::with_capacity(1);
                let handle = if with_handle { Some(queue.handle()) } else { None };
                let key = queue.insert("a lease", Duration::from_secs(1_000));
                for at in 0..MANY {
                    queue.reset(&key, Duration::from_secs(1_000));
                    if at % 1_000_000 == 0 {
                        assert!(handle.iter().all(|handle| handle.extend(&key, Duration::from_secs(2_000)).is_ok()));
                    }
                }
                assert!(queue.capacity() < 200);
                assert_eq!(queue.remove(&key).into_inner(), "a lease");
            }
        });
    });
}

#[test]
fn many_handles() {
    ends(|| {
        running().block_on(async {
            let mut queue = DelayQueue::new();
            let key = queue.insert("a connection", Duration::from_secs(1_000));
            let handles: Vec<_> = (0..10_000).map(|_| queue.handle()).collect();
            assert!(handles.iter().all(|handle| handle.extend(&key, Duration::from_secs(2_000)).is_ok()));
            for _ in 0..3_000 {
                let handle = handles[0].clone();
                std::thread::spawn(move || assert!(handle.extend(&key, Duration::from_secs(2_000)).is_ok()))
                    .join()
                    .unwrap();
            }
        });
    });
}
