//! Streams of the one queue under tokio: woken in time, each entry once, and nothing lost with one that is dropped.

mod common;

use common::{ends, ms, paused, running, threaded, Dice};
use hontkhale::DelayQueue;
use hontkhale_tokio::shared_queue::QueueStream;
use hontkhale_tokio::SharedQueue;
use std::sync::atomic::{AtomicU64, Ordering::SeqCst};
use std::sync::{Arc, OnceLock};
use std::thread;
use std::time::Duration;
use tokio::time::{sleep, timeout, Instant};

#[test]
fn the_types_go_between_threads() {
    fn sent<T: Send + Sync + Unpin>() {}
    sent::<QueueStream<String>>();
}

#[test]
fn entries_come_out_at_their_deadlines() {
    ends(|| {
        paused().block_on(async {
            let (queue, mut dice, start) = (SharedQueue::new(), Dice(7), Instant::now());
            let mut stream = queue.stream();
            let mut whens: Vec<u64> = (0..2_000).map(|_| dice.below(100_000)).collect();
            for &when in &whens {
                queue.insert(when, ms(when)).unwrap();
            }
            whens.sort_unstable();
            for when in whens {
                assert_eq!(stream.next().await.map(|out| out.value), Some(when));
                assert_eq!(start.elapsed(), ms(when));
            }
            queue.close();
            assert!(stream.next().await.is_none());
        });
    });
}

#[test]
fn a_sooner_insert_or_reset_from_another_task_wakes() {
    ends(|| {
        paused().block_on(async {
            let (queue, start) = (SharedQueue::new(), Instant::now());
            let mut stream = queue.stream();
            let other = queue.clone();
            tokio::spawn(async move {
                let late = other.insert("late", ms(60_000)).unwrap();
                sleep(ms(10)).await;
                other.insert("insert", ms(10)).unwrap();
                sleep(ms(20)).await;
                other.reset(&late, ms(5)).unwrap();
                sleep(ms(20)).await;
                other.close();
            });
            for (value, at) in [("insert", 20), ("late", 35)] {
                assert_eq!(stream.next().await.map(|out| out.value), Some(value));
                assert_eq!(start.elapsed(), ms(at));
            }
            assert!(stream.next().await.is_none());
            assert_eq!(start.elapsed(), ms(50));
        });
    });
}

#[test]
fn a_stream_gives_what_is_put_into_the_queue_that_it_names() {
    ends(|| {
        paused().block_on(async {
            let queue = SharedQueue::new();
            let mut stream = queue.stream();
            stream.queue().insert("a".to_string(), ms(10)).unwrap();
            let out = timeout(ms(20), stream.next()).await.expect("it is in");
            assert_eq!(out.map(|out| out.value).as_deref(), Some("a"));
        });
    });
}

#[test]
fn a_stream_that_is_dropped_amid_its_wait_leaves_everything() {
    ends(|| {
        paused().block_on(async {
            let queue = SharedQueue::new();
            for value in 0..100 {
                queue.insert(value, ms(10 + value)).unwrap();
            }
            let mut left: Vec<u64> = (0..100).collect();
            let mut dice = Dice(3);
            while !left.is_empty() {
                let mut stream = queue.stream();
                if let Ok(out) = timeout(ms(dice.below(4)), stream.next()).await {
                    assert_eq!(out.map(|out| out.value), Some(left.remove(0)));
                }
            }
        });
    });
}

#[test]
fn a_stream_whose_clock_stands_still_leaves_their_turn_to_others() {
    ends(|| {
        running().block_on(async {
            static START: OnceLock<std::time::Instant> = OnceLock::new();
            static PASSED: AtomicU64 = AtomicU64::new(0);
            let clock = || *START.get_or_init(std::time::Instant::now) + ms(PASSED.load(SeqCst));
            let queue = SharedQueue::from(DelayQueue::builder().read_clock(clock).build());
            queue.insert("late", ms(5)).unwrap();
            let mut stream = queue.stream();
            let late = tokio::spawn(async move { stream.next().await.map(|out| out.value) });
            sleep(ms(20)).await;
            PASSED.store(5, SeqCst);
            let late = timeout(Duration::from_secs(60), late).await.expect("it is polled on and on");
            assert_eq!(late.unwrap(), Some("late"));
        });
    });
}

#[test]
fn an_insert_from_another_thread_wakes() {
    ends(|| {
        threaded(2).block_on(async {
            let queue = SharedQueue::new();
            let mut stream = queue.stream();
            for round in 0..2_000u64 {
                let other = queue.clone();
                let thread = thread::spawn(move || {
                    other.insert(round, Duration::from_micros(round % 1_500)).unwrap();
                });
                let out = timeout(Duration::from_secs(60), stream.next()).await.expect("it is woken").unwrap();
                assert!(out.value == round && out.deadline <= Instant::now());
                thread.join().unwrap();
            }
        });
    });
}

/// Streams come and go in tasks of four workers, while four threads put in: each value comes out once, and not before its time.
#[test]
fn four_threads_beside_streams_that_come_and_go() {
    const EACH: u64 = 20_000;
    ends(|| {
        let queue = SharedQueue::new();
        let (count, sum) = (Arc::new(AtomicU64::new(0)), Arc::new(AtomicU64::new(0)));
        threaded(4).block_on(async {
            let tasks: Vec<_> = (0..4)
                .map(|_| {
                    let (queue, count, sum) = (queue.clone(), count.clone(), sum.clone());
                    tokio::spawn(async move {
                        loop {
                            let mut stream = queue.stream();
                            for _ in 0..1_000 {
                                match timeout(ms(3), stream.next()).await {
                                    Ok(Some(out)) => {
                                        assert!(out.deadline <= Instant::now());
                                        count.fetch_add(1, SeqCst);
                                        sum.fetch_add(out.value, SeqCst);
                                    }
                                    Ok(None) => return,
                                    Err(_) => {}
                                }
                            }
                        }
                    })
                })
                .collect();
            let threads: Vec<_> = (0..4)
                .map(|thread| {
                    let queue = queue.clone();
                    thread::spawn(move || {
                        let mut dice = Dice(11 + thread);
                        for value in 0..EACH {
                            let key = queue.insert(value, ms(dice.below(5))).unwrap();
                            let _ = queue.extend(&key, ms(dice.below(5)));
                        }
                    })
                })
                .collect();
            while threads.iter().any(|thread| !thread.is_finished()) || !queue.is_empty() {
                sleep(ms(1)).await;
            }
            queue.close();
            for task in tasks {
                task.await.expect("what it is told");
            }
        });
        assert_eq!((count.load(SeqCst), sum.load(SeqCst)), (4 * EACH, 4 * EACH * (EACH - 1) / 2));
    });
}
