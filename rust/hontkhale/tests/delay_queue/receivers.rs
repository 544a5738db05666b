//! Threads that receive: each is woken in time, and what comes out comes out once.

use crate::kit::{ms, within_the_limit, Drops, FAR};
use hontkhale::{DelayQueue, InsertErrorKind, ManualClock, RecvTimeoutError, TryRecvError};
use std::sync::mpsc::channel;
use std::thread;
use std::time::{Duration, Instant};

#[test]
fn what_is_due_comes_out_in_time_and_in_order() {
    within_the_limit(|| {
        let (queue, start) = (DelayQueue::new(), Instant::now());
        for after in [60, 20, 40, 0] {
            queue.insert(after, ms(after)).expect("room");
        }
        for after in [0, 20, 40, 60] {
            let expired = queue.recv().expect("it is open");
            assert_eq!(expired.value, after);
            assert!(start.elapsed() >= ms(after));
            assert!(after == 0 || expired.deadline >= start + ms(after));
        }
    });
}

/// Each receiver takes one, and hands the lead on.
#[test]
fn each_of_many_receivers_gets_one() {
    within_the_limit(|| {
        let queue = DelayQueue::new();
        let receivers: Vec<_> = (0..16)
            .map(|_| queue.clone())
            .map(|queue| thread::spawn(move || queue.recv().expect("it is open").value))
            .collect();
        thread::sleep(ms(50));
        for number in 0..16_u64 {
            queue.insert(number, ms(number % 3 * 20)).expect("room");
        }
        let mut got: Vec<u64> = receivers.into_iter().map(|receiver| receiver.join().unwrap()).collect();
        got.sort_unstable();
        assert_eq!(got, (0..16).collect::<Vec<_>>());
    });
}

/// The one that leads comes to the end of its time while others wait for it.
#[test]
fn a_leader_whose_time_is_over_hands_the_lead_on() {
    within_the_limit(|| {
        let queue = DelayQueue::new();
        let leader = queue.clone();
        let leads = thread::spawn(move || leader.recv_timeout(ms(60)).is_err());
        thread::sleep(ms(20));
        let follower = queue.clone();
        let follows = thread::spawn(move || follower.recv().map(|expired| expired.value));
        assert!(leads.join().unwrap());
        queue.insert("late", ms(30)).expect("room");
        assert_eq!(follows.join().unwrap(), Some("late"));
    });
}

#[test]
fn a_receiver_waits_no_longer_than_its_time() {
    within_the_limit(|| {
        let queue = DelayQueue::new();
        queue.insert((), FAR).expect("room");
        let leader = queue.clone();
        let leads = thread::spawn(move || leader.recv().is_none());
        thread::sleep(ms(20));
        // It follows.
        let start = Instant::now();
        assert!(queue.recv_timeout(ms(50)).is_err());
        assert!(start.elapsed() >= ms(50));
        queue.close();
        assert!(leads.join().unwrap());
        assert!(queue.recv_timeout(Duration::MAX).is_err());
    });
}

#[test]
fn a_close_wakes_all_and_leaves_what_waits() {
    within_the_limit(|| {
        let queue = DelayQueue::new();
        queue.insert("far", FAR).expect("room");
        let receivers: Vec<_> = (0..4)
            .map(|_| queue.clone())
            .map(|queue| thread::spawn(move || queue.iter().count()))
            .collect();
        thread::sleep(ms(50));
        queue.insert("due", Duration::ZERO).expect("room");
        thread::sleep(ms(50));
        queue.close();
        let got: usize = receivers.into_iter().map(|receiver| receiver.join().unwrap()).sum();
        assert_eq!((got, queue.len()), (1, 1));
        let refused = queue.insert("another", FAR).unwrap_err();
        assert_eq!(
            (refused.kind(), refused.into_inner()),
            (InsertErrorKind::Closed, "another")
        );
        assert_eq!(queue.drain().map(|(_, _, value)| value).collect::<Vec<_>>(), ["far"]);
    });
}

#[test]
fn what_is_due_at_the_close_comes_out() {
    let queue = DelayQueue::new();
    queue.insert("due", Duration::ZERO).expect("room");
    queue.close();
    assert_eq!(queue.recv().map(|expired| expired.value), Some("due"));
    assert!(queue.recv().is_none() && queue.recv_many(&mut Vec::new(), 8) == 0);
}

#[test]
fn a_clock_that_is_advanced_wakes_leader_and_followers() {
    within_the_limit(|| {
        let clock = ManualClock::new();
        let queue = DelayQueue::builder().clock(&clock).build();
        queue.insert((), Duration::from_secs(3_600)).expect("room");
        let (sends, receives) = channel();
        let (begins, begun) = channel();
        let receivers: Vec<_> = (0..3)
            .map(|_| (queue.clone(), sends.clone(), begins.clone()))
            .map(|(queue, sends, begins)| {
                thread::spawn(move || {
                    let _ = begins.send(());
                    let _ = sends.send(queue.recv_timeout(Duration::from_secs(7_200)).is_ok());
                })
            })
            .collect();
        // A thread that begins late waits beyond what the clock comes to.
        (0..3).for_each(|_| begun.recv().unwrap());
        thread::sleep(ms(50));
        clock.advance(Duration::from_secs(3_600));
        assert!(receives.recv().unwrap());
        clock.advance(Duration::from_secs(3_600));
        assert!(!receives.recv().unwrap() && !receives.recv().unwrap());
        receivers.into_iter().for_each(|receiver| receiver.join().unwrap());
    });
}

#[test]
fn many_come_out_by_one_call_and_no_more_than_asked_for() {
    let clock = ManualClock::new();
    let queue = DelayQueue::builder().clock(&clock).build();
    for number in 0..1_000 {
        queue.insert(number, ms(number % 10)).expect("room");
    }
    clock.advance(ms(4));
    let mut row = Vec::new();
    assert_eq!(queue.recv_many(&mut row, 0), 0);
    assert_eq!(queue.recv_many(&mut row, 70), 70);
    assert_eq!(queue.recv_many(&mut row, 1_000), 430);
    assert!(queue.try_recv().is_err() && queue.len() == 500);
    let mut numbers: Vec<u64> = row.iter().map(|expired| expired.value).collect();
    numbers.sort_unstable();
    let due: Vec<u64> = (0..1_000).filter(|number| number % 10 <= 4).collect();
    assert_eq!(numbers, due);
}

/// One thread alone wakes, and it only where something is to be done.
#[test]
fn a_queue_that_rests_wakes_nobody() {
    within_the_limit(|| {
        let queue = DelayQueue::new();
        queue.insert((), FAR).expect("room");
        assert!(queue.recv_timeout(ms(50)).is_err());
        let key = queue.insert((), ms(300)).expect("room");
        let receiver = queue.clone();
        let waits = thread::spawn(move || receiver.recv().is_some());
        thread::sleep(ms(50));
        queue.extend(&key, ms(400)).expect("it waits");
        assert!(waits.join().unwrap());
    });
}

/// Nobody tells a thread that a program's clock has gone on.
#[test]
fn a_receiver_by_a_programs_clock_wakes_by_itself() {
    within_the_limit(|| {
        let queue = DelayQueue::builder().read_clock(Instant::now).build();
        queue.insert("due".to_string(), ms(20)).expect("room");
        assert_eq!(queue.recv().map(|out| out.value).as_deref(), Some("due"));
        assert!(queue.recv_timeout(ms(5)).is_err() && !queue.is_closed());
    });
}

#[test]
fn what_has_ended_is_not_late() {
    let clock = ManualClock::new();
    let queue = DelayQueue::builder().clock(&clock).build();
    let key = queue.insert("removed".to_string(), ms(5)).expect("room");
    assert!(queue.remove(&key).is_ok());
    clock.advance(ms(12));
    assert_eq!((queue.stats().late, queue.next_deadline()), (ms(0), None));
}

#[test]
fn the_lateness_is_told() {
    let clock = ManualClock::new();
    let queue = DelayQueue::builder().clock(&clock).build();
    let [_, second] = [5, 10].map(|after| queue.insert(after, ms(after)).expect("room"));
    clock.advance(ms(12));
    assert_eq!((queue.stats().late, queue.stats().latest), (ms(7), ms(7)));
    assert_eq!(queue.recv().map(|expired| expired.value), Some(5));
    assert_eq!(queue.stats().late, ms(2));
    queue.cancel(&second).expect("it waits");
    assert_eq!((queue.stats().waiting, queue.stats().cancelled), (0, 1));
    assert!(queue.try_recv().is_err());
    let stats = queue.stats();
    assert_eq!(
        (stats.waiting, stats.cancelled, stats.late, stats.latest),
        (0, 0, ms(0), ms(7))
    );
    assert!(stats.to_string().starts_with("0 waiting, 0 cancelled, "), "{stats}");
}

#[test]
fn a_receiver_is_told_whether_nothing_is_due_yet_or_nothing_comes_any_more() {
    let queue = DelayQueue::new();
    let mut row = Vec::new();
    queue.insert("far", FAR).expect("room");
    let mut answers = |queue: &DelayQueue<&'static str>| {
        (
            queue.try_recv().map(|out| out.value),
            queue.try_recv_many(&mut row, 8),
            queue.recv_timeout(ms(1)).map(|out| out.value),
            queue.recv_deadline(Instant::now() + ms(1)).map(|out| out.value),
        )
    };
    let (empty, timeout) = (TryRecvError::Empty, RecvTimeoutError::Timeout);
    assert_eq!(answers(&queue), (Err(empty), Err(empty), Err(timeout), Err(timeout)));
    for _ in 0..5 {
        queue.insert("due", Duration::ZERO).expect("room");
    }
    queue.close();
    assert_eq!(
        answers(&queue),
        (
            Ok("due"),
            Ok(4),
            Err(RecvTimeoutError::Closed),
            Err(RecvTimeoutError::Closed)
        )
    );
    let closed = TryRecvError::Closed;
    assert_eq!(
        (queue.try_recv().unwrap_err(), queue.try_recv_many(&mut Vec::new(), 8)),
        (closed, Err(closed))
    );
    assert_eq!(queue.try_recv_many(&mut Vec::new(), 0), Ok(0));
}

/// The clock goes on after the look at the time, and before the thread sleeps: a value that was cancelled is dropped there.
#[test]
fn a_thread_whose_time_is_over_as_it_falls_asleep_sleeps_no_more() {
    within_the_limit(|| {
        let (clock, drops) = (ManualClock::new(), Drops::default());
        let queue = DelayQueue::builder().clock(&clock).build();
        let advances = clock.clone();
        let cancelled = drops.value(0).then(move || advances.advance(ms(5)));
        let key = queue.insert(cancelled, FAR).expect("room");
        queue.cancel(&key).expect("it waits");
        let received = queue.recv_timeout(ms(5)).map(|out| out.value);
        assert_eq!((received, drops.count(0)), (Err(RecvTimeoutError::Timeout), 1));
    });
}
