//! What the crate is beside its queues: which types are sent and shared, what is checked where a program calls what
//! only queues should, refusals that carry a value, and ticks by a clock.

// The tests ask for a newer Rust than the crate, and an error is shown without the value that came back.
#![allow(clippy::incompatible_msrv, clippy::ok_expect)]

#[path = "api/checked.rs"]
mod checked;
#[path = "api/refused.rs"]
mod refused;
#[path = "api/traits.rs"]
mod traits;

mod clock {
    //! Ticks by std's clock: whole milliseconds since an instant, which never go back.

    use hontkhale::parts::shards::{QueueConfig, SharedDelayQueue};
    use hontkhale::parts::streams::{ExpiredStream, MillisecondTicks, TickSource};
    use std::task::{Context, Poll, Waker};
    use std::time::{Duration, Instant};

    // An instant that lies so far back.
    fn ago(length: Duration) -> Instant {
        Instant::now()
            .checked_sub(length)
            .expect("a machine that has run for a while")
    }

    // promise: stream.tick-clock
    #[test]
    fn whole_milliseconds_that_never_go_back() {
        let mut ticks = MillisecondTicks::since(ago(Duration::from_micros(7_999)));
        let mut last = ticks.now();
        assert!(last >= 7);
        for _ in 0..1_000 {
            let now = ticks.now();
            assert!(now >= last);
            last = now;
        }
    }

    // Each tick that is told lies between those of the moments before and after, over some milliseconds.
    fn tells_its_milliseconds(ticks: &mut MillisecondTicks, start: Instant, latest: Instant) {
        let milliseconds = |since: Instant| since.elapsed().as_millis() as u64;
        let begun = Instant::now();
        while begun.elapsed() < Duration::from_millis(5) {
            let least = milliseconds(latest);
            let told = ticks.now();
            assert!((least..=milliseconds(start)).contains(&told));
        }
    }

    // promise: stream.tick-clock
    #[test]
    fn milliseconds_since_the_start() {
        let start = ago(Duration::from_micros(1_750_900));
        tells_its_milliseconds(&mut MillisecondTicks::since(start), start, start);
        let start = Instant::now();
        let mut ticks = MillisecondTicks::new();
        tells_its_milliseconds(&mut ticks, start, Instant::now());
    }

    // Who asks later is told no earlier tick.
    // promise: stream.tick-clock
    #[test]
    fn one_start_one_time() {
        let start = ago(Duration::from_millis(3));
        let (mut first, mut second) = (MillisecondTicks::since(start), MillisecondTicks::since(start));
        let told = first.now();
        assert!(told >= 3 && second.now() >= told);
    }

    // A start that is still to come is tick 0 until then.
    #[test]
    fn a_start_in_the_future() {
        let mut ticks = MillisecondTicks::since(Instant::now() + Duration::from_secs(3_600));
        assert_eq!(ticks.now(), 0);
    }

    // promise: stream.tick-clock
    #[test]
    fn stream_by_a_clock() {
        let queue = SharedDelayQueue::new(QueueConfig::of(1, 8)).expect("a queue");
        queue.insert_or_drop(0, 'v', 2).expect("room");
        let ticks = MillisecondTicks::since(ago(Duration::from_millis(3)));
        let mut stream = ExpiredStream::new(&queue, 0, ticks).ok().expect("a stream");
        match stream.poll_next(&mut Context::from_waker(Waker::noop())) {
            Poll::Ready(Some(Ok(expired))) => assert_eq!((expired.value, expired.deadline), ('v', 2)),
            _ => panic!("nothing came out"),
        }
    }
}
