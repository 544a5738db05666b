//! The stream of a shard's expired entries, beside its worked rows: who is woken and how often, what it leaves as it
//! was, and streams under an executor and between threads.

use crate::tests::kit::same;
use crate::tests::stream_checks::{steps, streams};

mod beside {
    //! What a stream leaves as it was.

    use super::same;
    use super::steps::each_answers;
    use super::steps::Step::{Parked, Ring, Woken};
    use super::streams::{fill, letters_and_task, put, Letters, Seen, Task, TickOf};
    use super::tasks::letters_and_tasks;
    use crate::shards::{Handle, QueueError};
    use crate::stream::ExpiredStream;
    use crate::tests::kit::Fail;

    // A shard's linked entries, noted tick, next wake and parked tick.
    type Left = (usize, u64, Option<u64>, Option<u64>);

    fn left(queue: &Letters, shard: usize) -> Result<Left, QueueError> {
        queue.lend(shard, |state| {
            (state.len(), state.noted(), state.next_wake(), state.parked())
        })
    }

    fn others_left(queue: &Letters) -> Result<(Left, Left), QueueError> {
        Ok((left(queue, 0)?, left(queue, 2)?))
    }

    // A stream of shard 1 gives the two letters there, up to its end.
    fn leaves_the_others(
        queue: &Letters,
        task: &Task,
        stream: &mut ExpiredStream<'_, char, TickOf<'_>>,
        before: (Left, Left),
    ) {
        let polls: &[(u64, Seen)] = &[
            (10, Seen::Out('b', 10, 10)),
            (10, Seen::Waits),
            (40, Seen::Out('b', 30, 40)),
            (40, Seen::Ends),
        ];
        for (number, (tick, seen)) in polls.iter().enumerate() {
            let after = (task.poll(stream, *tick), others_left(queue));
            same(number, after, (*seen, Ok(before)));
        }
    }

    // The queue has two letters in each shard.
    fn are_left_by_a_stream(queue: &Letters, own: &Task, others: (&Task, &Task)) -> Result<(), Fail> {
        others.0.waits(queue, 0)?;
        others.1.waits(queue, 2)?;
        let before = others_left(queue)?;
        same("before", before.0, (2, 0, Some(10), Some(10)));
        let mut stream = own.stream(queue, 1)?;
        leaves_the_others(queue, own, &mut stream, before);
        let woken = (others.0.was_woken(), others.1.was_woken());
        same("woken", woken, (false, false));
        Ok(())
    }

    fn fill_three_shards(queue: &Letters) -> Result<(), QueueError> {
        fill(queue, 0, &[('a', 10), ('a', 30)])?;
        fill(queue, 1, &[('b', 10), ('b', 30)])?;
        fill(queue, 2, &[('c', 10), ('c', 30)])
    }

    // Fails where a poll of a stream does something in another shard: gives, loses or reaps an entry, notes a tick, or
    // wakes a poller there.
    // promise: stream.order-end
    #[test]
    fn a_stream_leaves_the_other_shards() -> Result<(), Fail> {
        let own = Task::new()?;
        let (queue, first, last) = letters_and_tasks(3)?;
        fill_three_shards(&queue)?;
        are_left_by_a_stream(&queue, &own, (&first, &last))
    }

    fn stays_parked(queue: &Letters, task: &Task) -> Result<(), Fail> {
        let mut stream = task.stream(queue, 0)?;
        task.sees(&mut stream, 0, Seen::Waits);
        let _other = task.stream(queue, 0)?;
        let steps = &[Parked(Some(10)), Woken(false), Ring(10, true)];
        each_answers(queue, task, &mut stream, steps);
        Ok(())
    }

    // Fails where the making of a stream takes the parked poller out, woken or not.
    // promise: stream.order-end
    #[test]
    fn a_new_stream_leaves_the_parked_poller() -> Result<(), Fail> {
        let (queue, task) = letters_and_task(&[('v', 10)])?;
        stays_parked(&queue, &task)
    }

    fn cancels_the_last(queue: &Letters, handle: &mut Handle) -> Result<(), Fail> {
        put(queue, 0, 'v', 10)?;
        let later = put(queue, 0, 'w', 1000)?;
        same("cancel", handle.cancel(&later), Ok(1000));
        Ok(())
    }

    fn reaps_what_is_due(
        queue: &Letters,
        task: &Task,
        stream: &mut ExpiredStream<'_, char, TickOf<'_>>,
    ) -> Result<(), Fail> {
        let polls: &[(u64, Seen, usize)] = &[
            (0, Seen::Waits, 2),
            (10, Seen::Out('v', 10, 10), 1),
            (10, Seen::Waits, 1),
            (1000, Seen::Ends, 0),
        ];
        for (number, (tick, seen, linked)) in polls.iter().enumerate() {
            let after = (task.poll(stream, *tick), left(queue, 0)?.0);
            same(number, after, (*seen, *linked));
        }
        Ok(())
    }

    fn sweeps_nothing(queue: &Letters, task: &Task, handle: &mut Handle) -> Result<(), Fail> {
        cancels_the_last(queue, handle)?;
        let mut stream = task.stream(queue, 0)?;
        reaps_what_is_due(queue, task, &mut stream)
    }

    // Fails where a poll of a stream sweeps its shard, before or behind its own poll: it reaps what comes due alone.
    // promise: stream.order-end
    #[test]
    fn a_poll_sweeps_nothing() -> Result<(), Fail> {
        let (queue, task) = letters_and_task(&[])?;
        let mut handle = queue.handle()?;
        sweeps_nothing(&queue, &task, &mut handle)
    }
}

mod executors {
    //! Streams under the executors of `futures`.

    use super::same;
    use crate::shards::{QueueConfig, QueueError, SharedDelayQueue};
    use crate::stream::ExpiredStream;
    use crate::tests::kit::{run_all, yield_now, Either, Fail, Future};
    use std::sync::atomic::AtomicU64;
    use std::sync::atomic::Ordering::SeqCst;
    use std::task::{Context, Poll};

    // What the tasks of an executor share.
    struct World {
        /// The tick of this moment.
        tick: AtomicU64,
        /// The sum of what came out.
        sum: AtomicU64,
        /// How often a stream was polled.
        polls: AtomicU64,
    }

    // Tells the tick of a world.
    struct TickIn<'w>(&'w World);

    impl crate::stream::TickSource for TickIn<'_> {
        fn now(&mut self) -> u64 {
            self.0.tick.load(SeqCst)
        }
    }

    // Adds up what comes out of a stream, up to its end.
    struct Reader<'w> {
        world: &'w World,
        stream: ExpiredStream<'w, u64, TickIn<'w>>,
    }

    impl Future for Reader<'_> {
        type Output = ();

        fn poll(&mut self, cx: &mut Context<'_>) -> Poll<()> {
            self.world.polls.fetch_add(1, SeqCst);
            match self.stream.poll_next(cx) {
                Poll::Pending => Poll::Pending,
                Poll::Ready(Some(Ok(expired))) => {
                    self.world.sum.fetch_add(expired.value, SeqCst);
                    yield_now(cx)
                }
                Poll::Ready(_) => Poll::Ready(()),
            }
        }
    }

    // Goes on by a tick at each poll, and rings both shards, up to a tick.
    struct Time<'w> {
        world: &'w World,
        queue: &'w SharedDelayQueue<u64>,
        last: u64,
    }

    impl Future for Time<'_> {
        type Output = ();

        fn poll(&mut self, cx: &mut Context<'_>) -> Poll<()> {
            let tick = self.world.tick.fetch_add(1, SeqCst).saturating_add(1);
            let _ = self.queue.ring(0, tick);
            let _ = self.queue.ring(1, tick);
            if tick < self.last {
                yield_now(cx)
            } else {
                Poll::Ready(())
            }
        }
    }

    // The shard, the value and the deadline of each entry. A value is a digit of the sum, which so says how often it
    // came.
    const DIGITS: &[(u64, u64, u64)] = &[
        (0, 1, 3),
        (1, 10, 1),
        (0, 100, 70),
        (1, 1000, 70),
        (0, 10000, 128),
        (1, 100000, 130),
    ];

    fn put_digits(queue: &SharedDelayQueue<u64>) -> Result<(), QueueError> {
        for (shard, value, when) in DIGITS {
            queue.insert_or_drop(*shard, *value, *when)?;
        }
        Ok(())
    }

    // A reader of a shard, or the time.
    type Work<'w> = Either<Reader<'w>, Time<'w>>;

    fn reader_of<'w>(queue: &'w SharedDelayQueue<u64>, world: &'w World, shard: usize) -> Result<Work<'w>, QueueError> {
        match ExpiredStream::new(queue, shard, TickIn(world)) {
            Ok(stream) => Ok(Either::Left(Reader { world, stream })),
            Err((error, _)) => Err(error),
        }
    }

    // Adds a reader of each shard, and the time.
    fn add_work<'w>(queue: &'w SharedDelayQueue<u64>, world: &'w World, work: &mut Vec<Work<'w>>) -> Result<(), Fail> {
        work.push(reader_of(queue, world, 0)?);
        work.push(reader_of(queue, world, 1)?);
        let time = Time {
            world,
            queue,
            last: 200,
        };
        work.push(Either::Right(time));
        Ok(())
    }

    // Runs a reader of each shard beside the time.
    fn run_in_turn(queue: &SharedDelayQueue<u64>, world: &World) -> Result<(), Fail> {
        let mut work = Vec::new();
        add_work(queue, world, &mut work)?;
        run_all(work)?;
        Ok(())
    }

    fn gives_each_digit(queue: &SharedDelayQueue<u64>) -> Result<(), Fail> {
        put_digits(queue)?;
        let world = World {
            tick: AtomicU64::new(0),
            sum: AtomicU64::new(0),
            polls: AtomicU64::new(0),
        };
        run_in_turn(queue, &world)?;
        same("the sum", world.sum.load(SeqCst), 111111);
        // A stream that waits isn't polled at each tick.
        let polls = world.polls.load(SeqCst);
        same(polls, polls < 30, true);
        Ok(())
    }

    // promise: stream.poll-next-lock
    #[test]
    fn two_streams_in_turn() -> Result<(), Fail> {
        let queue = SharedDelayQueue::new(QueueConfig::of(2, 8))?;
        gives_each_digit(&queue)
    }
}

mod giving_way {
    //! A poll through and a paced stream give way between two pieces to who waits for the lock of their own shard, and to
    //! nobody else.

    use crate::shards::{QueueConfig, SharedDelayQueue};
    use crate::stream::{ExpiredStream, TickSource};
    use crate::tests::kit::Fail;
    use std::hint::spin_loop;
    use std::num::NonZeroU32;
    use std::sync::atomic::{AtomicBool, AtomicU64, Ordering::SeqCst};
    use std::sync::{Arc, Weak};
    use std::task::{Context, Wake, Waker};
    use std::thread;
    use std::time::{Duration, Instant};

    // The entries of shard 1. All were cancelled, so each piece of one step frees one.
    const ENTRIES: u64 = 60;

    const STEP: NonZeroU32 = NonZeroU32::MIN;

    // Its drop makes a call of the test's own.
    struct Value(Box<dyn Fn() + Send + Sync>);

    impl Drop for Value {
        fn drop(&mut self) {
            (self.0)();
        }
    }

    struct TickZero;

    impl TickSource for TickZero {
        fn now(&mut self) -> u64 {
            0
        }
    }

    struct Nobody;

    impl Wake for Nobody {
        fn wake(self: Arc<Self>) {}
    }

    // A queue of two shards.
    type Queue = SharedDelayQueue<Value>;

    fn queue() -> Result<Queue, Fail> {
        Ok(Queue::new(QueueConfig::of(2, ENTRIES as usize))?)
    }

    // Puts entries into shard 1 that are due at once, and cancels them.
    fn put_cancelled(queue: &Queue, value: impl Fn() -> Value) -> Result<(), Fail> {
        let mut handle = queue.handle()?;
        for _ in 0..ENTRIES {
            handle.cancel(&queue.insert_or_drop(1, value(), 0)?)?;
        }
        Ok(())
    }

    fn while_held(queue: &Queue, shard: usize, then: &mut dyn FnMut()) {
        let held = queue.enter(shard).unwrap();
        then();
        drop(held);
    }

    fn polls_through(queue: &Queue) -> Result<(), Fail> {
        queue.poll_through(1, 0, STEP)?;
        Ok(())
    }

    fn streams(queue: &Queue) -> Result<(), Fail> {
        let waker = Waker::from(Arc::new(Nobody));
        let stream = ExpiredStream::new(queue, 1, TickZero).map_err(|refused| refused.0)?;
        let mut stream = stream.paced(STEP);
        for _ in 0..=ENTRIES {
            let _ = stream.poll_next(&mut Context::from_waker(&waker));
        }
        Ok(())
    }

    // What the drops of a queue's values share. Times are in nanoseconds.
    struct Watch {
        began: Instant,
        dropped: AtomicU64,
        // When the last drop ended, and the least time from there to the next.
        ended: AtomicU64,
        least: AtomicU64,
        // Whether the other thread is to take the lock of shard 1, and whether it is to end.
        takes: AtomicBool,
        over: AtomicBool,
    }

    impl Watch {
        fn now(&self) -> u64 {
            self.began.elapsed().as_nanos() as u64
        }

        // Notes the time that it took from the end of the last drop to this one.
        fn begins(&self) {
            self.least.fetch_min(self.now() - self.ended.load(SeqCst), SeqCst);
        }

        fn ends(&self) {
            self.ended.store(self.now(), SeqCst);
        }
    }

    // Ends the other thread, where a test fails too.
    struct Over<'w>(&'w Watch);

    impl Drop for Over<'_> {
        fn drop(&mut self) {
            self.0.over.store(true, SeqCst);
        }
    }

    // A drop between two pieces: the lock is free. Each other one has the other thread wait for the lock.
    fn dropped(watch: &Watch, queue: &Weak<Queue>, has_other: bool) {
        let number = watch.dropped.fetch_add(1, SeqCst);
        let calls = has_other && number % 2 == 0;
        if number > 0 && !calls {
            watch.begins();
        }
        match queue.upgrade() {
            Some(queue) if calls => while_held(&queue, 1, &mut || {
                watch.takes.store(true, SeqCst);
                waits_for_another(&queue, 1, 3);
                watch.ends();
            }),
            _ => watch.ends(),
        }
    }

    // Takes the lock of shard 1 where it is asked to, and keeps it for a while.
    fn takes(watch: &Watch, queue: &Queue, keeps: Duration) {
        while !watch.over.load(SeqCst) {
            if watch.takes.swap(false, SeqCst) {
                while_held(queue, 1, &mut || {
                    let start = Instant::now();
                    while start.elapsed() < keeps {
                        spin_loop();
                    }
                });
            }
            thread::yield_now();
        }
    }

    // Fills shard 1. With `has_other` each other drop has another thread wait for the lock.
    fn filled(queue: &Arc<Queue>, has_other: bool) -> Result<Arc<Watch>, Fail> {
        let watch = Arc::new(Watch {
            began: Instant::now(),
            dropped: AtomicU64::new(0),
            ended: AtomicU64::new(0),
            least: AtomicU64::new(u64::MAX),
            takes: AtomicBool::new(false),
            over: AtomicBool::new(false),
        });
        let weak = Arc::downgrade(queue);
        put_cancelled(queue, || {
            let (watch, queue) = (Arc::clone(&watch), Weak::clone(&weak));
            Value(Box::new(move || dropped(&watch, &queue, has_other)))
        })?;
        Ok(watch)
    }

    // The least time from a drop to the next, where `frees` frees all entries of shard 1, one a piece.
    fn piece(queue: &Queue, watch: &Watch, frees: fn(&Queue) -> Result<(), Fail>) -> Result<Duration, Fail> {
        frees(queue)?;
        if watch.dropped.load(SeqCst) != ENTRIES {
            return Err("not all are freed".into());
        }
        Ok(Duration::from_nanos(watch.least.load(SeqCst)))
    }

    // The least time of so many calls of `give_way`.
    fn looks(queue: &Queue, shard: usize, calls: usize) -> Duration {
        let least = (0..calls).map(|_| {
            let start = Instant::now();
            queue.give_way(shard);
            start.elapsed()
        });
        least.min().unwrap_or_default()
    }

    // Waits until another thread waits for a shard's lock, which this one holds: how long it is given way then, the least
    // of so many calls.
    fn waits_for_another(queue: &Queue, shard: usize, calls: usize) -> Duration {
        let start = Instant::now();
        let mut long = Duration::ZERO;
        while long < Duration::from_nanos(1_500) {
            assert!(start.elapsed() < Duration::from_secs(20), "who waits isn't counted");
            long = looks(queue, shard, calls);
        }
        long
    }

    // While a thread waits for the lock of shard 0: how long it is given way, and how long a piece of shard 1 takes then.
    fn beside(queue: &Arc<Queue>, frees: fn(&Queue) -> Result<(), Fail>) -> Result<(Duration, Duration), Fail> {
        let watch = filled(queue, false)?;
        let (mut long, mut takes) = (Duration::ZERO, Ok(Duration::ZERO));
        thread::scope(|scope| {
            while_held(queue, 0, &mut || {
                scope.spawn(|| while_held(queue, 0, &mut || {}));
                long = waits_for_another(queue, 0, 50);
                takes = piece(queue, &watch, frees);
            });
        });
        Ok((long, takes?))
    }

    // How long a piece of shard 1 takes while another thread waits for its lock, and keeps it so long once it has it.
    fn own(queue: &Arc<Queue>, frees: fn(&Queue) -> Result<(), Fail>, keeps: Duration) -> Result<Duration, Fail> {
        let watch = filled(queue, true)?;
        thread::scope(|scope| {
            scope.spawn(|| takes(&watch, queue, keeps));
            let _over = Over(&watch);
            piece(queue, &watch, frees)
        })
    }

    // Fails where `frees` gives way to who waits for the lock of another shard, or not to who waits for its own.
    fn gives_way_at_its_shard(frees: fn(&Queue) -> Result<(), Fail>) -> Result<(), Fail> {
        let queue = Arc::new(queue()?);
        let (long, beside) = beside(&queue, frees)?;
        let own = own(&queue, frees, 2 * long)?;
        assert!(beside < long / 2, "it gives way at another shard: {beside:?} of {long:?}");
        assert!(own > long / 2, "it gives no way at its shard: {own:?} of {long:?}");
        Ok(())
    }

    // promise: shards.poll-through-makes
    #[test]
    fn a_poll_through_gives_way_at_its_own_shard() -> Result<(), Fail> {
        gives_way_at_its_shard(polls_through)
    }

    // promise: stream.paced-polls
    #[test]
    fn a_paced_stream_gives_way_at_its_own_shard() -> Result<(), Fail> {
        gives_way_at_its_shard(streams)
    }
}

mod handles {
    //! Streams over entries that a handle extends and cancels meanwhile, without the shard's lock.

    use super::steps::Step::{Parked, Poll, Ring, Woken};
    use super::steps::{change_while_parked, Change};
    use super::streams::letters_and_task;
    use super::streams::Seen::{Ends, Out, Waits};
    use crate::tests::kit::Fail;

    // promise: stream.ended-expired
    #[test]
    fn extended_while_parked() -> Result<(), Fail> {
        let (queue, task) = letters_and_task(&[])?;
        let mut handle = queue.handle()?;
        change_while_parked(
            &queue,
            &task,
            Change::Extend(&mut handle, 30),
            // The shard learns of it at the tick at which the entry is filed.
            &[
                Parked(Some(10)),
                Woken(false),
                Ring(10, true),
                Poll(10, Waits),
                Parked(Some(30)),
                Poll(30, Out('v', 30, 30)),
            ],
        )
    }

    // promise: stream.ended-expired
    #[test]
    fn cancelled_while_parked() -> Result<(), Fail> {
        let (queue, task) = letters_and_task(&[])?;
        let mut handle = queue.handle()?;
        change_while_parked(
            &queue,
            &task,
            Change::Cancel(&mut handle),
            &[
                Parked(Some(10)),
                Woken(false),
                Poll(10, Ends),
                Parked(None),
                Woken(false),
            ],
        )
    }
}

mod paced {
    //! Streams that make at most so many steps a poll.

    use super::same;
    use super::streams::{fill, letters, stream_of, Letters, TickOf, Told};
    use crate::core::Expired;
    use crate::shards::QueueError;
    use crate::stream::{PacedStream, StreamFault};
    use crate::tests::kit::{Fail, MockTask, StreamExt};
    use std::num::NonZeroU32;
    use std::task::Poll;

    // What a poll answered: nothing yet, a letter that came out, or neither.
    type Given = Poll<Option<char>>;

    fn seen(polled: Poll<Option<Result<Expired<char>, StreamFault>>>) -> Given {
        match polled {
            Poll::Pending => Poll::Pending,
            Poll::Ready(Some(Ok(expired))) => Poll::Ready(Some(expired.value)),
            Poll::Ready(_) => Poll::Ready(None),
        }
    }

    // Gives out the letters of a paced stream until it gives none, and answers how often it was at work and woken before
    // one.
    fn given(task: &MockTask, stream: &mut PacedStream<'_, char, TickOf<'_>>, out: &mut Vec<char>) -> Result<usize, Fail> {
        let mut works = 0usize;
        for _poll in 0..1000u64 {
            match seen(task.poll(&mut stream.next())) {
                Poll::Pending if task.is_woken() => works = works.saturating_add(1),
                Poll::Ready(Some(letter)) => out.push(letter),
                _ => return Ok(works),
            }
        }
        Err(Fail::from("at work for ever"))
    }

    // A stream of shard 0 that makes so many steps a poll.
    fn paced<'q>(
        queue: &'q Letters,
        told: &'q Told,
        steps: NonZeroU32,
    ) -> Result<PacedStream<'q, char, TickOf<'q>>, QueueError> {
        Ok(stream_of(queue, 0, TickOf(told))?.paced(steps))
    }

    // What a stream of a queue that was told this tick gives by so many steps a poll.
    fn given_at(
        queue: &Letters,
        task: &MockTask,
        tick: u64,
        steps: NonZeroU32,
        out: &mut Vec<char>,
    ) -> Result<usize, Fail> {
        let told = Told::at(tick);
        let mut stream = paced(queue, &told, steps)?;
        given(task, &mut stream, out)
    }

    // Eight letters in a slot of a higher level, all due at one tick.
    const FULL_SLOT: &[(char, u64)] = &[
        ('a', 5000),
        ('b', 5000),
        ('c', 5000),
        ('d', 5000),
        ('e', 5000),
        ('f', 5000),
        ('g', 5000),
        ('h', 5000),
    ];

    // A queue of one shard with these letters in it, and a task.
    fn queue_and_task(entries: &[(char, u64)]) -> Result<(Letters, MockTask), Fail> {
        let task = MockTask::new();
        let queue = letters(1)?;
        fill(&queue, 0, entries)?;
        Ok((queue, task))
    }

    const FOUR: &[(char, u64)] = &[('c', 5000), ('a', 3), ('b', 70), ('d', 300000)];

    fn gives_in_order(steps: u32) -> Result<(), Fail> {
        let Some(paces) = NonZeroU32::new(steps) else {
            return Err(Fail::from("no steps"));
        };
        let mut out = Vec::with_capacity(8);
        let (queue, task) = queue_and_task(FOUR)?;
        given_at(&queue, &task, 400000, paces, &mut out)?;
        same(steps, &out[..], &['a', 'b', 'c', 'd'][..]);
        Ok(())
    }

    // Fails where a paced stream gives another letter than its stream, or none for ever, by whatever steps.
    // promise: stream.paced-polls
    #[test]
    fn paced_gives_what_the_stream_gives() -> Result<(), Fail> {
        gives_in_order(1)?;
        gives_in_order(2)?;
        gives_in_order(17)
    }

    // Polls a new stream of a full slot once, by one step a poll, and turns it back.
    fn is_at_work(queue: &Letters, task: &MockTask) -> Result<(), Fail> {
        let told = Told::at(5000);
        let mut stream = paced(queue, &told, NonZeroU32::MIN)?;
        let polled = seen(task.poll(&mut stream.next()));
        same("poll", polled, Poll::Pending);
        drop(stream.into_inner());
        Ok(())
    }

    fn waits_at_work(queue: &Letters, task: &MockTask) -> Result<(), Fail> {
        let told = Told::at(5000);
        let mut stream = paced(queue, &told, NonZeroU32::MIN)?;
        let polled = seen(task.poll(&mut stream.next()));
        same("poll", polled, Poll::Pending);
        let left = (queue.parked(0), task.is_woken());
        same("parked", left, (Ok(None), true));
        Ok(())
    }

    // Fails where a poll that stops at its work parks its task, or doesn't wake it.
    // promise: stream.paced-polls
    #[test]
    fn paced_waits_at_work_and_is_woken() -> Result<(), Fail> {
        let (queue, task) = queue_and_task(FULL_SLOT)?;
        waits_at_work(&queue, &task)
    }

    // How often a stream of a full slot is at work, by so many steps a poll. It gives all letters.
    fn works_of(queue: &Letters, task: &MockTask, steps: NonZeroU32) -> Result<usize, Fail> {
        let mut out = Vec::with_capacity(8);
        let works = given_at(queue, task, 5000, steps, &mut out)?;
        same("how many", out.len(), 8);
        Ok(works)
    }

    fn works_of_a_new_queue(steps: NonZeroU32) -> Result<usize, Fail> {
        let (queue, task) = queue_and_task(FULL_SLOT)?;
        works_of(&queue, &task, steps)
    }

    // Fails where a poll makes more steps than its own: a full slot then needs no more polls by one step than by many.
    // promise: stream.paced-polls
    #[test]
    fn paced_makes_at_most_its_steps() -> Result<(), Fail> {
        let few = works_of_a_new_queue(NonZeroU32::MIN)?;
        let many = works_of_a_new_queue(NonZeroU32::MAX)?;
        same(few, (few >= 8, many), (true, 0));
        Ok(())
    }

    fn loses_nothing(queue: &Letters, task: &MockTask) -> Result<(), Fail> {
        for _turn in 0..3u64 {
            is_at_work(queue, task)?;
        }
        works_of(queue, task, NonZeroU32::MIN)?;
        Ok(())
    }

    // Fails where a stream that is dropped, or turned back, in the midst of its work takes a letter with it.
    // promise: stream.paced-polls
    #[test]
    fn paced_dropped_loses_nothing() -> Result<(), Fail> {
        let (queue, task) = queue_and_task(FULL_SLOT)?;
        loses_nothing(&queue, &task)
    }
}

mod parked {
    //! What becomes of a parked task with each call by name.

    use super::same;
    use super::streams::{letters_and_task, put, Letters, Task};
    use super::tasks::letters_and_tasks;
    use crate::core::CoreError;
    use crate::shards::QueueError;
    use crate::tests::kit::Fail;
    use crate::ticks::Key;

    // The tick at which a poller is parked in a shard, and how many entries are linked there.
    fn left(queue: &Letters, shard: usize) -> Result<(Option<u64>, usize), QueueError> {
        queue.lend(shard, |state| (state.parked(), state.len()))
    }

    // Puts two letters in, of which a handle that is given back cancels the second.
    fn puts_and_cancels(queue: &Letters) -> Result<(Key, Key), Fail> {
        let live = put(queue, 0, 'v', 10)?;
        let cancelled = put(queue, 0, 'c', 30)?;
        let mut handle = queue.handle()?;
        let answers = (handle.cancel(&cancelled), handle.give_back());
        same("cancel", answers, (Ok(30), 1));
        Ok((live, cancelled))
    }

    // Makes one of the six calls that only tell.
    fn tells(queue: &Letters, live: &Key, cancelled: &Key, told: u64) -> Result<(), Fail> {
        let was_cancelled = Err(QueueError::Core(CoreError::WasCancelled));
        match told {
            0 => same(told, queue.deadline(&live.entry()), Ok(10)),
            1 => same(told, queue.deadline(&cancelled.entry()), was_cancelled),
            2 => same(told, queue.next_wake(0), Ok(Some(10))),
            3 => same(told, queue.tally(0)?.cancelled, 0),
            4 => same(told, queue.parked(0), Ok(Some(10))),
            _ => same(told, queue.audit()?.cancelled, 1),
        }
        Ok(())
    }

    fn stays_parked(queue: &Letters, task: &Task) -> Result<(), Fail> {
        let (live, cancelled) = puts_and_cancels(queue)?;
        task.waits(queue, 0)?;
        for told in 0..6 {
            tells(queue, &live, &cancelled, told)?;
            let after = (left(queue, 0), task.was_woken());
            same(told, after, (Ok((Some(10), 2)), false));
        }
        task.is_rung(queue, 10, true);
        Ok(())
    }

    // Fails where a call that only tells takes the poller out or reaps: `deadline`, `next_wake`, `tally`, `parked` or
    // `audit`.
    // promise: shards.change-wakes
    #[test]
    fn what_only_tells_changes_nothing() -> Result<(), Fail> {
        let (queue, task) = letters_and_task(&[])?;
        stays_parked(&queue, &task)
    }

    // A call that may change when a shard wakes.
    #[derive(Clone, Copy)]
    enum Change {
        Insert(u64),
        Reset(u64),
        Remove,
        Poll(u64),
        PollSome(u64),
        Sweep,
        SweepSome,
        Reap,
        Clear,
    }

    fn cancel(queue: &Letters, key: &Key) -> Result<(), Fail> {
        queue.handle()?.cancel(key)?;
        Ok(())
    }

    // Makes a change in shard 0, of an entry there where it is of one. A sweep and a reap find it cancelled.
    fn make(queue: &Letters, key: &Key, change: Change) -> Result<(), Fail> {
        if matches!(change, Change::Sweep | Change::SweepSome | Change::Reap) {
            cancel(queue, key)?;
        }
        match change {
            Change::Insert(when) => drop(put(queue, 0, 'i', when)?),
            Change::Reset(when) => drop(queue.reset(&key.entry(), when)?),
            Change::Remove => drop(queue.remove(&key.entry())?),
            Change::Poll(tick) => drop(queue.poll(0, tick)?),
            Change::PollSome(tick) => drop(queue.poll_some(0, tick, 64)?),
            Change::Sweep => drop(queue.sweep(0)?),
            Change::SweepSome => drop(queue.sweep_some(0, 0, usize::MAX)?),
            Change::Reap => queue.reap(&key.entry())??,
            Change::Clear => drop(queue.clear(0)?),
        }
        Ok(())
    }

    // A change, whether its entry is alone in its shard, and whether it wakes the task there.
    type Case = (Change, bool, bool);

    // Parks a task in each shard, the one of shard 0 for an entry at tick 10, and makes a change of that entry.
    fn parks_and_makes(queue: &Letters, task: &Task, other: &Task, (change, is_alone, _): Case) -> Result<(), Fail> {
        put(queue, 1, 'o', 20)?;
        if !is_alone {
            put(queue, 0, 'w', 40)?;
        }
        let key = put(queue, 0, 'v', 10)?;
        task.waits(queue, 0)?;
        other.waits(queue, 1)?;
        make(queue, &key, change)
    }

    // Makes a change in a shard where a task is parked for an entry at tick 10, while another is linked at 40 or none is.
    // The task is woken, or stays parked until a ring; one that is parked in another shard stays.
    fn wakes_its_own(queue: &Letters, (task, other): (&Task, &Task), row: usize, case: Case) -> Result<(), Fail> {
        parks_and_makes(queue, task, other, case)?;
        let (_, _, wakes) = case;
        let woken = (task.was_woken(), other.was_woken(), task.was_woken());
        same(row, woken, (wakes, false, false));
        let parked = (queue.parked(0), queue.parked(1));
        let stays = if wakes { None } else { Some(10) };
        same(row, parked, (Ok(stays), Ok(Some(20))));
        task.is_rung(queue, 10, !wakes);
        let rung = (queue.ring(1, 20), other.was_woken());
        same(row, rung, (Ok(true), true));
        Ok(())
    }

    const CASES: &[Case] = &[
        (Change::Insert(5), true, true),
        (Change::Insert(30), true, false),
        (Change::Reset(5), true, true),
        (Change::Reset(30), true, false),
        (Change::Remove, true, true),
        (Change::Remove, false, false),
        (Change::Poll(10), true, true),
        (Change::Poll(10), false, false),
        (Change::Poll(5), true, false),
        (Change::PollSome(10), true, true),
        (Change::PollSome(10), false, false),
        (Change::PollSome(5), true, false),
        (Change::Sweep, true, true),
        (Change::Sweep, false, false),
        (Change::SweepSome, true, true),
        (Change::SweepSome, false, false),
        (Change::Reap, true, true),
        (Change::Reap, false, false),
        (Change::Clear, false, true),
    ];

    fn wakes_its_own_in_a_new_queue(row: usize, case: Case) -> Result<(), Fail> {
        let (queue, task, other) = letters_and_tasks(2)?;
        wakes_its_own(&queue, (&task, &other), row, case)
    }

    // Fails where a change loses a poller, wakes one that may wait, or wakes one of another shard.
    // promise: shards.change-wakes
    #[test]
    fn each_change_wakes_its_own_poller() -> Result<(), Fail> {
        for (row, case) in CASES.iter().enumerate() {
            wakes_its_own_in_a_new_queue(row, *case)?;
        }
        Ok(())
    }
}

mod parkers {
    //! A poller that is parked in the place of another one, or taken out.

    use super::same;
    use super::streams::{fill, letters, Letters};
    use crate::core::Turn;
    use crate::shards::{Parked, ShardState};
    use crate::stream::park_with;
    use crate::tests::kit::{Fail, MockTask};
    use std::task::{Context, Waker};

    // The waker of the task that is polled.
    fn registered(cx: &mut Context<'_>) -> Option<Waker> {
        Some(cx.waker().clone())
    }

    // Parks a poller in the place of the one before.
    fn park_at_its_wake(shard: &mut ShardState<char>, slot: Option<Waker>) -> Result<(), Fail> {
        if let Turn::Waiting { next } = shard.poll(0)? {
            park_with(shard, next, slot)?;
        }
        Ok(())
    }

    fn parks(queue: &Letters, task: &MockTask) -> Result<(), Fail> {
        let slot = task.enter(|cx| registered(cx));
        let mut shard = queue.enter(0)?;
        park_at_its_wake(&mut shard, slot)
    }

    fn wakes_the_second(queue: &Letters, first: &MockTask, second: &MockTask) -> Result<(), Fail> {
        fill(queue, 0, &[('v', 10)])?;
        parks(queue, first)?;
        parks(queue, second)?;
        let woken = (first.is_woken(), second.is_woken());
        same("parked", woken, (false, false));
        same("ring", queue.ring(0, 10), Ok(true));
        let woken = (first.is_woken(), second.is_woken());
        same("rung", woken, (false, true));
        Ok(())
    }

    // The one before is not woken, then or later.
    // promise: shards.shard-behind
    #[test]
    fn parked_in_the_place_of_another() -> Result<(), Fail> {
        let queue = letters(1)?;
        let (first, second) = (MockTask::new(), MockTask::new());
        wakes_the_second(&queue, &first, &second)
    }

    // Takes the poller out of shard 0. The lock is free once it is handed over.
    fn taken(queue: &Letters) -> Result<Option<Parked>, Fail> {
        Ok(queue.enter(0)?.take_parked())
    }

    // What is taken out is parked no more, and is woken by whoever has it, or not at all.
    fn wakes_what_is_taken(queue: &Letters, task: &MockTask, wakes: bool) -> Result<(), Fail> {
        fill(queue, 0, &[('v', 10)])?;
        parks(queue, task)?;
        let Some(poller) = taken(queue)? else {
            return Err(Fail::from("nobody was parked"));
        };
        same("taken", (poller.next, task.is_woken()), (10, false));
        same("parked", queue.parked(0), Ok(None));
        if wakes {
            poller.waker.wake();
        } else {
            Parked::forget(poller);
        }
        same("woken", task.is_woken(), wakes);
        same("taken again", taken(queue)?.is_some(), false);
        Ok(())
    }

    // promise: shards.change-wakes
    #[test]
    fn taken_out_and_woken() -> Result<(), Fail> {
        let queue = letters(1)?;
        let task = MockTask::new();
        wakes_what_is_taken(&queue, &task, true)
    }

    // promise: shards.change-wakes
    #[test]
    fn taken_out_and_let_sleep() -> Result<(), Fail> {
        let queue = letters(1)?;
        let task = MockTask::new();
        wakes_what_is_taken(&queue, &task, false)
    }
}

mod refusals {
    //! What a stream refuses, and what it leaves then.

    use super::same;
    use super::streams::Seen::Ends;
    use super::streams::{letters, letters_and_task, Letters, Task, TickOf, Told};
    use crate::shards::QueueError;
    use crate::stream::{ExpiredStream, StreamFault, TickSource};
    use crate::tests::kit::Fail;
    use crate::tests::stream_checks::refusals::{LIMIT, TOO_LARGE};

    fn ends_beside_the_lock(
        queue: &Letters,
        task: &Task,
        stream: &mut ExpiredStream<'_, char, TickOf<'_>>,
    ) -> Result<(), Fail> {
        task.sees(stream, LIMIT + 1, TOO_LARGE);
        let shard = queue.enter(0)?;
        same("poll", (task.poll(stream, 0), shard.len()), (Ends, 0));
        Ok(())
    }

    fn takes_no_lock(queue: &Letters, task: &Task) -> Result<(), Fail> {
        let mut stream = task.stream(queue, 0)?;
        ends_beside_the_lock(queue, task, &mut stream)
    }

    // Doesn't end where a stream that has ended takes its shard's lock, which this thread holds.
    // promise: stream.poll-next-lock
    #[test]
    fn ended_stream_takes_no_lock() -> Result<(), Fail> {
        let (queue, task) = letters_and_task(&[])?;
        takes_no_lock(&queue, &task)
    }

    // Why a stream of the shard is refused, and the tick that the source tells which comes back. None for a stream.
    fn refused(queue: &Letters, shard: usize) -> Option<(QueueError, u64)> {
        let told = Told::at(7);
        match ExpiredStream::new(queue, shard, TickOf(&told)) {
            Ok(_) => None,
            Err((error, mut source)) => Some((error, source.now())),
        }
    }

    fn gives_the_source_back(queue: &Letters) {
        let unknown = Some((QueueError::Unknown, 7));
        same(1, refused(queue, 1), None);
        same(2, refused(queue, 2), unknown);
        same(usize::MAX, refused(queue, usize::MAX), unknown);
    }

    // promise: stream.expiredstream-new
    #[test]
    fn unknown_shard_gives_the_source_back() -> Result<(), Fail> {
        let queue = letters(2)?;
        gives_the_source_back(&queue);
        Ok(())
    }

    fn says(fault: StreamFault, text: &str) -> Result<(), Fail> {
        same(text, format!("{fault}").as_str(), text);
        Ok(())
    }

    // promise: stream.order-end
    #[test]
    fn faults_say_why() -> Result<(), Fail> {
        let too_large = StreamFault::TickTooLarge { limit: LIMIT };
        says(too_large, "the tick is beyond the last tick, 4398046511103")?;
        says(StreamFault::NoMemory, "out of memory")
    }
}

mod tasks {
    //! Tasks that wait in a shard.

    use super::same;
    use super::streams::{letters, Letters, Seen, Task};
    use crate::shards::QueueError;
    use crate::tests::kit::Fail;

    /// A queue of so many shards, and two tasks.
    pub fn letters_and_tasks(shards: usize) -> Result<(Letters, Task, Task), Fail> {
        let queue = letters(shards)?;
        let first = Task::new()?;
        let second = Task::new()?;
        Ok((queue, first, second))
    }

    impl Task {
        /// Rings shard 0. Fails unless that wakes this task, or wakes none.
        pub fn is_rung(&self, queue: &Letters, tick: u64, woken: bool) {
            let rung = (queue.ring(0, tick), self.was_woken());
            same(tick, rung, (Ok(woken), woken));
        }

        /// Fails unless a new stream of the shard, at tick 0, waits. It drops the stream.
        pub fn waits(&self, queue: &Letters, shard: usize) -> Result<(), QueueError> {
            let mut stream = self.stream(queue, shard)?;
            self.sees(&mut stream, 0, Seen::Waits);
            Ok(())
        }
    }
}

mod threads {
    //! A stream in one thread, and the time in another.

    use super::same;
    use crate::core::Expired;
    use crate::shards::{QueueConfig, QueueError, SharedDelayQueue};
    use crate::stream::{ExpiredStream, StreamFault, TickSource};
    use crate::tests::kit::{block_on, join, Fail, StreamExt};
    use std::sync::atomic::AtomicU64;
    use std::sync::atomic::Ordering::SeqCst;

    const ENTRIES: u64 = 100;

    // Tells the tick that another thread set.
    struct SharedTick<'t>(&'t AtomicU64);

    impl TickSource for SharedTick<'_> {
        fn now(&mut self) -> u64 {
            self.0.load(SeqCst)
        }
    }

    // Whether all entries came, in the order of their deadlines, and none before its tick.
    fn are_all(items: &[Result<Expired<u64>, StreamFault>]) -> bool {
        let mut came: u64 = 0;
        for item in items {
            let Ok(expired) = item else {
                return false;
            };
            if expired.value != came || expired.deadline > expired.noted {
                return false;
            }
            came = came.saturating_add(1);
        }
        came == ENTRIES
    }

    // Whether the stream gave all entries up to its end.
    fn all_came(queue: &SharedDelayQueue<u64>, tick: &AtomicU64) -> bool {
        let Ok(stream) = ExpiredStream::new(queue, 0, SharedTick(tick)) else {
            return false;
        };
        match block_on(stream.collect()) {
            Ok(Ok(items)) => are_all(&items),
            _ => false,
        }
    }

    // Goes on tick by tick, and rings the shard at each.
    fn go_on(queue: &SharedDelayQueue<u64>, tick: &AtomicU64) {
        for now in 1..=10 * ENTRIES {
            tick.store(now, SeqCst);
            let _ = queue.ring(0, now);
        }
    }

    fn fill(queue: &SharedDelayQueue<u64>) -> Result<(), QueueError> {
        for value in 0..ENTRIES {
            queue.insert_or_drop(0, value, 10 * value + 1)?;
        }
        Ok(())
    }

    fn came_beside(queue: &SharedDelayQueue<u64>, tick: &AtomicU64) -> bool {
        let (came, ()) = join(|| all_came(queue, tick), || go_on(queue, tick));
        came
    }

    // promise: stream.order-end
    #[test]
    fn woken_from_another_thread() -> Result<(), Fail> {
        let queue = SharedDelayQueue::new(QueueConfig::of(1, 128))?;
        fill(&queue)?;
        same("came", came_beside(&queue, &AtomicU64::new(0)), true);
        Ok(())
    }
}

mod wakes {
    //! Whose task a shard wakes, and how often.

    use super::same;
    use super::steps::Step::{Parked, Poll, Put, Ring, Woken};
    use super::steps::{play, play_over};
    use super::streams::Seen::{Out, Waits};
    use super::streams::{fill, letters_and_task, Letters, Task};
    use super::tasks::letters_and_tasks;
    use crate::tests::kit::Fail;

    // Puts a letter in shard 0. Fails unless a poller was parked before, and the task is woken by it.
    fn is_woken_by(queue: &Letters, task: &Task, entry: (char, u64)) {
        let before = (queue.parked(0), task.was_woken());
        same("before", before, (Ok(Some(10)), false));
        same("insert", fill(queue, 0, &[entry]), Ok(()));
        let after = (queue.parked(0), task.was_woken());
        same("after", after, (Ok(None), true));
    }

    fn wakes_though_dropped(queue: &Letters, task: &Task) -> Result<(), Fail> {
        task.waits(queue, 0)?;
        is_woken_by(queue, task, ('w', 5));
        fill(queue, 0, &[('x', 3)])?;
        same("woken again", task.was_woken(), false);
        Ok(())
    }

    // promise: stream.poller-taken
    #[test]
    fn dropped_while_parked() -> Result<(), Fail> {
        let (queue, task) = letters_and_task(&[('v', 10)])?;
        wakes_though_dropped(&queue, &task)
    }

    // The first task stays asleep the whole time: what wakes it would show until it is asked.
    fn wakes_the_second(queue: &Letters, first: &Task, second: &Task) -> Result<(), Fail> {
        fill(queue, 0, &[('v', 10)])?;
        first.waits(queue, 0)?;
        let steps = &[Poll(0, Waits), Woken(false), Parked(Some(10)), Ring(10, true)];
        play(queue, second, steps)?;
        same("the first", first.was_woken(), false);
        Ok(())
    }

    // promise: shards.change-wakes stream.poller-taken
    #[test]
    fn new_stream_takes_the_poller_out() -> Result<(), Fail> {
        let (queue, first, second) = letters_and_tasks(1)?;
        wakes_the_second(&queue, &first, &second)
    }

    // promise: stream.pending-comes
    #[test]
    fn polled_twice_is_woken_once() -> Result<(), Fail> {
        play_over(
            &[('v', 10)],
            &[
                Poll(0, Waits),
                Poll(9, Waits),
                Put('w', 20),
                Parked(Some(10)),
                Woken(false),
                Ring(10, true),
                Ring(10, false),
            ],
        )
    }

    // promise: shards.change-wakes stream.poll-takes
    #[test]
    fn out_leaves_nothing_parked() -> Result<(), Fail> {
        play_over(
            &[('v', 10), ('w', 30)],
            &[
                Poll(0, Waits),
                Poll(10, Out('v', 10, 10)),
                Parked(None),
                Woken(false),
                Poll(10, Waits),
                Parked(Some(30)),
            ],
        )
    }

    fn are_woken(first: &Task, second: &Task, woken: (bool, bool)) {
        same("woken", (first.was_woken(), second.was_woken()), woken);
    }

    // Both tasks are parked.
    fn wakes_one_by_one(queue: &Letters, first: &Task, second: &Task) {
        let parked = (queue.parked(0), queue.parked(1));
        same("parked", parked, (Ok(Some(10)), Ok(Some(20))));
        same("insert", fill(queue, 1, &[('x', 5)]), Ok(()));
        are_woken(first, second, (false, true));
        same("ring", queue.ring(0, 10), Ok(true));
        are_woken(first, second, (true, false));
    }

    fn wakes_of_each_shard(queue: &Letters, first: &Task, second: &Task) -> Result<(), Fail> {
        fill(queue, 0, &[('v', 10)])?;
        fill(queue, 1, &[('w', 20)])?;
        let mut of_first = first.stream(queue, 0)?;
        let mut of_second = second.stream(queue, 1)?;
        first.sees(&mut of_first, 0, Waits);
        second.sees(&mut of_second, 0, Waits);
        wakes_one_by_one(queue, first, second);
        Ok(())
    }

    // promise: stream.poll-next-does
    #[test]
    fn each_shard_wakes_its_own_task() -> Result<(), Fail> {
        let (queue, first, second) = letters_and_tasks(2)?;
        wakes_of_each_shard(&queue, &first, &second)
    }
}
