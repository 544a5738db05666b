use crate::tests::kit::same;

pub mod refusals {
    //! What a stream refuses, and what it leaves then.

    use crate::tests::kit::Fail;
    use super::steps::Step::{Asked, Parked, Poll, Put, Woken};
    use super::steps::{each_answers, play_over};
    use super::streams::Seen::{Ends, Out, Waits};
    use super::streams::{Letters, Seen, Task, TickOf, letters_and_task};
    use crate::stream::{ExpiredStream, StreamFault};

    pub const LIMIT: u64 = 4398046511103;

    pub const TOO_LARGE: Seen = Seen::Fault(StreamFault::TickTooLarge { limit: LIMIT });

    // The queue has two letters still, where its stream has ended.
    fn gives_to_another(
        queue: &Letters,
        task: &Task,
        ended: &mut ExpiredStream<'_, char, TickOf<'_>>,
    ) -> Result<(), Fail> {
        let mut other = task.stream(queue, 0)?;
        let goes_on = &[Poll(5, Out('w', 5, 5)), Poll(5, Waits)];
        each_answers(queue, task, &mut other, goes_on);
        let stays = &[Poll(10, Ends), Parked(Some(10))];
        each_answers(queue, task, ended, stays);
        Ok(())
    }

    fn ends_for_good(queue: &Letters, task: &Task) -> Result<(), Fail> {
        let mut stream = task.stream(queue, 0)?;
        let steps = &[
            Poll(0, Waits),
            Poll(LIMIT + 1, TOO_LARGE),
            Parked(None),
            Woken(false),
            Put('w', 5),
            Poll(5, Ends),
            Poll(10, Ends),
            Poll(LIMIT, Ends),
            Asked(2),
            Parked(None),
        ];
        each_answers(queue, task, &mut stream, steps);
        gives_to_another(queue, task, &mut stream)
    }

    // promise: stream.tick-beyond
    #[test]
    fn refused_tick_ends_for_good() -> Result<(), Fail> {
        let (queue, task) = letters_and_task(&[('v', 10)])?;
        ends_for_good(&queue, &task)
    }

    // promise: stream.tick-beyond
    #[test]
    fn last_tick_is_taken() -> Result<(), Fail> {
        play_over(
            &[('v', LIMIT)],
            &[
                Poll(LIMIT - 1, Waits),
                Parked(Some(LIMIT)),
                Poll(LIMIT, Out('v', LIMIT, LIMIT)),
                Poll(LIMIT + 1, TOO_LARGE),
                Asked(3),
            ],
        )
    }
}
pub mod rows {
    //! The worked rows of a stream.

    use crate::tests::kit::{Fail, StreamExt, block_on};
    use super::same;
    use super::steps::Step::{Asked, Parked, Poll, Put, Ring, Woken};
    use super::steps::{Change, change_while_parked, play, play_over};
    use super::streams::Seen::{Ends, Fault, Out, Waits};
    use super::streams::{Letters, Task, TickOf, Told, fill, letters, letters_and_task, stream_of};
    use crate::core::Expired;
    use crate::shards::ShardState;
    use crate::stream::StreamFault;
    use crate::stream::park_with;

    // Ended for now it goes on, up to a tick that is refused. After that it gives not even what is due.
    // promise: shards.change-wakes stream.poll-next-does
    #[test]
    fn stream_by_hand() -> Result<(), Fail> {
        play_over(
            &[('v', 10)],
            &[
                Poll(0, Waits),
                Parked(Some(10)),
                Put('w', 5),
                Woken(true),
                Woken(false),
                Parked(None),
                Poll(10, Out('w', 5, 10)),
                Poll(10, Out('v', 10, 10)),
                Poll(10, Ends),
                Put('x', 20),
                Poll(20, Out('x', 20, 20)),
                Poll(
                    4398046511104,
                    Fault(StreamFault::TickTooLarge {
                        limit: 4398046511103,
                    }),
                ),
                Asked(6),
                Put('y', 20),
                Poll(20, Ends),
                Asked(6),
            ],
        )
    }

    // promise: shards.change-wakes stream.poller-taken
    #[test]
    fn ring_wakes_once() -> Result<(), Fail> {
        play_over(
            &[('v', 10)],
            &[
                Poll(0, Waits),
                Parked(Some(10)),
                Ring(9, false),
                Ring(10, true),
                Parked(None),
                Ring(10, false),
            ],
        )
    }

    // promise: shards.change-wakes stream.poller-taken
    #[test]
    fn parked_then_removed() -> Result<(), Fail> {
        let (queue, task) = letters_and_task(&[])?;
        change_while_parked(
            &queue,
            &task,
            Change::Remove,
            &[
                Woken(true),
                Woken(false),
                Parked(None),
                Poll(0, Ends),
                Woken(false),
            ],
        )
    }

    fn refuses_no_waker(shard: &mut ShardState<char>) -> Result<(), Fail> {
        let Some(next) = shard.next_wake() else {
            return Err(Fail::from("no wake"));
        };
        let refused = Err(StreamFault::NoMemory);
        same("park", park_with(shard, next, None), refused);
        Ok(())
    }

    // The shard is held in here alone.
    fn parks_no_waker(queue: &Letters) -> Result<(), Fail> {
        let mut shard = queue.enter(0)?;
        refuses_no_waker(&mut shard)
    }

    fn refuses_then_parks(queue: &Letters, task: &Task) -> Result<(), Fail> {
        parks_no_waker(queue)?;
        same("parked", queue.parked(0), Ok(None));
        play(queue, task, &[Poll(0, Waits), Parked(Some(10))])
    }

    // promise: stream.park-with-parks
    #[test]
    fn waker_copy_refused() -> Result<(), Fail> {
        let (queue, task) = letters_and_task(&[('v', 10)])?;
        refuses_then_parks(&queue, &task)
    }

    type Items = Vec<Result<Expired<char>, StreamFault>>;

    // All that a stream gives at a tick after the last deadline.
    fn collected(queue: &Letters, told: &Told) -> Result<Items, Fail> {
        let stream = stream_of(queue, 0, TickOf(told))?;
        Ok(block_on(stream.collect())??)
    }

    fn deadline_of(item: &Result<Expired<char>, StreamFault>) -> Result<u64, StreamFault> {
        match item {
            Ok(expired) => Ok(expired.deadline),
            Err(fault) => Err(*fault),
        }
    }

    fn have_deadlines(
        items: &[Result<Expired<char>, StreamFault>],
        deadlines: &[u64],
    ) {
        same("how many", items.len(), deadlines.len());
        for (item, deadline) in items.iter().zip(deadlines) {
            same(*deadline, deadline_of(item), Ok(*deadline));
        }
    }

    fn gives_three(queue: &Letters) -> Result<(), Fail> {
        fill(queue, 0, &[('a', 5), ('b', 70), ('c', 5000)])?;
        let items = collected(queue, &Told::at(10000))?;
        have_deadlines(&items, &[5, 70, 5000]);
        Ok(())
    }

    // promise: stream.order-end
    #[test]
    fn three_in_order_collected() -> Result<(), Fail> {
        let queue = letters(1)?;
        gives_three(&queue)
    }
}
pub mod steps {
    //! Tests of one stream of a shard as tables: each row is a call, and what it has to answer.

    use crate::tests::kit::Fail;
    use super::same;
    use super::streams::{Letters, Seen, Task, TickOf, fill, letters_and_task, put};
    use crate::shards::{Handle, QueueError};
    use crate::stream::ExpiredStream;
    use crate::ticks::Key;

    /// A call, and what it answers.
    #[derive(Clone, Copy)]
    pub enum Step {
        /// The stream is polled, at this tick where it asks.
        Poll(u64, Seen),
        /// A letter is put in, with its deadline.
        Put(char, u64),
        /// The shard is rung at a tick, which wakes the task or wakes none.
        Ring(u64, bool),
        /// A poller is parked until this tick, or none is.
        Parked(Option<u64>),
        /// Whether the task was woken since it was last polled or asked.
        Woken(bool),
        /// How often the stream has asked for the tick.
        Asked(usize),
    }

    // The step at that number of a table answers as it has to.
    fn answers(
        queue: &Letters,
        task: &Task,
        stream: &mut ExpiredStream<'_, char, TickOf<'_>>,
        number: usize,
        step: Step,
    ) {
        match step {
            Step::Poll(tick, seen) => same(number, task.poll(stream, tick), seen),
            Step::Put(value, when) => {
                same(number, fill(queue, 0, &[(value, when)]), Ok(()));
            }
            Step::Ring(tick, woken) => {
                let rung = (queue.ring(0, tick), task.was_woken());
                same(number, rung, (Ok(woken), woken));
            }
            Step::Parked(until) => same(number, queue.parked(0), Ok(until)),
            Step::Woken(woken) => same(number, task.was_woken(), woken),
            Step::Asked(times) => same(number, task.told.asked(), times),
        }
    }

    /// Each step of a table answers as it has to, by a stream of shard 0.
    pub fn each_answers(
        queue: &Letters,
        task: &Task,
        stream: &mut ExpiredStream<'_, char, TickOf<'_>>,
        steps: &[Step],
    ) {
        for (number, step) in steps.iter().enumerate() {
            answers(queue, task, stream, number, *step);
        }
    }

    /// Likewise, by a new stream.
    pub fn play(
        queue: &Letters,
        task: &Task,
        steps: &[Step],
    ) -> Result<(), Fail> {
        let mut stream = task.stream(queue, 0)?;
        each_answers(queue, task, &mut stream, steps);
        Ok(())
    }

    /// Likewise, over a new queue with these letters in it.
    pub fn play_over(entries: &[(char, u64)], steps: &[Step]) -> Result<(), Fail> {
        let (queue, task) = letters_and_task(entries)?;
        play(&queue, &task, steps)
    }

    /// What becomes of a letter while a task is parked for it.
    pub enum Change<'h> {
        Extend(&'h mut Handle, u64),
        Cancel(&'h mut Handle),
        Remove,
    }

    fn removed(queue: &Letters, key: &Key) -> Result<char, QueueError> {
        Ok(queue.remove(&key.entry())?.value)
    }

    // Makes the change, of a letter 'v' at tick 10.
    fn make(queue: &Letters, key: &Key, change: Change<'_>) {
        match change {
            Change::Extend(handle, when) => same("extend", handle.extend(key, when), Ok(when)),
            Change::Cancel(handle) => same("cancel", handle.cancel(key), Ok(10)),
            Change::Remove => same("remove", removed(queue, key), Ok('v')),
        }
    }

    /// Puts a letter in, parks a task for it, makes the change, and takes the steps behind it.
    pub fn change_while_parked(
        queue: &Letters,
        task: &Task,
        change: Change<'_>,
        steps: &[Step],
    ) -> Result<(), Fail> {
        let key = put(queue, 0, 'v', 10)?;
        let mut stream = task.stream(queue, 0)?;
        let parks = &[Step::Poll(0, Seen::Waits), Step::Parked(Some(10))];
        each_answers(queue, task, &mut stream, parks);
        make(queue, &key, change);
        each_answers(queue, task, &mut stream, steps);
        Ok(())
    }
}
pub mod streams {
    //! Streams over a queue of letters, the ticks that they are told, and the tasks that poll them. A test makes what it
    //! owns and lends it to what it shows: an error on the way then drops nothing, which is much of what there is to
    //! prove.

    use crate::tests::kit::{Fail, MockTask, StreamExt};
    use super::same;
    use crate::shards::{QueueConfig, QueueError, SharedDelayQueue};
    use crate::stream::{ExpiredStream, StreamFault, TickSource};
    use crate::ticks::Key;
    use std::task::Poll;
    use std::cell::Cell;

    pub type Letters = SharedDelayQueue<char>;

    /// A queue of letters in so many shards.
    pub fn letters(shards: usize) -> Result<Letters, QueueError> {
        SharedDelayQueue::new(QueueConfig::of(shards, 8))
    }

    /// Puts a letter in, and answers its key.
    pub fn put(
        queue: &Letters,
        shard: u64,
        value: char,
        when: u64,
    ) -> Result<Key, QueueError> {
        queue.insert_or_drop(shard, value, when)
    }

    /// Puts letters in, each with its deadline.
    pub fn fill(
        queue: &Letters,
        shard: u64,
        entries: &[(char, u64)],
    ) -> Result<(), QueueError> {
        for (value, when) in entries {
            put(queue, shard, *value, *when)?;
        }
        Ok(())
    }

    /// A queue of one shard with these letters in it, and a task.
    pub fn letters_and_task(entries: &[(char, u64)]) -> Result<(Letters, Task), Fail> {
        let queue = letters(1)?;
        fill(&queue, 0, entries)?;
        let task = Task::new()?;
        Ok((queue, task))
    }

    /// The tick that streams are told, and how often they asked for it.
    pub struct Told {
        tick: Cell<u64>,
        asked: Cell<usize>,
    }

    impl Told {
        pub fn at(tick: u64) -> Told {
            Told {
                tick: Cell::new(tick),
                asked: Cell::new(0),
            }
        }

        /// How often it was asked for.
        pub fn asked(&self) -> usize {
            self.asked.get()
        }
    }

    /// Tells the tick that is set.
    pub struct TickOf<'t>(pub &'t Told);

    impl TickSource for TickOf<'_> {
        fn now(&mut self) -> u64 {
            let told = self.0;
            told.asked.set(told.asked.get().saturating_add(1));
            told.tick.get()
        }
    }

    /// A stream of a shard.
    pub fn stream_of<'q, S: TickSource>(
        queue: &'q Letters,
        shard: usize,
        source: S,
    ) -> Result<ExpiredStream<'q, char, S>, QueueError> {
        match ExpiredStream::new(queue, shard, source) {
            Ok(stream) => Ok(stream),
            Err((error, _)) => Err(error),
        }
    }

    /// What a poll of a stream answered.
    #[derive(Clone, Copy, Debug, PartialEq, Eq)]
    pub enum Seen {
        Waits,
        /// A letter came out: its value, its deadline and the greatest tick that was noted.
        Out(char, u64, u64),
        Fault(StreamFault),
        Ends,
    }

    /// A task that polls streams, and the tick that its own streams are told.
    pub struct Task {
        mock: MockTask,
        pub told: Told,
    }

    impl Task {
        pub fn new() -> Result<Task, Fail> {
            Ok(Task {
                mock: MockTask::new(),
                told: Told::at(0),
            })
        }

        /// A stream of its own.
        pub fn stream<'q>(
            &'q self,
            queue: &'q Letters,
            shard: usize,
        ) -> Result<ExpiredStream<'q, char, TickOf<'q>>, QueueError> {
            stream_of(queue, shard, TickOf(&self.told))
        }

        /// Polls a stream once, at this tick where it is its own.
        pub fn poll<S: TickSource>(
            &self,
            stream: &mut ExpiredStream<'_, char, S>,
            tick: u64,
        ) -> Seen {
            self.told.tick.set(tick);
            match self.mock.poll(&mut stream.next()) {
                Poll::Pending => Seen::Waits,
                Poll::Ready(None) => Seen::Ends,
                Poll::Ready(Some(Err(fault))) => Seen::Fault(fault),
                Poll::Ready(Some(Ok(expired))) => {
                    Seen::Out(expired.value, expired.deadline, expired.noted)
                }
            }
        }

        /// Whether it was woken since it was last polled or asked.
        pub fn was_woken(&self) -> bool {
            let was_woken = self.mock.is_woken();
            self.mock.enter(|_| ());
            was_woken
        }

        /// Fails unless a poll of a stream, at this tick where it is its own, answers this.
        pub fn sees<S: TickSource>(
            &self,
            stream: &mut ExpiredStream<'_, char, S>,
            tick: u64,
            seen: Seen,
        ) {
            same(tick, self.poll(stream, tick), seen);
        }
    }
}
