use crate::tests::kit::Fail;
use super::same;
use crate::core::{CoreError, PlainQueue, PlainTurn};

type Queue = PlainQueue<char>;

fn inserts(
    queue: &mut Queue,
    value: char,
    when: u64,
    answer: Result<u64, (CoreError, char)>,
) {
    same(when, queue.insert(value, when), answer);
}

// What a poll answers: the deadline and the value that came out, that it waits, or that nothing is linked.
#[derive(PartialEq, Debug)]
enum Answer {
    Out(u64, char),
    Waits,
    Idles,
}

fn told(turn: PlainTurn<char>) -> Answer {
    match turn {
        PlainTurn::PlainOut { deadline, value } => Answer::Out(deadline, value),
        PlainTurn::PlainWaiting => Answer::Waits,
        PlainTurn::PlainIdle => Answer::Idles,
    }
}

fn polls(queue: &mut Queue, tick: u64, answer: Result<Answer, CoreError>) {
    same(tick, queue.poll(tick).map(told), answer);
}

fn gives(queue: &mut Queue, tick: u64, (deadline, value): (u64, char)) {
    polls(queue, tick, Ok(Answer::Out(deadline, value)));
}

fn idles(queue: &mut Queue, tick: u64) {
    polls(queue, tick, Ok(Answer::Idles));
}

// How many entries wait, the tick, and the noted tick.
fn stands(queue: &Queue, len: usize, tick: u64, noted: u64) {
    same(
        "stands",
        (queue.len(), queue.tick(), queue.noted()),
        (len, tick, noted),
    );
    same("is_empty", queue.is_empty(), len == 0);
}

// promise: plain.comes-out
#[test]
fn plain_queue_walk() -> Result<(), Fail> {
    walk(&mut PlainQueue::new(2)?);
    Ok(())
}

// Of a queue of two slots.
fn walk(queue: &mut Queue) {
    same("capacity", queue.capacity(), 2);
    stands(queue, 0, 0, 0);
    inserts(queue, 'a', 5, Ok(5));
    inserts(queue, 'b', 9, Ok(9));
    let full = CoreError::Full { linked: 2, worn: 0 };
    inserts(queue, 'c', 9, Err((full, 'c')));
    gives(queue, 100, (5, 'a'));
    stands(queue, 1, 5, 100);
    gives(queue, 100, (9, 'b'));
    idles(queue, 100);
    stands(queue, 0, 100, 100);
}

// promise: plain.comes-out
#[test]
fn plain_insert_before_the_tick_is_due_at_it() -> Result<(), Fail> {
    inserts_before_the_tick(&mut PlainQueue::new(1)?);
    Ok(())
}

// Of a queue of one slot.
fn inserts_before_the_tick(queue: &mut Queue) {
    inserts(queue, 'a', 10, Ok(10));
    polls(queue, 9, Ok(Answer::Waits));
    stands(queue, 1, 9, 9);
    gives(queue, 12, (10, 'a'));
    idles(queue, 12);
    inserts(queue, 'b', 3, Ok(12));
    gives(queue, 0, (12, 'b'));
    stands(queue, 0, 12, 12);
}

// Of a queue of one slot.
fn last_tick_and_beyond(queue: &mut Queue) {
    let limit = 4398046511103;
    let far = CoreError::TooFar { limit };
    inserts(queue, 'a', 4398046511104, Err((far, 'a')));
    inserts(queue, 'a', 4398046511103, Ok(4398046511103));
    inserts(queue, 'b', 4398046511104, Err((far, 'b')));
    polls(
        queue,
        4398046511104,
        Err(CoreError::TickTooLarge { limit }),
    );
    stands(queue, 1, 0, 0);
    gives(queue, 4398046511103, (4398046511103, 'a'));
}

// promise: plain.deadline-ever
#[test]
fn plain_limits() -> Result<(), Fail> {
    for capacity in &[0, 65537] {
        same(
            *capacity,
            widest(*capacity),
            Err(CoreError::BadConfig),
        );
    }
    same("capacity", widest(65536), Ok(65536));
    last_tick_and_beyond(&mut PlainQueue::new(1)?);
    Ok(())
}

// The capacity of a queue of that many slots.
fn widest(capacity: usize) -> Result<usize, CoreError> {
    let queue: Queue = PlainQueue::new(capacity)?;
    Ok(queue.capacity())
}
