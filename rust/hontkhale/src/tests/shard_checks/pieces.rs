//! A shard is polled in pieces, with its lock free between them: by name and by `lend`.

use crate::tests::kit::{Fail, HeapBox, LocalHeap};
use super::play::Way;
use super::same;
use crate::core::{CoreError, Piece, Turn};
use crate::shards::{QueueConfig, QueueError, SharedDelayQueue};
use crate::ticks::Key;

pub type Boxes<'heap> = SharedDelayQueue<HeapBox<'heap, u64>>;

/// What a piece answers.
#[derive(Clone, Copy, Debug, PartialEq, Eq)]
pub enum Told {
    Working,
    // A value and its deadline.
    Out(u64, u64),
    Waiting(u64),
    Idle,
    Refused(QueueError),
}

pub fn tell(answer: Result<Piece<HeapBox<'_, u64>>, QueueError>) -> Told {
    match answer {
        Ok(Piece::Working) => Told::Working,
        Ok(Piece::Answer(Turn::Out(out))) => Told::Out(*out.value, out.deadline),
        Ok(Piece::Answer(Turn::Waiting { next })) => Told::Waiting(next),
        Ok(Piece::Answer(Turn::Idle)) => Told::Idle,
        Err(error) => Told::Refused(error),
    }
}

const LAST: u64 = 4398046511103;

const TOO_LARGE: Told = Told::Refused(QueueError::Core(CoreError::TickTooLarge { limit: LAST }));

// The values and the deadlines of the entries of shard 1.
const ENTRIES: &[(u64, u64)] = &[(1, 5), (2, 70), (3, 130)];

// A piece: its shard, its tick and its steps.
type Asked = (usize, u64, u32);

// Pieces of shards of which shard 1 has these entries, and their answers.
const ROWS: &[(Asked, Told)] = &[
    ((1, LAST + 1, 1), TOO_LARGE),
    ((2, LAST + 1, 1), Told::Refused(QueueError::Unknown)),
    ((1, 3, 0), Told::Working),
    ((1, 3, 1), Told::Working),
    ((1, 3, 1), Told::Waiting(5)),
    ((1, 5, 1), Told::Working),
    ((1, 5, 1), Told::Out(1, 5)),
    ((1, 5, 1), Told::Waiting(64)),
    // At 64 a slot is opened, and its one entry is filed anew.
    ((1, 64, 2), Told::Working),
    ((1, 0, 1), Told::Waiting(70)),
    ((1, 70, 2), Told::Out(2, 70)),
    // To 128, filed anew, to 130, and out.
    ((1, 200, 3), Told::Working),
    ((1, 200, 1), Told::Out(3, 130)),
    ((1, 200, 1), Told::Working),
    ((1, 200, 1), Told::Idle),
    ((0, 200, 2), Told::Idle),
];

/// Puts a box in.
pub fn put<'heap>(
    queue: &Boxes<'heap>,
    heap: &'heap LocalHeap,
    route: u64,
    (value, when): (u64, u64),
) -> Result<Key, Fail> {
    Ok(queue.insert_or_drop(route, HeapBox::new(heap, value), when)?)
}

fn by_lend(queue: &Boxes, (shard, tick, most): Asked) -> Told {
    let answer = queue.lend(
        shard,
        |state| tell(state.poll_some(tick, most).map_err(QueueError::Core)),
    );
    answer.unwrap_or_else(Told::Refused)
}

fn piece(queue: &Boxes, way: Way, asked: Asked) -> Told {
    match way {
        Way::ByName => tell(queue.poll_some(asked.0, asked.1, asked.2)),
        Way::ByLend => by_lend(queue, asked),
    }
}

fn fill_and_poll<'heap>(
    queue: &Boxes<'heap>,
    heap: &'heap LocalHeap,
    way: Way,
) -> Result<(), Fail> {
    for entry in ENTRIES {
        let _key = put(queue, heap, 1, *entry)?;
    }
    for (number, (asked, answer)) in ROWS.iter().enumerate() {
        same(number, piece(queue, way, *asked), *answer);
    }
    same("used", heap.used(), 0);
    Ok(())
}

fn comes_in_pieces(
    heap: &LocalHeap,
    way: Way,
) -> Result<(), Fail> {
    let queue: Boxes = SharedDelayQueue::new(QueueConfig::of(2, 4))?;
    fill_and_poll(&queue, heap, way)
}

// promise: shards.pieces-give
#[test]
fn pieces_by_name() -> Result<(), Fail> {
    let heap = LocalHeap::new();
    comes_in_pieces(&heap, Way::ByName)
}

// promise: shards.pieces-give
#[test]
fn pieces_by_lend() -> Result<(), Fail> {
    let heap = LocalHeap::new();
    comes_in_pieces(&heap, Way::ByLend)
}
