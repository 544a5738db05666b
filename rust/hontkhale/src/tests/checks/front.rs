//! The numbers by which no queue is made: those of the front door, and the limits of a queue and of its words.

use super::same;
use crate::core::{BadNumber, CoreConfig, CoreError, DelayCore, Steps, VecWords};
use crate::tests::kit::Fail;
use crate::words::shared_queue;

pub fn plain_queue(capacity: usize) -> Result<DelayCore<char, VecWords>, CoreError> {
    DelayCore::with_capacity(capacity)
}

// promise: core.numbers-out
#[test]
fn capacities_out_of_range() -> Result<(), Fail> {
    let bad = Some(CoreError::BadConfig);
    let capacities: &[usize] = &[0, 65537];
    for capacity in capacities {
        let plain = plain_queue(*capacity);
        let shared = shared_queue::<char>(*capacity);
        same(*capacity, (plain.err(), shared.err()), (bad, bad));
    }
    Ok(())
}

// promise: core.numbers-out
#[test]
fn numbers_out_of_range_are_named() -> Result<(), Fail> {
    let table: &[(usize, u32, Option<BadNumber>)] = &[
        (1, 1, None),
        (65536, 1048575, None),
        (0, 0, Some(BadNumber::BadCapacity(0))),
        (65537, 1, Some(BadNumber::BadCapacity(65537))),
        (65536, 0, Some(BadNumber::BadLastStamp(0))),
        (1, 1048576, Some(BadNumber::BadLastStamp(1048576))),
    ];
    for (capacity, last_stamp, bad) in table {
        let config = CoreConfig {
            shard: 0,
            capacity: *capacity,
            last_stamp: *last_stamp,
        };
        same("check", (config, config.check().err()), (config, *bad));
    }
    Ok(())
}

// Why no queue is made of that many words, and how many came back; None where one is made.
fn refusal(config: CoreConfig, rows: usize) -> Result<Option<(CoreError, usize)>, CoreError> {
    let words = VecWords::new(rows)?;
    let made: Result<DelayCore<char, VecWords>, (CoreError, VecWords)> = DelayCore::new(config, words);
    Ok(made.err().map(|refused| (refused.0, refused.1.rows())))
}

// A queue of those numbers is refused, or made.
fn refuses((capacity, last_stamp, rows): (usize, u32, usize), answer: Result<Option<(CoreError, usize)>, CoreError>) {
    let config = CoreConfig {
        shard: 0,
        capacity,
        last_stamp,
    };
    same(capacity, refusal(config, rows), answer);
}

// promise: core.numbers-out
#[test]
fn bad_configs() {
    let bad = CoreError::BadConfig;
    let refused: &[(usize, u32, usize)] = &[(0, 1, 1), (65537, 1, 65536), (4, 0, 4), (4, 1048576, 4), (4, 1, 3)];
    for numbers in refused {
        refuses(*numbers, Ok(Some((bad, numbers.2))));
    }
    refuses((65536, 1048575, 65536), Ok(None));
    for rows in &[0, 65537] {
        refuses((1, 1, *rows), Err(bad));
    }
}

fn moved<T: Send>(value: T) -> T {
    value
}

fn queue_of_one() -> Result<DelayCore<char, VecWords>, CoreError> {
    let config = CoreConfig {
        shard: 0,
        capacity: 1,
        last_stamp: 1,
    };
    let words = VecWords::new(1)?;
    DelayCore::new(config, words).map_err(|refused| refused.0)
}

fn inserts(queue: &mut DelayCore<char, VecWords>) {
    same("insert", queue.insert('v', 0).is_ok(), true);
}

// promise: core.numbers-out
#[test]
fn queue_and_words_are_send() -> Result<(), Fail> {
    inserts(&mut moved(queue_of_one()?));
    same("rows", moved(VecWords::new(2)?).rows(), 2);
    Ok(())
}
