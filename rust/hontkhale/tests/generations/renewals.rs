//! A queue that goes on for years: it is renewed over fresh words each time that its slots are worn.

use super::Fail;
use hontkhale::parts::owner::{CoreConfig, CoreError, DelayCore, Keeper, Key, RenewError, VecWords};

// The slots of a queue.
const CAPACITY: usize = 2;

// How many generations ago the eldest key is of that is asked for.
const KEPT: usize = 8;

macro_rules! renewed {
    ($words:ident, $lasts:ident) => {
        // Generations of a queue of two slots over these words.
        mod $lasts {
            use super::*;

            type Queue = DelayCore<String, $words>;

            // A renewal under that number, over so many fresh words, answers so.
            fn renews(queue: &mut Queue, number: u32, rows: usize, answer: Result<(), RenewError>) -> Result<(), Fail> {
                let renewed = queue.renew(number, $words::new(rows)?);
                assert_eq!(
                    renewed.map(drop).map_err(|(error, _words)| error),
                    answer,
                    "{rows} words for {number}"
                );
                Ok(())
            }

            // The owner finds nothing by a key.
            fn is_unknown(queue: &mut Queue, key: &Key) {
                let entry = key.entry();
                assert_eq!(queue.reset(&entry, 9), Err(CoreError::Missing), "reset");
                assert_eq!(queue.remove(&entry).err(), Some(CoreError::Missing), "remove");
                assert_eq!(queue.deadline(&entry), Err(CoreError::Missing), "deadline");
                assert_eq!(queue.place(&entry), None, "place");
            }

            // Uses every stamp of a queue, so that all of its slots are worn, and answers the last key that it gave.
            fn wear(queue: &mut Queue, last_stamp: u32) -> Result<Key, Fail> {
                let mut last = None;
                for turn in 0..CAPACITY as u64 * u64::from(last_stamp) {
                    let key = queue.insert_or_drop(turn.to_string(), turn)?;
                    let removed = queue.remove(&key.entry())?;
                    assert_eq!(
                        (removed.key, removed.value),
                        (key, turn.to_string()),
                        "remove {turn}"
                    );
                    last = Some(key);
                }
                let full = CoreError::Full {
                    linked: 0,
                    worn: CAPACITY,
                };
                assert_eq!(
                    queue.insert_or_drop(String::new(), 0),
                    Err(full),
                    "insert where all is worn"
                );
                Ok(last.ok_or("no stamp")?)
            }

            // One generation: the queue is worn out, is renewed, and knows no old key.
            fn generation(queue: &mut Queue, last_stamp: u32, old: &mut Vec<Key>) -> Result<(), Fail> {
                old.push(wear(queue, last_stamp)?);
                let number = queue.shard();
                renews(queue, number, CAPACITY, Err(RenewError::UsedNumber { number }))?;
                renews(queue, number + 1, CAPACITY + 1, Err(RenewError::WrongRows))?;
                renews(queue, number + 1, CAPACITY, Ok(()))?;
                assert_eq!(
                    (queue.shard(), queue.worn(), queue.len()),
                    (number + 1, 0, 0),
                    "renewed"
                );
                if old.len() > KEPT {
                    old.remove(0);
                }
                old.iter().for_each(|key| is_unknown(queue, key));
                Ok(())
            }

            /// So many generations, and no renewal while an entry is linked.
            pub fn so_often(last_stamp: u32, count: u32) -> Result<(), Fail> {
                let config = CoreConfig {
                    shard: 0,
                    capacity: CAPACITY,
                    last_stamp,
                };
                let mut queue = Queue::new(config, $words::new(CAPACITY)?).map_err(|(error, _words)| error)?;
                let mut old = Vec::new();
                for _ in 0..count {
                    generation(&mut queue, last_stamp, &mut old)?;
                }
                assert_eq!(queue.shard(), count, "generations");
                let key = queue.insert_or_drop("held".to_string(), 7)?;
                renews(
                    &mut queue,
                    count + 1,
                    CAPACITY,
                    Err(RenewError::StillLinked { linked: 1 }),
                )?;
                assert_eq!(
                    queue.deadline(&key.entry()),
                    Ok(7),
                    "the deadline of what is linked"
                );
                Ok(())
            }
        }
    };
}

renewed!(VecWords, plain);
renewed!(Keeper, shared);

// promise: renew.keys-callers
#[test]
fn plain_words_last() -> Result<(), Fail> {
    plain::so_often(1, 100_000)?;
    plain::so_often(2, 50_000)?;
    plain::so_often(3, 50_000)
}

// promise: renew.keys-callers
#[test]
fn shared_words_last() -> Result<(), Fail> {
    shared::so_often(1, 40_000)?;
    shared::so_often(2, 20_000)?;
    shared::so_often(3, 20_000)
}

// A loop of one slot's worth goes on past the last stamp there is.
// promise: renew.slot-takes
#[test]
fn three_million_inserts_go_on() -> Result<(), Fail> {
    let mut queue: DelayCore<u64, VecWords> = DelayCore::with_capacity(1)?;
    let mut renewals = 0;
    for turn in 0..3_000_000 {
        if queue.worn() == 1 {
            renewals += 1;
            queue
                .renew(renewals, VecWords::new(1)?)
                .map_err(|(error, _words)| error)?;
        }
        let key = queue.insert_or_drop(turn, turn)?;
        assert_eq!(queue.remove(&key.entry())?.value, turn, "remove");
    }
    assert_eq!(renewals, 2, "renewals");
    Ok(())
}
