//! The row of plain words by itself, without a queue above it.

use crate::tests::kit::Fail;
use super::same;
use crate::core::{CallError, CoreError, Look, Settled, Steps, VecWords};
use crate::ticks::{EntryId, Key};

// The key of an entry of shard 0 that was born at stamp 1.
fn key(index: u32, stamp: u32) -> Key {
    Key::new(EntryId::new(0, index, 1), stamp)
}

// A row of one word, which is live at its first stamp until tick 10.
fn one_word() -> Result<VecWords, CoreError> {
    let mut words = VecWords::new(1)?;
    words.begin(0, 1, 10);
    Ok(words)
}

fn looks(words: &VecWords, key: &Key, answer: Result<Look, CallError>) {
    same("look", words.look_key(key), answer);
}

// No call by a key that was never given out is taken.
fn refuses_forged(words: &mut VecWords, forged: &Key) {
    let unknown = CallError::Unknown;
    let too_far = CallError::TooFar {
        limit: 4398046511103,
    };
    same(
        "extend",
        words.extend(forged, 68719476736),
        Err(unknown),
    );
    same(
        "extend",
        words.extend(forged, 4398046511104),
        Err(too_far),
    );
    same("cancel", words.cancel(forged), Err(unknown));
    looks(words, forged, Err(unknown));
}

// A live word is extended to the last tick, and not beyond it.
fn extends_to_the_last_tick(words: &mut VecWords) {
    let first = key(0, 1);
    let too_far = CallError::TooFar {
        limit: 4398046511103,
    };
    same(
        "extend",
        words.extend(&first, 4398046511104),
        Err(too_far),
    );
    same(
        "extend",
        words.extend(&first, 4398046511103),
        Ok(4398046511103),
    );
    looks(words, &first, Ok(Look::StillLive(4398046511103)));
}

fn limits(words: &mut VecWords) {
    for (index, stamp) in &[(9, 1), (0, 0), (0, 9)] {
        refuses_forged(words, &key(*index, *stamp));
    }
    extends_to_the_last_tick(words);
}

// promise: known.row-limits
#[test]
fn plain_words_limits() -> Result<(), Fail> {
    limits(&mut one_word()?);
    Ok(())
}

// A settle wants the word as it stands. So what an answer tells of it is matched in this body.
// promise: known.word-changes
#[test]
fn plain_words_end_once() -> Result<(), Fail> {
    let mut words = VecWords::new(1)?;
    let first = key(0, 1);
    words.begin(0, 1, 10);
    let Ok(until) = words.extend(&first, 50) else {
        panic!("it was live")
    };
    same("extend", until, 50);
    let Settled::Later(later) = words.settle(0, 1, 10) else {
        panic!("the extend was lost")
    };
    same("settle", later, 50);
    let Settled::SettledExpired = words.settle(0, 1, 50) else {
        panic!("it was due")
    };
    let how = Look::LookExpired(50);
    let ended = Err(CallError::Ended { how });
    looks(&words, &first, Ok(how));
    same("extend", words.extend(&first, 60), ended);
    same("cancel", words.cancel(&first), ended);
    words.begin(0, 2, 60);
    let stale = CallError::Stale { seen: 2 };
    looks(&words, &first, Err(stale));
    same("cancel", words.cancel(&first), Err(stale));
    let Ok(given_up) = words.cancel(&key(0, 2)) else {
        panic!("it was live")
    };
    same("cancel", given_up, 60);
    let Settled::SettledCancelled = words.settle(0, 2, 60) else {
        panic!("it was cancelled")
    };
    Ok(())
}
