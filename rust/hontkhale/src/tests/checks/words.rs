use crate::tests::kit::Fail;
use super::same;
use crate::core::{CallError, Look, Steps};
use crate::ticks::{CAPACITY_LIMIT, EntryId, Key, LAST_TICK};
use crate::words::{Caller, Keeper, WordsError};

// The key of an entry of shard 0 that was born at stamp 1.
fn key(index: u32, stamp: u32) -> Key {
    Key::new(EntryId::new(0, index, 1), stamp)
}

fn extends(
    caller: &mut Caller,
    key: &Key,
    when: u64,
    answer: Result<u64, CallError>,
) {
    same("extend", caller.extend(key, when), answer);
}

fn looks(caller: &mut Caller, key: &Key, answer: Result<Look, CallError>) {
    same("look", caller.look(key), answer);
}

// A live word is ended as its keeper is dropped, at the deadline in force, and its caller is told.
// promise: words.keeper-drop
#[test]
fn a_dropped_keeper_ends_its_live_words() -> Result<(), Fail> {
    let mut keeper = Keeper::new(1)?;
    let mut caller = keeper.issue()?;
    keeper.begin(0, 1, 10);
    extends(&mut caller, &key(0, 1), 50, Ok(50));
    drop(keeper);
    let how = Look::LookRemoved(50);
    looks(&mut caller, &key(0, 1), Ok(how));
    extends(
        &mut caller,
        &key(0, 1),
        60,
        Err(CallError::Ended { how }),
    );
    same("cancels", caller.give_back(), 0);
    Ok(())
}

// promise: known.row-limits words.caller-takes
#[test]
fn bad_configs() -> Result<(), Fail> {
    let capacities: &[usize] = &[0, 65537];
    for capacity in capacities {
        let made = Keeper::new(*capacity).err();
        same(*capacity, made, Some(WordsError::BadConfig));
    }
    let keeper = Keeper::new(CAPACITY_LIMIT)?;
    same("rows", keeper.rows(), 65536);
    Ok(())
}

// By open words an extend and a cancel make one load and one atomic step, a look one load, and what the key or the deadline
// refuses by itself makes none.
// promise: words.open-steps
#[test]
#[cfg(feature = "std")]
fn a_call_by_open_words_makes_one_load_and_at_most_one_step() -> Result<(), Fail> {
    use crate::words::table::counted::counting;

    let mut keeper = Keeper::new(1)?;
    let words = keeper.open()?;
    keeper.begin(0, 1, 10);
    let unknown = Err(CallError::Unknown);
    let extends: &[(&str, Key, u64, Result<u64, CallError>, (usize, usize))] = &[
        ("too far", key(0, 1), LAST_TICK + 1, Err(CallError::TooFar { limit: LAST_TICK }), (0, 0)),
        ("no such slot", key(1, 1), 20, unknown, (0, 0)),
        ("no stamp", key(0, 0), 20, unknown, (0, 0)),
        ("a stamp to come", key(0, 2), 20, unknown, (1, 0)),
        ("later", key(0, 1), 20, Ok(20), (1, 1)),
        ("sooner", key(0, 1), 15, Ok(20), (1, 1)),
    ];
    for (case, key, when, answer, made) in extends {
        same(case, counting(|| words.extend(key, *when)), (*answer, *made));
    }
    same("a look", counting(|| words.look(&key(0, 1))), (Ok(Look::StillLive(20)), (1, 0)));
    let how = Look::LookCancelled;
    let ended = Err(CallError::Ended { how });
    let cancels: &[(&str, Key, Result<u64, CallError>, (usize, usize))] = &[
        ("no such slot", key(1, 1), unknown, (0, 0)),
        ("a stamp to come", key(0, 2), unknown, (1, 0)),
        ("a cancel", key(0, 1), Ok(20), (1, 1)),
        ("a second one", key(0, 1), ended, (1, 1)),
    ];
    for (case, key, answer, made) in cancels {
        same(case, counting(|| words.cancel(key)), (*answer, *made));
    }
    same("an extend of what was cancelled", counting(|| words.extend(&key(0, 1), 30)), (ended, (1, 1)));
    same("a look at it", counting(|| words.look(&key(0, 1))), (Ok(how), (1, 0)));
    Ok(())
}
