//! The calls that take memory, a row for each: how many allocations it has, and which of them can't be refused.

use super::refusing::{refusing, used};
use hontkhale::parts::cache::TtlCache;
use hontkhale::parts::directory::{AddError, Clerk};
use hontkhale::parts::growing::{Cores, Folds, TakeError};
use hontkhale::parts::owner::{
    numbered_queue, CoreConfig, CoreError, DelayCore, Folded, Keeper, PlainQueue, Turn, WordsError, LAST_STAMP,
};
use hontkhale::parts::replay::{run, ReplayFault};
use hontkhale::parts::sessions::IdleSessions;
use hontkhale::parts::shards::{QueueConfig, QueueError, SharedDelayQueue};
use hontkhale::parts::wheel::WheelError;
use hontkhale::parts::AllocError;

#[derive(Clone, Copy, Debug, PartialEq)]
struct NoMemory;

// A call was accepted, or refused for want of memory.
type Answer = Result<(), NoMemory>;

// What a call answers for want of memory. It is refused for nothing else.
macro_rules! no_memory {
    ($($error:ty: $pattern:pat,)*) => {$(
        impl From<$error> for NoMemory {
            fn from(error: $error) -> NoMemory {
                assert!(matches!(error, $pattern), "{error:?}");
                NoMemory
            }
        }
    )*};
}

no_memory! {
    AllocError: AllocError,
    CoreError: CoreError::NoMemory,
    WheelError: WheelError::NoMemory,
    WordsError: WordsError::NoMemory,
    QueueError: QueueError::Core(CoreError::NoMemory),
    ReplayFault: ReplayFault::NoMemory,
    AddError: AddError::NoMemory,
}

// Makes a call of which the allocation behind so many is refused, drops what it answers, and tells how many it asked
// for.
fn asks<T, E: Into<NoMemory>>(grants: u64, call: impl FnOnce() -> Result<T, E>) -> (Answer, u64) {
    let (answer, asked) = refusing(grants, call);
    (answer.map(drop).map_err(E::into), asked)
}

type Boxes = SharedDelayQueue<Box<u64>>;

// A queue is unfolded, and where memory was refused it is unfolded once more: each slot goes on with its next stamp.
fn unfold(grants: u64) -> (Answer, u64) {
    let mut queue = DelayCore::with_capacity(4).expect("a queue");
    let first = queue.insert_or_drop(Box::new(1), 5).expect("a key");
    queue.remove(&first.entry()).expect("an entry");
    let tally = queue.tally();
    let folded = queue.fold().expect("an empty queue");
    let (unfolded, asked) = refusing(grants, || folded.unfold::<Box<u64>>());
    let answer = match &unfolded {
        Ok(_) => Ok(()),
        Err(_) => Err(NoMemory),
    };
    let mut queue = unfolded.or_else(Folded::unfold).expect("memory");
    assert_eq!((queue.capacity(), queue.tally()), (4, tally));
    for value in 0..4 {
        let key = queue.insert_or_drop(Box::new(value), 5).expect("a key");
        let was_used = key.entry().index() == first.entry().index();
        assert_eq!(key.stamp(), if was_used { 2 } else { 1 });
    }
    (answer, asked)
}

// A core that doesn't come in comes back, and comes in where there is memory.
fn core_taken_in(grants: u64) -> (Answer, u64) {
    let mut cores = Cores::new();
    let core = numbered_queue::<Box<u64>>(CoreConfig::of(4)).expect("a core");
    let (answer, asked) = refusing(grants, || cores.take_in(core));
    let answer = answer.map_err(|(error, core)| {
        assert_eq!((error, cores.count()), (TakeError::NoMemory, 0));
        assert!(cores.take_in(core).is_ok());
        NoMemory
    });
    assert!(cores.insert(Box::new(1), 5).0.is_ok());
    (answer, asked)
}

// A folded core that isn't kept comes back, and is kept where there is memory.
fn folded_core_kept(grants: u64) -> (Answer, u64) {
    let mut folds = Folds::new();
    let core = numbered_queue::<Box<u64>>(CoreConfig::of(4)).expect("a core");
    let folded = core.fold().expect("an empty core");
    let (answer, asked) = refusing(grants, || folds.keep(folded));
    let answer = answer.map_err(|folded| {
        assert!(folds.take(4).is_none());
        assert!(folds.keep(folded).is_ok());
        NoMemory
    });
    assert!(folds.take(4).is_some_and(|folded| folded.unfold::<Box<u64>>().is_ok()));
    (answer, asked)
}

fn handle_of_a_queue(grants: u64) -> (Answer, u64) {
    let queue = Boxes::new(QueueConfig::of(3, 4)).expect("a queue");
    let answer = asks(grants, || queue.handle().map(|handle| handle.give_back()));
    assert_eq!(queue.audit().map(|totals| totals.inserted), Ok(0), "no caller is out");
    answer
}

// A put is refused with its key and its value, and no key is kept more.
fn first_put(grants: u64) -> (Answer, u64) {
    put_behind(0, grants)
}

fn second_put(grants: u64) -> (Answer, u64) {
    put_behind(1, grants)
}

fn put_behind(keys: usize, grants: u64) -> (Answer, u64) {
    let mut cache: TtlCache<String, Box<u64>> = TtlCache::with_capacity(16).expect("a cache");
    for key in 0..keys {
        assert!(cache.put(key.to_string(), Box::new(0), 10, 0).is_ok());
    }
    let (key, value) = (String::from("a key"), Box::new(7));
    let (answer, asked) = refusing(grants, || cache.put(key, value, 10, 0));
    let answer = answer.map(drop).map_err(|(error, key, value)| {
        assert_eq!((key.as_str(), *value), ("a key", 7));
        NoMemory::from(error)
    });
    assert_eq!(cache.len(), keys + usize::from(answer.is_ok()));
    assert_eq!(cache.contains(&String::from("a key"), 5), answer.is_ok());
    (answer, asked)
}

// A refresh leaves what is seen, and gives a worn slot its stamps again where there is memory.
fn refresh_of_a_cache(grants: u64) -> (Answer, u64) {
    let mut cache: TtlCache<char, Box<u64>> = TtlCache::new(2, 2).expect("a cache");
    for value in 0..2 {
        assert!(cache.put('a', Box::new(value), 10, 0).is_ok());
    }
    let answer = asks(grants, || cache.refresh());
    assert_eq!(cache.get(&'a', 9).map(|value| **value), Some(1));
    assert_eq!(cache.renew(&'a', 10, 1).is_ok(), answer.0.is_ok());
    answer
}

// A login that is refused inserts nothing.
fn login(grants: u64) -> (Answer, u64) {
    let sessions = IdleSessions::new(QueueConfig::of(2, 1), 10).expect("sessions");
    let answer = asks(grants, || sessions.login(0, "ann", 0));
    let next = sessions.next_idle(0, 10).expect("a shard");
    assert_eq!(matches!(next, Turn::Out(_)), answer.0.is_ok());
    answer
}

// A thing that isn't added comes back, and its number is given to the next.
fn addition(grants: u64) -> (Answer, u64) {
    let mut clerk = Clerk::new(8).expect("a clerk");
    for number in 0..3 {
        assert_eq!(clerk.add(Box::new(number)), Ok(number));
    }
    let thing = Box::new(3);
    let (answer, asked) = refusing(grants, || clerk.add(thing));
    let answer = answer.map(|number| assert_eq!(number, 3)).map_err(|(error, thing)| {
        assert_eq!((*thing, clerk.given()), (3, 3));
        assert_eq!(clerk.directory().get(3), None);
        NoMemory::from(error)
    });
    let next = 3 + u32::from(answer.is_ok());
    assert_eq!(clerk.add(Box::new(next)), Ok(next));
    assert!((0..=next).all(|number| clerk.directory().get(number).is_some_and(|thing| **thing == number)));
    (answer, asked)
}

// A script ends between two answers.
fn script(grants: u64) -> (Answer, u64) {
    let answers = "a at 5\nb at 3\nb expired 3\ntick 4\na expired 5\ntick 9\n";
    let mut written = Vec::with_capacity(4_096);
    let mut reader = "delay 1\ninsert a 5\ninsert b 3\ntick 4\ntick 9\n".as_bytes();
    let answer = asks(grants, || run(&mut reader, &mut written, 4));
    assert!(answers.as_bytes().starts_with(&written));
    assert!(written.is_empty() || written.ends_with(b"\n"));
    assert_eq!(written.len() == answers.len(), answer.0.is_ok());
    answer
}

struct Row {
    name: &'static str,
    allocations: u64,
    // The places of those for which std ends the process: the counted cell around the words of a shard, and a key's
    // own clone.
    aborting: &'static [u64],
    makes: fn(grants: u64) -> (Answer, u64),
}

const ROWS: &[Row] = &[
    // Its cells, and of the free slots the small stack and the bits; the bits of those that wait for a drop, and of
    // the worn ones that do; the wheel's row; the words.
    Row {
        name: "a queue of one owner",
        allocations: 7,
        aborting: &[],
        makes: |grants| asks(grants, || DelayCore::<Box<u64>, _>::with_capacity(4)),
    },
    Row {
        name: "a queue of one owner, of many entries",
        allocations: 7,
        aborting: &[],
        makes: |grants| asks(grants, || DelayCore::<Box<u64>, _>::with_capacity(4_096)),
    },
    // The wheel's row and what the slots take: the words are there.
    Row {
        name: "an unfold",
        allocations: 6,
        aborting: &[],
        makes: unfold,
    },
    Row {
        name: "a core taken in",
        allocations: 1,
        aborting: &[],
        makes: core_taken_in,
    },
    Row {
        name: "a folded core kept",
        allocations: 1,
        aborting: &[],
        makes: folded_core_kept,
    },
    Row {
        name: "a queue over shared words",
        allocations: 8,
        aborting: &[1],
        makes: |grants| asks(grants, || numbered_queue::<Box<u64>>(CoreConfig::of(4))),
    },
    Row {
        name: "a keeper",
        allocations: 2,
        aborting: &[1],
        makes: |grants| asks(grants, || Keeper::new(4)),
    },
    Row {
        name: "the plain twin",
        allocations: 1,
        aborting: &[],
        makes: |grants| asks(grants, || PlainQueue::<Box<u64>>::new(4)),
    },
    // The row of shards, eight for each shard, and the row of who waits for their locks.
    Row {
        name: "a queue of one shard",
        allocations: 10,
        aborting: &[2],
        makes: |grants| asks(grants, || Boxes::new(QueueConfig::of(1, 4))),
    },
    Row {
        name: "a queue of three shards",
        allocations: 26,
        aborting: &[2, 10, 18],
        makes: |grants| asks(grants, || Boxes::new(QueueConfig::of(3, 4))),
    },
    Row {
        name: "a handle",
        allocations: 1,
        aborting: &[],
        makes: handle_of_a_queue,
    },
    Row {
        name: "a cache",
        allocations: 7,
        aborting: &[],
        makes: |grants| asks(grants, || TtlCache::<char, u64>::new(2, LAST_STAMP)),
    },
    // The copy of its key, and at first room in the map.
    Row {
        name: "a first put",
        allocations: 2,
        aborting: &[0],
        makes: first_put,
    },
    Row {
        name: "a second put",
        allocations: 1,
        aborting: &[0],
        makes: second_put,
    },
    Row {
        name: "a refresh",
        allocations: 7,
        aborting: &[],
        makes: refresh_of_a_cache,
    },
    Row {
        name: "sessions",
        allocations: 18,
        aborting: &[2, 10],
        makes: |grants| asks(grants, || IdleSessions::new(QueueConfig::of(2, 1), 10)),
    },
    Row {
        name: "a login",
        allocations: 1,
        aborting: &[],
        makes: login,
    },
    // The rows, and the counted cell around them.
    Row {
        name: "a directory",
        allocations: 2,
        aborting: &[1],
        makes: |grants| asks(grants, || Clerk::<Box<u64>>::new(8)),
    },
    Row {
        name: "an addition to a directory",
        allocations: 1,
        aborting: &[],
        makes: addition,
    },
    Row {
        name: "a script",
        allocations: 24,
        aborting: &[],
        makes: script,
    },
];

// Each allocation of a row is refused in turn. The call answers so, leaves everything as it was, and gives back what
// it took.
fn each_is_refused(row: &Row) {
    for grants in (0..=row.allocations).filter(|grants| !row.aborting.contains(grants)) {
        let before = used();
        let (answer, asked) = (row.makes)(grants);
        let expected = if grants < row.allocations {
            Err(NoMemory)
        } else {
            Ok(())
        };
        assert_eq!(answer, expected, "{}, behind {grants} grants of {asked}", row.name);
        assert_eq!(
            asked,
            row.allocations.min(grants + 1),
            "{}, behind {grants} grants",
            row.name
        );
        assert_eq!(used(), before, "{}, behind {grants} grants, leaks", row.name);
    }
}

// promise: core.fold growing.take-in growing.folds
#[test]
fn each_allocation_is_refused() {
    ROWS.iter().for_each(each_is_refused);
}
