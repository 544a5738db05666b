//! The worked cases of a queue and a handle: for each its name, the shards and the capacity of its fresh queue, and
//! its calls with their answers. A new case is a new entry here.

use super::keys::Answer::{
    Count, Given, Gone, Idle, Moved, NotDone, Out, Refused, Seen, Stands, Tallies, Tick, Until, Waiting,
};
use super::keys::Call::{
    Cancel, Deadline, Extend, FiledAt, Insert, Len, LookAt, Moves, NextWake, PlaceOf, Poll, Remove, Reset,
    TellTally,
};
use super::keys::Named::{Forged, Nth};
use super::keys::{Answer, Call, Part};
use crate::core::Look::{LookCancelled, LookExpired, StillLive};
use crate::core::{CallError, CoreError, Tally};
use crate::shards::QueueError;
use crate::wheels::Place;

/// A case: its name, the shards and the capacity of its fresh queue, and its calls.
pub type Case = (&'static str, usize, usize, &'static [(Call, Answer)]);

const LIMIT: u64 = 4398046511103;

const TOO_FAR: Answer = Refused(QueueError::Core(CoreError::TooFar { limit: LIMIT }));

const NO_SHARD: Answer = Refused(QueueError::Unknown);

const WAS_CANCELLED: Answer = Refused(QueueError::Core(CoreError::WasCancelled));

const UNKNOWN: Answer = NotDone(CallError::Unknown);

const STALE: Answer = NotDone(CallError::Stale { seen: 2 });

const ENDED: Answer = NotDone(CallError::Ended { how: LookCancelled });

/// What comes out, and when.
pub const OUTS: &[Case] = &[
    (
        "due_at_once",
        1,
        4,
        &[
            (Insert(0, 'v', 0), Given(0, 1, 1)),
            (Poll(0, 0), Out(0, 'v', 0, 0)),
        ],
    ),
    (
        "waits_then_out",
        1,
        4,
        &[
            (Insert(0, 'v', 64), Given(0, 1, 1)),
            (Poll(0, 63), Waiting(64)),
            (Poll(0, 64), Out(0, 'v', 64, 64)),
        ],
    ),
    (
        "two_levels",
        1,
        4,
        &[
            (Insert(0, 'v', 130), Given(0, 1, 1)),
            (
                PlaceOf(Nth(0)),
                Stands(Some(Place::InSlot { level: 1, slot: 2 })),
            ),
            (NextWake(0), Tick(Some(128))),
            (Poll(0, 128), Waiting(130)),
            (
                PlaceOf(Nth(0)),
                Stands(Some(Place::InSlot { level: 0, slot: 2 })),
            ),
            (Moves(0), Moved(1)),
            (Poll(0, 130), Out(0, 'v', 130, 130)),
        ],
    ),
    (
        "exact_slot_start",
        1,
        4,
        &[
            (Insert(0, 'v', 4096), Given(0, 1, 1)),
            (
                PlaceOf(Nth(0)),
                Stands(Some(Place::InSlot { level: 2, slot: 1 })),
            ),
            (Poll(0, 4095), Waiting(4096)),
            (Poll(0, 4096), Out(0, 'v', 4096, 4096)),
            (Moves(0), Moved(0)),
        ],
    ),
    (
        "three_in_order",
        1,
        4,
        &[
            (Insert(0, 'a', 5), Given(0, 1, 1)),
            (Insert(0, 'b', 70), Given(0, 1, 1)),
            (Insert(0, 'c', 5000), Given(0, 1, 1)),
            (Poll(0, 10000), Out(0, 'a', 5, 10000)),
            (Poll(0, 10000), Out(1, 'b', 70, 10000)),
            (Poll(0, 10000), Out(2, 'c', 5000, 10000)),
            (Poll(0, 10000), Idle),
            (Moves(0), Moved(3)),
        ],
    ),
    (
        "moves_counted",
        1,
        4,
        &[
            (Insert(0, 'v', 68719476735), Given(0, 1, 1)),
            (Poll(0, 68719476735), Out(0, 'v', 68719476735, 68719476735)),
            (Moves(0), Moved(5)),
        ],
    ),
    (
        "last_tick_and_beyond",
        1,
        4,
        &[
            (Insert(0, 'v', 68719476735), Given(0, 1, 1)),
            (
                PlaceOf(Nth(0)),
                Stands(Some(Place::InSlot { level: 5, slot: 63 })),
            ),
            (NextWake(0), Tick(Some(67645734912))),
            (Insert(0, 'w', 68719476736), Given(0, 1, 1)),
            (FiledAt(Nth(1)), Tick(Some(68719476735))),
            (Insert(0, 'x', 4398046511104), TOO_FAR),
        ],
    ),
    (
        "at_one_lap",
        1,
        4,
        &[
            (Poll(0, 68719476735), Idle),
            (Insert(0, 'v', 68719476736), Given(0, 1, 1)),
            (
                PlaceOf(Nth(0)),
                Stands(Some(Place::InSlot { level: 5, slot: 0 })),
            ),
            (NextWake(0), Tick(Some(68719476736))),
        ],
    ),
    // It is filed short of its deadline, and again when it comes due there.
    (
        "beyond_one_lap",
        1,
        4,
        &[
            (Poll(0, 5), Idle),
            (Insert(0, 'w', 69793218560), Given(0, 1, 1)),
            (FiledAt(Nth(0)), Tick(Some(68719476740))),
            (NextWake(0), Tick(Some(68719476736))),
            (Poll(0, 69793218559), Waiting(69793218560)),
            (Poll(0, 69793218560), Out(0, 'w', 69793218560, 69793218560)),
            (Moves(0), Moved(1)),
        ],
    ),
];

/// What a handle does beside the queue's calls.
pub const BY_HANDLE: &[Case] = &[
    (
        "extend_postpones",
        1,
        4,
        &[
            (Insert(0, 'a', 10), Given(0, 1, 1)),
            (Extend(Nth(0), 50), Until(50)),
            (LookAt(Nth(0)), Seen(StillLive(50))),
            (Poll(0, 10), Waiting(50)),
            (Poll(0, 50), Out(0, 'a', 50, 50)),
            (LookAt(Nth(0)), Seen(LookExpired(50))),
        ],
    ),
    (
        "extend_never_lowers",
        1,
        4,
        &[
            (Insert(0, 'a', 10), Given(0, 1, 1)),
            (Extend(Nth(0), 4), Until(10)),
            (LookAt(Nth(0)), Seen(StillLive(10))),
        ],
    ),
    (
        "reset_makes_old_key_stale",
        1,
        4,
        &[
            (Insert(0, 'a', 1000), Given(0, 1, 1)),
            (Reset(Nth(0), 20), Given(0, 1, 2)),
            (Extend(Nth(0), 2000), STALE),
            (Poll(0, 20), Out(1, 'a', 20, 20)),
        ],
    ),
    (
        "cancelled_is_reaped",
        1,
        4,
        &[
            (Insert(0, 'a', 10), Given(0, 1, 1)),
            (Cancel(Nth(0)), Until(10)),
            (Cancel(Nth(0)), ENDED),
            (Len(0), Count(1)),
            (Remove(Nth(0)), WAS_CANCELLED),
            (Deadline(Nth(0)), WAS_CANCELLED),
            (Reset(Nth(0), 30), WAS_CANCELLED),
            (Poll(0, 10), Idle),
            (
                TellTally(0),
                Tallies(Tally {
                    inserted: 1,
                    expired: 0,
                    removed: 0,
                    cancelled: 1,
                    linked: 0,
                    moves: 0,
                }),
            ),
        ],
    ),
    // The cancelled entry is still linked, and no cancel is counted before it is reaped.
    (
        "one_of_each_ending",
        1,
        4,
        &[
            (Insert(0, 'a', 10), Given(0, 1, 1)),
            (Insert(0, 'b', 20), Given(0, 1, 1)),
            (Insert(0, 'c', 30), Given(0, 1, 1)),
            (Poll(0, 10), Out(0, 'a', 10, 10)),
            (Remove(Nth(1)), Gone(1, 'b', 20)),
            (Cancel(Nth(2)), Until(30)),
            (
                TellTally(0),
                Tallies(Tally {
                    inserted: 3,
                    expired: 1,
                    removed: 1,
                    cancelled: 0,
                    linked: 1,
                    moves: 0,
                }),
            ),
            (Len(0), Count(1)),
        ],
    ),
    (
        "reused_slot_is_stale",
        1,
        1,
        &[
            (Insert(0, 'a', 10), Given(0, 1, 1)),
            (Poll(0, 10), Out(0, 'a', 10, 10)),
            (Insert(0, 'b', 20), Given(0, 2, 2)),
            (LookAt(Nth(0)), STALE),
            (Extend(Nth(0), 99), STALE),
            (Cancel(Nth(0)), STALE),
        ],
    ),
    (
        "forged_keys",
        1,
        4,
        &[
            (Insert(0, 'a', 10), Given(0, 1, 1)),
            (Extend(Forged(0, Part::Index(9)), 50), UNKNOWN),
            (Extend(Forged(0, Part::Stamp(0)), 50), UNKNOWN),
            (Extend(Forged(0, Part::Shard(5)), 50), UNKNOWN),
            (Cancel(Forged(0, Part::Shard(5))), UNKNOWN),
            (LookAt(Forged(0, Part::Shard(5))), UNKNOWN),
            (Extend(Forged(0, Part::Index(9)), 68719476736), UNKNOWN),
            (
                Extend(Forged(0, Part::Index(9)), 4398046511104),
                NotDone(CallError::TooFar { limit: LIMIT }),
            ),
            (
                Extend(Forged(0, Part::Shard(5)), 4398046511104),
                NotDone(CallError::TooFar { limit: LIMIT }),
            ),
            (LookAt(Nth(0)), Seen(StillLive(10))),
        ],
    ),
    // Refused as a shard that isn't there before all else: the tick 68719476736 is no reason here, nor is one beyond
    // the last.
    (
        "shards_and_routes",
        3,
        1,
        &[
            (Insert(7, 'v', 5), Given(1, 1, 1)),
            (Insert(6, 'w', 5), Given(0, 1, 1)),
            (Extend(Nth(0), 9), Until(9)),
            (LookAt(Nth(0)), Seen(StillLive(9))),
            (LookAt(Nth(1)), Seen(StillLive(5))),
            (Poll(1, 5), Waiting(9)),
            (Poll(0, 5), Out(1, 'w', 5, 5)),
            (Poll(3, 0), NO_SHARD),
            (Reset(Forged(0, Part::Shard(3)), 68719476736), NO_SHARD),
            (Reset(Forged(0, Part::Shard(3)), 4398046511104), NO_SHARD),
            (Len(3), NO_SHARD),
        ],
    ),
];
