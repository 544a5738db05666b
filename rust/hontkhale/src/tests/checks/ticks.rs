//! The digits of ticks, the readers of keys and entries, and packed words: what each is, and what keys print.

use super::same;
use crate::tests::kit::Fail;
use crate::ticks::{
    digit, field, is_live, is_same_entry, is_same_key, level_of, live_at, pack, slot_start, span, stamp, unpack,
    EntryId, Key, Mark, Parts, LAST_FIELD, LAST_STAMP, LAST_TICK,
};

// A tick, a later tick, and the level, the slot and the slot's start at which the second stands, seen from the
// first.
const PLACES: &[(u64, u64, usize, u64, u64)] = &[
    (0, 63, 0, 63, 63),
    (0, 64, 1, 1, 64),
    (63, 64, 1, 1, 64),
    (64, 127, 0, 63, 127),
    (64, 128, 1, 2, 128),
    (100, 150, 1, 2, 128),
    (4095, 4096, 2, 1, 4096),
    (10, 5000, 2, 1, 4096),
    (4096, 5000, 1, 14, 4992),
    (4992, 5000, 0, 8, 5000),
    (0, 68719476735, 5, 63, 67645734912),
    (68719476735, 68719476736, 5, 0, 68719476736),
    (5, 68719476740, 5, 0, 68719476736),
];

/// The level, the slot and the slot's start at which a tick stands, seen from an earlier one. None where it is the
/// same tick.
pub fn seen_from(tick: u64, filed: u64) -> Option<(usize, u64, u64)> {
    assert!(tick <= filed && filed <= LAST_TICK, "{filed} at {tick}");
    match level_of(tick, filed) {
        None => None,
        Some(level) => {
            let slot = digit(filed, level);
            Some((level, slot, slot_start(tick, level, slot)))
        }
    }
}

// promise: ticks.digit-seven
#[test]
fn place_table() {
    for (row, (tick, filed, level, slot, start)) in PLACES.iter().enumerate() {
        let seen = seen_from(*tick, *filed);
        same(row, seen, Some((*level, *slot, *start)));
    }
}

// promise: ticks.level-of-highest
#[test]
fn equal_ticks_have_no_level() {
    same("first", level_of(0, 0), None);
    same("last", level_of(LAST_TICK, LAST_TICK), None);
}

// promise: ticks.level-of-highest
#[test]
fn top_level_is_the_highest() {
    same("level", level_of(0, LAST_TICK), Some(5));
    same("digit", digit(LAST_TICK, 5), 63);
    // 4095 spans lie behind the last tick, so the next with its digit begins 64 spans later.
    same("start", slot_start(LAST_TICK, 5, 63), 4159 * 1073741824);
}

// promise: ticks.span
#[test]
fn spans_grow_by_64() {
    let spans = [span(0), span(1), span(2), span(3), span(4), span(5)];
    same("spans", spans, [1, 64, 4096, 262144, 16777216, 1073741824]);
}

// A shard, an index, and the stamps of a birth and of a key.
const PARTS: &[(u32, u32, u32, u32)] = &[
    (0, 0, 0, 0),
    (1, 2, 3, 4),
    (u32::MAX, 0, u32::MAX, 0),
    (0, u32::MAX, 0, u32::MAX),
];

// promise: ticks.readers-keys
#[test]
fn readers_give_what_was_given() {
    for (row, (shard, index, born, stamp)) in PARTS.iter().enumerate() {
        let id = EntryId::new(*shard, *index, *born);
        let key = Key::new(id, *stamp);
        same(
            row,
            (id.shard(), id.index(), id.born(), key.entry(), key.stamp()),
            (*shard, *index, *born, id, *stamp),
        );
    }
}

// The parts of another key than that of shard 1, index 2, birth 3 and stamp 4, and whether its entry is the same, and
// the key.
const OTHERS: &[(u32, u32, u32, u32, bool, bool)] = &[
    (1, 2, 3, 4, true, true),
    (9, 2, 3, 4, false, false),
    (1, 9, 3, 4, false, false),
    (1, 2, 9, 4, false, false),
    (1, 2, 3, 9, true, false),
];

// By the calls and by the derived `==`: whether the entries are one, and the keys.
fn sameness(one: Key, other: Key) -> [bool; 4] {
    [
        is_same_entry(one.entry(), other.entry()),
        one.entry() == other.entry(),
        is_same_key(one, other),
        one == other,
    ]
}

// promise: ticks.readers-keys
#[test]
fn keys_differ_by_each_part() {
    let key = Key::new(EntryId::new(1, 2, 3), 4);
    for (row, (shard, index, born, stamp, entry, whole)) in OTHERS.iter().enumerate() {
        let other = Key::new(EntryId::new(*shard, *index, *born), *stamp);
        same(row, sameness(key, other), [*entry, *entry, *whole, *whole]);
    }
}

// promise: ticks.prints-key
#[test]
fn keys_print_their_readers() -> Result<(), Fail> {
    let key = Key::new(EntryId::new(1, 2, 3), 4);
    let text = format!("{key:?}");
    let readers = "Key { entry: EntryId { shard: 1, index: 2, born: 3 }, stamp: 4 }";
    same("key", text.as_str(), readers);
    Ok(())
}

// A stamp, a mark, a field, and their word.
const WORDS: [(u32, Mark, u64, u64); 8] = [
    (0, Mark::LiveMark, 0, 0x0000_0000_0000_0000),
    (1, Mark::LiveMark, 10, 0x0000_1000_0000_000a),
    (1, Mark::CancelledMark, 0, 0x0000_1400_0000_0000),
    (1, Mark::ExpiredMark, 10, 0x0000_1800_0000_000a),
    (1, Mark::RemovedMark, 10, 0x0000_1c00_0000_000a),
    (2, Mark::LiveMark, 20, 0x0000_2000_0000_0014),
    (1048575, Mark::RemovedMark, 4398046511103, 0xffff_ffff_ffff_ffff),
    (1048575, Mark::LiveMark, 0, 0xffff_f000_0000_0000),
];

// promise: ticks.pack-makes
#[test]
fn packed_vector() {
    let parts = Parts {
        stamp: 1,
        mark: Mark::LiveMark,
        field: 10,
    };
    same("pack", pack(parts), 17592186044426);
    same("unpack", unpack(17592186044426), parts);
}

// promise: ticks.pack-makes
#[test]
fn word_table_both_ways() {
    for (stamp, mark, field, word) in WORDS {
        assert!(stamp <= LAST_STAMP && field <= LAST_FIELD);
        let parts = Parts { stamp, mark, field };
        same(word, (pack(parts), unpack(word)), (word, parts));
    }
}

// A word is live at its own stamp alone, where it is live at all. Each stamp that is asked for stands beside the
// answer.
fn is_live_at_its_stamp(word: u64, of: u32, deadline: Option<u64>) {
    for asked in [0, 1, 2, LAST_STAMP] {
        let expected = if asked == of { deadline } else { None };
        same(word, (asked, live_at(word, asked)), (asked, expected));
    }
}

// promise: ticks.stamp-field
#[test]
fn parts_one_by_one() {
    for (of, mark, when, word) in WORDS {
        let live = mark == Mark::LiveMark;
        let parts = (stamp(word), field(word), is_live(word));
        same(word, parts, (of, when, live));
        is_live_at_its_stamp(word, of, if live { Some(when) } else { None });
    }
}
