//! What is asked of all shards: how many keys there are, their names, and what they take.

use super::{Keyspace, Name, Shard, SHARDS};
use crate::clock::Tick;

/// How many bytes of names a call tells: more only of one name.
const WALKED_BYTES: usize = 64 << 10;
/// The bits of a position that tell a place in a shard.
const PLACE_BITS: u32 = 32;
/// A place that is above all.
const TOP: usize = (1 << PLACE_BITS) - 1;

/// What is held, what is over and not yet taken off among it.
#[derive(Default)]
pub struct Held {
    pub keys: usize,
    pub expires: usize,
    pub bytes: usize,
    /// The keys that were taken off at their deadlines so far.
    pub expired: u64,
    /// By how many milliseconds the oldest deadline is over that isn't taken out.
    pub late: Tick,
}

impl Keyspace {
    /// The number of live keys. Each shard is counted by itself, without its lock where no key ends in it.
    pub fn count(&self) -> usize {
        self.take_off_all();
        self.shards.iter().map(Shard::count).sum()
    }

    /// The names of live keys that fit, each shard's by themselves, none where there are too many.
    pub fn names(&self, is_fit: impl Fn(&[u8]) -> bool, most: usize) -> Option<Vec<Name>> {
        let (now, mut all) = (self.clock.now(), Vec::new());
        self.take_off_all();
        for shard in &self.shards {
            let names = shard.read();
            let told = names.records.iter().filter(|(name, record)| is_fit(name) && self.life(record, now).is_some());
            all.extend(told.map(|(name, _)| name.clone()).take(most + 1 - all.len()));
            if all.len() > most {
                return None;
            }
        }
        Some(all)
    }

    /// About so many names of live keys from a position on, and the position to go on from, 0 behind the last. A name
    /// that stays is told by one of the calls, whatever comes and goes meanwhile: a shard is told from its last place
    /// down, and what moves goes from its last place to a lower one.
    pub fn names_from(&self, position: u64, count: usize) -> (u64, Vec<Name>) {
        let (now, first) = (self.clock.now(), (position >> PLACE_BITS) as usize);
        let mut place = if position == 0 { TOP } else { position as usize & TOP };
        let (mut told, mut bytes) = (Vec::new(), 0);
        self.take_off_all();
        for shard in first..SHARDS {
            let names = self.shards[shard].read();
            place = place.min(names.records.len());
            while place > 0 {
                if told.len() == count || bytes > WALKED_BYTES {
                    return ((shard as u64) << PLACE_BITS | place as u64, told);
                }
                place -= 1;
                let (name, record) = names.records.get_index(place).expect("it is below their number");
                if self.life(record, now).is_some() {
                    bytes += name.len();
                    told.push(name.clone());
                }
            }
            place = TOP;
        }
        (0, told)
    }

    /// What the shards hold, each told by itself. It takes nothing out.
    pub fn held(&self) -> Held {
        let stats = self.queue.stats();
        let mut held = Held { expires: stats.waiting, late: stats.late.as_millis() as Tick, ..Held::default() };
        for names in self.shards.iter().map(Shard::read) {
            held.keys += names.records.len();
            held.bytes += names.bytes;
            held.expired += names.expired;
        }
        held
    }
}
