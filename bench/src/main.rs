//! `peers time ROW ENTRIES THREADS ROUNDS [PEER..]`: times what servers use now in place of the shared delay queue.
//! One line for each peer and round; README.md says what stands in it.

#[cfg(feature = "rust")]
mod adapter;
#[cfg(feature = "rust")]
mod beside;
mod best;
#[cfg(feature = "rust")]
mod by_hand;
#[cfg(feature = "rust")]
mod erased;
#[cfg(feature = "rust")]
mod erased_shards;
#[cfg(feature = "rust")]
mod fair;
mod floor;
mod free;
#[cfg(feature = "rust")]
mod goals;
#[cfg(feature = "rust")]
mod growing;
mod hashed;
mod heap;
mod indexed;
#[cfg(feature = "rust")]
mod life;
mod lives;
mod longest;
mod plan;
#[cfg(feature = "rust")]
mod product;
mod queue;
mod rows;
mod shards;
mod sleep;
#[cfg(feature = "rust")]
mod stream;
#[cfg(feature = "rust")]
mod table;
#[cfg(feature = "rust")]
mod through;
mod tokio_queue;

use std::process::ExitCode;
use std::sync::atomic::AtomicU64;

#[cfg(feature = "rust")]
use adapter::{Adapter, Touching};
use best::BestHeap;
#[cfg(feature = "rust")]
use by_hand::ByHand;
#[cfg(feature = "rust")]
use erased::Erased;
#[cfg(feature = "rust")]
use erased_shards::ErasedShards;
use floor::{Floor, LastHeard};
use hashed::HashedWheel;
use heap::{Extending, HeapQueue};
use indexed::IndexedHeap;
use lives::Life;
use longest::Touched;
use plan::{passes, shard_room, LARGEST, LARGEST_CORE};
#[cfg(feature = "rust")]
use product::{By, Product, Standing};
use queue::{Locked, Queue, Sharded, Shared};
use rows::{Clock, Counts, Load, NoClock, Row, Sample};
use shards::{Call, Route, ShardLoad, Shards};
use sleep::SleepQueue;
#[cfg(feature = "rust")]
use stream::Stream;
use tokio_queue::{PausedClock, TokioQueue, TurnedWithin};

const USAGE: &str = "usage: peers time ROW ENTRIES THREADS ROUNDS [PEER..]
rows: insert extend touch reset remove cancel poll rest insert-new insert-room
insert+poll reset+poll remove+poll mixed churn heartbeat callers,
longest-extend longest-reset longest-cancel,
and over 1 to 64 shards insert/SHARDS extend/SHARDS reset/SHARDS remove/SHARDS poll/SHARDS insert-burst/SHARDS poll-burst/SHARDS
and whole lives insert+poll/SHARDS reset+poll/SHARDS remove+poll/SHARDS mixed/SHARDS churn/SHARDS heartbeat/SHARDS
and of servers fixed/SHARDS zipf/SHARDS requests/SHARDS;
with own- before all of these but the bursts, each of as many threads has a shard of its own
entries: 1 to 1048576, of each shard; threads: 1, and 1 to 64 for callers and over shards; rounds: with 0 it tells the row's peers
       peers beside ENTRIES ROUNDS, where it was built with our crates: a poll in pieces beside another thread's inserts
       peers fair ENTRIES ROUNDS, likewise: what these inserts wait, for some ways to be fair
       peers queue ENTRIES THREADS ROUNDS, likewise: a table of `DelayQueue` beside what it is made of and beside its peers
       peers goals ENTRIES THREADS ROUNDS, likewise: what the goals of `DelayQueue` compare; peers memory ENTRIES: what an entry takes
       peers growing ENTRIES ROUNDS, likewise: a queue of one owner that grows and shrinks, while so many entries stand
       peers life ENTRIES SHARDS, likewise: lives in one `DelayQueue`, while so many entries stand
       peers life-beside ENTRIES ROUNDS, likewise: the same beside the best heap behind a lock";

/// What is timed: a row of one queue, the calls of a row one by one, or a row of shards, of bare calls or of whole lives, and their number.
#[derive(Clone, Copy, Debug, PartialEq, Eq)]
enum Timed {
    One(Row),
    Longest(Touched),
    Shards(Call, Route, usize),
    Lives(Life, Route, usize),
}

impl Timed {
    fn read(name: &str) -> Option<Timed> {
        let Some((name, shards)) = name.split_once('/') else {
            let one = || Row::ALL.into_iter().find(|(known, _)| *known == name).map(|(_, row)| Timed::One(row));
            let touched = || Touched::ALL.into_iter().find(|(known, _)| *known == name);
            return one().or_else(|| touched().map(|(_, touched)| Timed::Longest(touched)));
        };
        let (name, route) = match name.strip_prefix("own-") {
            Some(name) => (name, Route::Own),
            None => (name, Route::Drawn),
        };
        let shards = shards.parse().ok().filter(|shards| (1..=64).contains(shards))?;
        if let Some((_, life)) = Life::ALL.into_iter().find(|(known, _)| *known == name) {
            return Some(Timed::Lives(life, route, shards));
        }
        let (_, call) = Call::ALL.into_iter().find(|(known, _)| *known == name)?;
        (route == Route::Drawn || !call.is_burst()).then_some(Timed::Shards(call, route, shards))
    }

    /// Whether so many threads may call.
    fn takes(self, threads: usize) -> bool {
        match self {
            Timed::Shards(_, Route::Own, shards) | Timed::Lives(_, Route::Own, shards) => threads == shards,
            Timed::One(Row::Callers) | Timed::Shards(..) | Timed::Lives(..) => (1..=64).contains(&threads),
            Timed::One(_) | Timed::Longest(_) => threads == 1,
        }
    }

    /// Whether it is a row of one queue, which our own queue can be.
    fn is_of_one(self) -> bool {
        !matches!(self, Timed::Shards(..) | Timed::Lives(..))
    }
}

/// What one call of the program times.
struct Asked {
    row_name: String,
    timed: Timed,
    entries: usize,
    threads: usize,
    rounds: usize,
    peers: Vec<String>,
}

impl Asked {
    fn read(args: &[String]) -> Option<Asked> {
        let [time, row_name, entries, threads, rounds, peers @ ..] = args else {
            return None;
        };
        let timed = Timed::read(row_name)?;
        let entries = entries.parse().ok().filter(|entries| (1..=LARGEST).contains(entries))?;
        let threads = threads.parse().ok().filter(|threads| timed.takes(*threads))?;
        let rounds = rounds.parse().ok()?;
        let known = peers_of(timed, entries);
        let all_known = peers.iter().all(|peer| known.contains(&peer.as_str()));
        if time != "time" || !all_known {
            return None;
        }
        Some(Asked { row_name: row_name.clone(), timed, entries, threads, rounds, peers: peers.to_vec() })
    }

    fn wants(&self, peer: &str) -> bool {
        self.peers.is_empty() || self.peers.iter().any(|asked| asked == peer)
    }
}

/// The peers of a row. What differs in an extend alone is timed where there are extends, and only what is locked can be
/// shared. Our own queue is one of them by both of its crates, where the program is built with them.
fn peers_of(timed: Timed, entries: usize) -> Vec<&'static str> {
    let mut peers = plain_peers_of(timed);
    if cfg!(feature = "rust") {
        peers.extend(mine_of(timed));
    }
    peers.retain(|peer| entries <= LARGEST_CORE || !OF_ONE_CORE.contains(peer));
    peers
}

/// Those of ours that have so many entries, or so many a shard, as one core has.
const OF_ONE_CORE: [&str; 8] = [
    "rust",
    "rust-open",
    "rust-alone",
    "rust-checked",
    "rust-shards",
    "rust-checked-shards",
    "shards-at",
    "shards-now",
];

/// Our own queue as plain Rust has it, with the bounds checks or without. Only a handle is shared by callers. The adapter is timed
/// with the checks, as a program has it that asks for nothing. So is `DelayQueue` but over shards, where it stands in one table
/// with what it is made of.
fn mine_of(timed: Timed) -> &'static [&'static str] {
    let is_unchecked = cfg!(feature = "proved-bounds");
    match timed {
        Timed::Shards(..) | Timed::Lives(..) if is_unchecked => {
            &["queue", "queue-at", "queue-reserved", "shards-at", "shards-now", "rust-shards"]
        }
        Timed::Shards(..) | Timed::Lives(..) => {
            &["queue", "queue-at", "queue-reserved", "shards-at", "shards-now", "rust-checked-shards"]
        }
        Timed::One(Row::InsertNew | Row::InsertRoom) if is_unchecked => &["adapter-proved", "queue-at-proved"],
        Timed::One(Row::InsertNew | Row::InsertRoom) => &["adapter", "queue-at"],
        Timed::One(Row::Rest | Row::Touch) if is_unchecked => &[],
        Timed::One(Row::Rest) => &["adapter", "stream", "queue"],
        Timed::One(Row::Extend) if is_unchecked => &["rust", "rust-open"],
        Timed::One(Row::Touch) => &["adapter", "adapter-handle", "queue-at"],
        Timed::One(Row::Insert | Row::Poll) if is_unchecked => &["rust", "rust-open", "rust-alone"],
        _ if is_unchecked => &["rust"],
        Timed::One(Row::Callers) => &["rust-checked", "adapter-handle", "queue"],
        _ => &["rust-checked", "adapter", "adapter-handle", "queue"],
    }
}

const OWNED: [&str; 7] =
    ["delay-queue", "delay-queue-locked", "heap-note", "heap-best", "heap-best-locked", "heap-indexed", "hashed-wheel"];

/// The peers that are plain Rust.
fn plain_peers_of(timed: Timed) -> Vec<&'static str> {
    let beside: &[&str] = match timed {
        Timed::One(Row::Extend) => &["heap-push", "heap-push-locked", "fetch-max"],
        Timed::One(Row::Touch) => &["last-heard", "sleep"],
        Timed::One(Row::InsertNew) => {
            return vec!["delay-queue", "delay-queue-locked", "heap-note", "heap-note-locked"]
        }
        Timed::One(Row::Mixed) => &["heap-push", "heap-push-locked"],
        Timed::One(Row::Insert | Row::Reset | Row::Remove | Row::Poll) => &["sleep"],
        Timed::One(Row::Callers) => {
            return vec!["fetch-max", "heap-push-locked", "heap-note-locked", "heap-best-locked", "delay-queue-locked"]
        }
        Timed::Longest(_) => return vec!["delay-queue", "heap-note", "heap-best", "heap-indexed", "hashed-wheel"],
        Timed::Shards(..) => {
            return vec!["heap-note-locked", "heap-best-locked", "hashed-wheel-locked", "delay-queue-locked"]
        }
        Timed::Lives(..) => {
            return vec![
                "heap-note-locked",
                "heap-best-locked",
                "heap-best-paused",
                "heap-indexed-locked",
                "hashed-wheel-locked",
                "delay-queue-locked",
            ]
        }
        Timed::One(_) => &[],
    };
    [&OWNED[..], beside].concat()
}

/// A peer's rounds, one call for each.
type Rounds<'a> = Box<dyn FnMut() -> Sample + 'a>;

/// The rounds of one owner, of a queue that is made of room for so many entries. One pass warms up, but where each call is timed by
/// itself: there the least counts.
fn owned<'a, Q: Queue + 'a>(asked: &'a Asked, make: impl Fn(usize) -> Q + 'a, clock: &'a dyn Clock) -> Rounds<'a> {
    let mut load = Load::new(make(asked.entries), clock, asked.entries);
    let row = match asked.timed {
        Timed::One(row @ (Row::InsertNew | Row::InsertRoom)) => {
            let room = if row == Row::InsertRoom { asked.entries } else { 0 };
            clock.within(&mut || _ = load.insert_anew(1, room, &make));
            return Box::new(move || {
                let mut sample = Sample::default();
                clock.within(&mut || sample = load.insert_anew(passes(asked.entries), room, &make));
                sample
            });
        }
        Timed::One(row) => row,
        Timed::Longest(touched) => {
            return Box::new(move || {
                let mut sample = Sample::default();
                clock.within(&mut || sample = load.longest(touched));
                sample
            })
        }
        Timed::Shards(..) | Timed::Lives(..) => panic!("a row of shards wants shards"),
    };
    clock.within(&mut || load.pass(row));
    Box::new(move || {
        let mut sample = Sample::default();
        clock.within(&mut || sample = load.round(row));
        sample
    })
}

/// The rounds of a queue behind a lock, or of one that needs none.
fn shared<'a, Q: Shared + 'a>(asked: &'a Asked, make: impl Fn(usize) -> Q + 'a, clock: &'a dyn Clock) -> Rounds<'a> {
    if asked.timed != Timed::One(Row::Callers) {
        return owned(asked, make, clock);
    }
    let mut load = Load::new(make(asked.entries), clock, asked.entries);
    clock.within(&mut || load.pass(Row::Insert));
    Box::new(move || {
        let mut sample = Sample::default();
        clock.within(&mut || sample = load.callers(asked.threads));
        sample
    })
}

/// The rounds of queues each of which is a shard.
fn locked_shards<'a, Q: Queue + Send + 'a>(asked: &'a Asked, one: impl Fn() -> Q, clock: &'a dyn Clock) -> Rounds<'a> {
    sharded(asked, |shards| Shards::<Q>::new((0..shards).map(|_| one())), clock)
}

/// The rounds of a queue of so many shards.
fn sharded<'a, S: Sharded + 'a>(asked: &'a Asked, queue: impl Fn(usize) -> S, clock: &'a dyn Clock) -> Rounds<'a> {
    match asked.timed {
        Timed::Shards(call, route, shards) => {
            let load = ShardLoad::new(queue(shards), clock, asked.entries, asked.threads, route);
            shard_rounds(load, move |load| load.pass(call), move |load| load.round(call))
        }
        Timed::Lives(life, route, shards) => {
            let load = ShardLoad::new(queue(shards), clock, asked.entries, asked.threads, route);
            shard_rounds(load, move |load| load.live(life), move |load| load.lives(life))
        }
        Timed::One(_) | Timed::Longest(_) => panic!("shards are of a row of shards"),
    }
}

/// The rounds of a load. One pass warms up.
fn shard_rounds<'a, S: Sharded + 'a>(
    mut load: ShardLoad<'a, S>,
    pass: impl Fn(&mut ShardLoad<'a, S>),
    round: impl Fn(&mut ShardLoad<'a, S>) -> Sample + 'a,
) -> Rounds<'a> {
    let clock = load.clock;
    clock.within(&mut || pass(&mut load));
    Box::new(move || {
        let mut sample = Sample::default();
        clock.within(&mut || sample = round(&mut load));
        sample
    })
}

/// The shards of `DelayQueue` where one thread alone calls it: as many as it makes by itself on a machine of four cores.
#[cfg(feature = "rust")]
const PRODUCT_SHARDS: usize = 4;

/// A peer's clocks: one that is moved outside of what is timed, and one that its queue moves by itself.
struct Clocks<'a> {
    paused: &'a PausedClock,
    within: TurnedWithin<'a>,
    #[cfg(feature = "rust")]
    standing: &'a Standing,
}

fn rounds_of<'a>(asked: &'a Asked, peer: &str, clocks: &'a Clocks<'a>) -> Rounds<'a> {
    if asked.timed.is_of_one() {
        rounds_of_one(asked, peer, clocks)
    } else {
        rounds_of_shards(asked, peer, clocks)
    }
}

fn rounds_of_one<'a>(asked: &'a Asked, peer: &str, clocks: &'a Clocks<'a>) -> Rounds<'a> {
    let clock = clocks.paused;
    let heap = |extending| owned(asked, move |room| HeapQueue::new(extending, room), &NoClock);
    let locked = |extending| shared(asked, move |room| Locked::new(HeapQueue::new(extending, room)), &NoClock);
    #[cfg(feature = "rust")]
    let adapter = |touching| shared(asked, move |room| Adapter::new(clock, room, touching), clock);
    #[cfg(feature = "rust")]
    let product = |by| {
        // Where room isn't asked for by the row it grows as its entries come.
        let reserved = if asked.timed == Timed::One(Row::InsertRoom) { PRODUCT_SHARDS } else { 0 };
        let make = move |room| Product::new(clocks.standing, PRODUCT_SHARDS, by, reserved * room);
        shared(asked, make, clocks.standing)
    };
    match peer {
        "delay-queue" => owned(asked, |room| TokioQueue::new(clock, room), clock),
        "delay-queue-locked" => shared(asked, |room| Locked::<_>::new(TokioQueue::new(clock, room)), clock),
        "sleep" => owned(asked, |room| SleepQueue::new(clock, room), &clocks.within),
        "heap-push" => heap(Extending::Push),
        "heap-push-locked" => locked(Extending::Push),
        "heap-note" => heap(Extending::Note),
        "heap-note-locked" => locked(Extending::Note),
        "heap-best" => owned(asked, BestHeap::new, &NoClock),
        "heap-best-locked" => shared(asked, |room| Locked::new(BestHeap::new(room)), &NoClock),
        "heap-indexed" => owned(asked, IndexedHeap::new, &NoClock),
        "hashed-wheel" => owned(asked, HashedWheel::new, &NoClock),
        "last-heard" => owned(asked, Floor::<LastHeard>::new, &NoClock),
        #[cfg(feature = "rust")]
        "rust" | "rust-checked" => shared(asked, Erased::new, &NoClock),
        #[cfg(feature = "rust")]
        "rust-open" => owned(asked, Erased::open, &NoClock),
        #[cfg(feature = "rust")]
        "rust-alone" => owned(asked, Erased::alone, &NoClock),
        #[cfg(feature = "rust")]
        "adapter" | "adapter-proved" => adapter(Touching::Owner),
        #[cfg(feature = "rust")]
        "adapter-handle" => adapter(Touching::Handle),
        #[cfg(feature = "rust")]
        "stream" => owned(asked, |_| Stream::new(clock), clock),
        #[cfg(feature = "rust")]
        "queue" => product(By::Duration),
        #[cfg(feature = "rust")]
        "queue-at" | "queue-at-proved" => product(By::Moment),
        _ => shared(asked, Floor::<AtomicU64>::new, &NoClock),
    }
}

fn rounds_of_shards<'a>(asked: &'a Asked, peer: &str, clocks: &'a Clocks<'a>) -> Rounds<'a> {
    let (room, clock) = (shard_room(asked.entries), clocks.paused);
    #[cfg(feature = "rust")]
    let product = |by, of_reserved: usize| {
        let queue = move |shards| Product::new(clocks.standing, shards, by, of_reserved * shards);
        sharded(asked, queue, clocks.standing)
    };
    #[cfg(feature = "rust")]
    let by_hand = |by| {
        let queue = move |shards| ByHand::new(clocks.standing, shards, room, by);
        sharded(asked, queue, clocks.standing)
    };
    match peer {
        "delay-queue-locked" => locked_shards(asked, || TokioQueue::new(clock, room), clock),
        "heap-best-locked" => locked_shards(asked, || BestHeap::new(room), &NoClock),
        "heap-best-paused" => {
            let queue = |shards| Shards::<_, true>::new((0..shards).map(|_| BestHeap::new(room)));
            sharded(asked, queue, &NoClock)
        }
        "heap-indexed-locked" => locked_shards(asked, || IndexedHeap::new(room), &NoClock),
        "hashed-wheel-locked" => locked_shards(asked, || HashedWheel::new(room), &NoClock),
        #[cfg(feature = "rust")]
        "rust-shards" | "rust-checked-shards" => sharded(asked, |shards| ErasedShards::new(shards, room), &NoClock),
        #[cfg(feature = "rust")]
        "shards-at" => by_hand(By::Moment),
        #[cfg(feature = "rust")]
        "shards-now" => by_hand(By::Duration),
        #[cfg(feature = "rust")]
        "queue" => product(By::Duration, 0),
        #[cfg(feature = "rust")]
        "queue-at" => product(By::Moment, 0),
        #[cfg(feature = "rust")]
        "queue-reserved" => product(By::Moment, room),
        _ => locked_shards(asked, || HeapQueue::new(Extending::Note, room), &NoClock),
    }
}

/// Whether a peer's last deadlines are the schedule's: `DelayQueue` has no call that only raises a deadline.
fn is_by_schedule(asked: &Asked, peer: &str) -> bool {
    let extends = matches!(asked.timed, Timed::One(Row::Callers) | Timed::Shards(Call::Extend, ..));
    extends && asked.threads > 1 && peer.starts_with("delay-queue")
}

fn print_sample(asked: &Asked, peer: &str, round: usize, sample: &Sample) {
    let Asked { row_name, entries, threads, .. } = asked;
    let Counts { inserts, extends, resets, removes, cancels, outs, values, deadlines } = sample.counts;
    let deadlines = if is_by_schedule(asked, peer) { "-".to_string() } else { deadlines.to_string() };
    print!(
        "{peer} {row_name} {entries} {threads} {round} {} {} {inserts} {extends} {resets} {removes} {cancels} {outs} {values} {deadlines}",
        sample.spent.as_nanos(),
        sample.operations
    );
    sample.spreads.iter().flatten().for_each(|spread| print!(" {spread}"));
    println!();
}

fn time(asked: &Asked) {
    let names: Vec<&str> = peers_of(asked.timed, asked.entries).into_iter().filter(|peer| asked.wants(peer)).collect();
    if asked.rounds == 0 {
        return names.iter().for_each(|name| println!("{name}"));
    }
    let paused: Vec<PausedClock> = names.iter().map(|_| PausedClock::new()).collect();
    #[cfg(feature = "rust")]
    let standing: Vec<Standing> = names.iter().map(|_| Standing::new()).collect();
    let clocks = paused.iter().enumerate().map(|(_at, paused)| Clocks {
        paused,
        within: TurnedWithin(paused),
        #[cfg(feature = "rust")]
        standing: &standing[_at],
    });
    let clocks: Vec<Clocks> = clocks.collect();
    let mut peers: Vec<(&str, Rounds)> =
        names.iter().zip(&clocks).map(|(name, clock)| (*name, rounds_of(asked, name, clock))).collect();
    for round in 1..=asked.rounds {
        let mut expected: Option<Counts> = None;
        for (name, next_round) in &mut peers {
            let sample = next_round();
            print_sample(asked, name, round, &sample);
            let mut counts = sample.counts;
            match &mut expected {
                // The first whose deadlines aren't the schedule's is who the others are compared with.
                None if is_by_schedule(asked, name) => continue,
                None => expected = Some(counts),
                Some(expected) => {
                    if is_by_schedule(asked, name) {
                        counts.deadlines = expected.deadlines;
                    }
                    assert_eq!(counts, *expected, "{name} did what the peers before it did");
                }
            }
        }
    }
}

/// The entries and the rounds of a poll beside another thread's calls, where that is asked for by that name.
#[cfg(feature = "rust")]
fn asked_beside(name: &str, args: &[String]) -> Option<(usize, usize)> {
    let [asked, entries, rounds] = args else {
        return None;
    };
    let entries = entries.parse().ok().filter(|entries| (2..=65_536).contains(entries))?;
    (asked == name).then_some((entries, rounds.parse().ok()?))
}

fn main() -> ExitCode {
    let args: Vec<String> = std::env::args().skip(1).collect();
    #[cfg(feature = "rust")]
    for (name, print) in [("beside", beside::print_rounds as fn(usize, usize)), ("fair", fair::print_ways)] {
        if let Some((entries, rounds)) = asked_beside(name, &args) {
            print(entries, rounds);
            return ExitCode::SUCCESS;
        }
    }
    #[cfg(feature = "rust")]
    if let [name, numbers @ ..] = &args[..] {
        let numbers: Vec<usize> = numbers.iter().filter_map(|number| number.parse().ok()).collect();
        match (name.as_str(), &numbers[..]) {
            ("queue", &[entries, threads @ 1..=64, rounds]) => table::print(entries, threads, rounds.max(1)),
            ("goals", &[entries @ 1..=65_536, threads @ 1..=64, rounds]) => {
                goals::print(entries, threads, rounds.max(1))
            }
            ("memory", &[entries]) => goals::print_memory(entries.max(1)),
            ("growing", &[entries @ 1..=10_000_000, rounds]) => growing::print_rounds(entries, rounds.max(1)),
            ("life", &[entries @ 1..=10_000_000, shards @ 1..=64]) => life::print(entries, shards),
            ("life-beside", &[entries @ 1..=1_000_000, rounds]) => life::print_beside(entries, rounds.max(1)),
            _ => return time_asked(&args),
        }
        return ExitCode::SUCCESS;
    }
    time_asked(&args)
}

fn time_asked(args: &[String]) -> ExitCode {
    match Asked::read(args) {
        Some(asked) => {
            time(&asked);
            ExitCode::SUCCESS
        }
        None => {
            eprintln!("{USAGE}");
            ExitCode::from(2)
        }
    }
}

#[cfg(test)]
mod tests {
    use super::*;

    fn asked(timed: Timed, entries: usize, threads: usize) -> Asked {
        Asked { row_name: String::new(), timed, entries, threads, rounds: 1, peers: Vec::new() }
    }

    /// Every peer does in every row what the others do.
    #[test]
    fn peers_agree() {
        for (_, row) in Row::ALL {
            time(&asked(Timed::One(row), 500, if row == Row::Callers { 2 } else { 1 }));
        }
    }

    /// The same of more entries than a core of ours has. tokio_util's goes over a whole slot for each of its assertions.
    #[test]
    fn peers_agree_beyond_a_core() {
        let asked = asked(Timed::Lives(Life::InsertPoll, Route::Drawn, 1), 70_000, 1);
        let peers = peers_of(asked.timed, asked.entries).into_iter().filter(|peer| !peer.starts_with("delay-queue"));
        time(&Asked { peers: peers.map(str::to_string).collect(), ..asked });
    }

    /// The same over shards, by one thread and by several.
    #[test]
    fn peers_agree_over_shards() {
        for (_, call) in Call::ALL {
            for (shards, threads) in [(1, 1), (3, 1), (1, 4), (4, 2)] {
                time(&asked(Timed::Shards(call, Route::Drawn, shards), 5_000, threads));
            }
            if !call.is_burst() {
                time(&asked(Timed::Shards(call, Route::Own, 4), 2_000, 4));
            }
        }
    }

    /// The same over whole lives, whose counts no schedule changes.
    #[test]
    fn peers_agree_over_lives() {
        for (_, life) in Life::ALL {
            for (shards, threads) in [(1, 1), (3, 1), (1, 4), (4, 2)] {
                time(&asked(Timed::Lives(life, Route::Drawn, shards), 700, threads));
            }
            time(&asked(Timed::Lives(life, Route::Own, 4), 300, 4));
        }
    }

    /// The same where each call is timed by itself.
    #[test]
    fn peers_agree_call_by_call() {
        for (_, touched) in Touched::ALL {
            time(&asked(Timed::Longest(touched), 500, 1));
        }
    }

    fn polled<Q: Queue>(queue: &mut Q, clock: &dyn Clock, tick: u64) -> Vec<(u64, u64)> {
        clock.moment(tick);
        let mut outs = Vec::new();
        while let Some(out) = queue.poll(tick) {
            outs.push((queue.deadline(&out), Q::value(&out)));
        }
        outs
    }

    fn keeps_deadlines<Q: Queue>(mut queue: Q, clock: &dyn Clock) {
        clock.within(&mut || {
            let a = queue.insert(1, 10);
            let b = queue.insert(2, 20);
            let c = queue.insert(3, 30);
            let d = queue.insert(4, 40);
            assert_eq!(queue.extend(a, 25), 25);
            queue.reset(d, 5);
            queue.cancel(b);
            assert_eq!(polled(&mut queue, clock, 4), []);
            assert_eq!(polled(&mut queue, clock, 24), [(5, 4)]);
            assert_eq!(queue.remove(c), 3);
            assert_eq!(polled(&mut queue, clock, 100), [(25, 1)]);
            assert_eq!(polled(&mut queue, clock, 1_000), []);
        });
    }

    #[test]
    fn each_peer_keeps_deadlines() {
        let clocks = [PausedClock::new(), PausedClock::new(), PausedClock::new()];
        keeps_deadlines(TokioQueue::new(&clocks[0], 4), &clocks[0]);
        keeps_deadlines(Locked::new(TokioQueue::new(&clocks[1], 4)), &clocks[1]);
        for extending in [Extending::Push, Extending::Note] {
            keeps_deadlines(HeapQueue::new(extending, 4), &NoClock);
            keeps_deadlines(Locked::new(HeapQueue::new(extending, 4)), &NoClock);
        }
        keeps_deadlines(BestHeap::new(4), &NoClock);
        keeps_deadlines(IndexedHeap::new(4), &NoClock);
        keeps_deadlines(HashedWheel::new(4), &NoClock);
        keeps_deadlines(SleepQueue::new(&clocks[2], 4), &TurnedWithin(&clocks[2]));
        #[cfg(feature = "rust")]
        {
            keeps_deadlines(Erased::new(4), &NoClock);
            keeps_deadlines(Erased::open(4), &NoClock);
            let clock = PausedClock::new();
            keeps_deadlines(Stream::new(&clock), &clock);
            for touching in [Touching::Owner, Touching::Handle] {
                let clock = PausedClock::new();
                keeps_deadlines(Adapter::new(&clock, 4, touching), &clock);
            }
            for by in [By::Duration, By::Moment] {
                let clock = Standing::new();
                keeps_deadlines(Product::new(&clock, 2, by, 0), &clock);
            }
        }
    }
}
