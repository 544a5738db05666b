//! What a queue holds of memory, by what the system says is resident, what `compact` makes of it, and what calls want of the
//! stack, beside the peer: each time in a process of its own. What `./count` copies into the README is printed as rows.

mod common;

use common::{ms, paused, Wakes};
use std::alloc::{GlobalAlloc, Layout, System};
use std::process::{Command, Output};
use std::sync::atomic::{AtomicUsize, Ordering::SeqCst};
use std::sync::Arc;
use std::task::{Context, Waker};
use std::time::Duration;

/// The system's allocator, which counts the calls that take memory.
struct Counting;

static ALLOCATIONS: AtomicUsize = AtomicUsize::new(0);

// SAFETY: each call is the system's own.
unsafe impl GlobalAlloc for Counting {
    unsafe fn alloc(&self, layout: Layout) -> *mut u8 {
        ALLOCATIONS.fetch_add(1, SeqCst);
        System.alloc(layout)
    }

    unsafe fn alloc_zeroed(&self, layout: Layout) -> *mut u8 {
        ALLOCATIONS.fetch_add(1, SeqCst);
        System.alloc_zeroed(layout)
    }

    unsafe fn realloc(&self, memory: *mut u8, layout: Layout, size: usize) -> *mut u8 {
        ALLOCATIONS.fetch_add(1, SeqCst);
        System.realloc(memory, layout, size)
    }

    unsafe fn dealloc(&self, memory: *mut u8, layout: Layout) {
        System.dealloc(memory, layout);
    }
}

#[global_allocator]
static COUNTING: Counting = Counting;

/// Runs one test again, in a process of its own, which is told what to do there.
fn child(test: &str, told: &str) -> Output {
    let mut child = Command::new(std::env::current_exe().expect("the test's program"));
    child.args([test, "--exact", "--nocapture"]).env("TOLD", told).output().expect("a process")
}

/// What this process was told to do.
fn told() -> Option<String> {
    std::env::var("TOLD").ok()
}

/// What a process of its own says, behind a word that tells its line.
fn said(test: &str, told: &str) -> String {
    let run = child(test, told);
    let said = String::from_utf8_lossy(&run.stdout).into_owned();
    assert!(run.status.success(), "{said}{}", String::from_utf8_lossy(&run.stderr));
    said.lines().find_map(|line| line.strip_prefix("said: ")).unwrap_or_default().into()
}

/// Runs a test's body in a process of its own.
fn alone(test: &str, body: fn()) {
    match told() {
        Some(_) => body(),
        None => drop(said(test, "all")),
    }
}

/// The resident KiB of this process: now, or at most until now.
fn resident(line: &str) -> usize {
    let status = std::fs::read_to_string("/proc/self/status").expect("a Linux");
    let found = status.lines().find_map(|it| it.strip_prefix(line)).expect("a line of the process's memory");
    found.trim().trim_end_matches(" kB").parse().expect("KiB")
}

/// How long this thread was executed.
fn executed() -> Duration {
    let stat = std::fs::read_to_string("/proc/thread-self/schedstat").expect("a Linux");
    Duration::from_nanos(stat.split(' ').next().expect("a time").parse().expect("nanoseconds"))
}

/// Whether an entry is taken out, by its number.
type IsGone = fn(usize) -> bool;

/// Which of a million entries are taken out before a `compact`.
const PARTS: [(&str, IsGone); 4] = [
    ("one of 50,000", |at| at % 50_000 == 17),
    ("half and one of a hundred", |at| at % 2 != 0 || at % 100 == 0),
    ("four of five", |at| at % 5 != 0),
    ("nine of ten", |at| at % 10 != 0),
];

/// What a `compact` of a million entries, of which a part was taken out, makes of the memory.
struct Compacted {
    /// The KiB that are held before.
    held: usize,
    /// What it leaves and takes at most, in percent of that.
    after: usize,
    most: usize,
    /// How long it takes, which is told and not judged: it hangs on how busy the machine is.
    micros: u128,
    /// How often it takes memory.
    allocations: usize,
}

macro_rules! compacts {
    ($name:ident, $side:ident) => {
        fn $name(make: fn() -> $side::DelayQueue<u64>, is_gone: IsGone) -> Compacted {
            let mut queue = make();
            let mut keys: Vec<$side::Key> = Vec::with_capacity(1_000_000);
            let before = resident("VmRSS:");
            keys.extend((0..1_000_000).map(|at| queue.insert(at, ms(60_000 + at))));
            for (_, key) in keys.iter().enumerate().filter(|it| is_gone(it.0)) {
                queue.remove(key);
            }
            let keys_kib = keys.len() * std::mem::size_of::<$side::Key>() / 1_024;
            let held = resident("VmRSS:") - before - keys_kib;
            let (all_before, most_before, began) = (resident("VmRSS:"), resident("VmHWM:"), executed());
            let taken_before = ALLOCATIONS.load(SeqCst);
            queue.compact();
            let allocations = ALLOCATIONS.load(SeqCst) - taken_before;
            let micros = (executed() - began).as_micros();
            let after = 100 * (held + resident("VmRSS:")).saturating_sub(all_before) / held;
            let most = 100 * (held + resident("VmHWM:") - most_before) / held;
            for (at, key) in keys.iter().enumerate().filter(|it| !is_gone(it.0)) {
                assert_eq!(queue.remove(key).into_inner(), at as u64);
            }
            Compacted { held, after, most, micros, allocations }
        }
    };
}

mod here {
    pub use hontkhale_tokio::delay_queue::{DelayQueue, Key};

    pub fn with_handle() -> DelayQueue<u64> {
        let mut queue = DelayQueue::new();
        drop(queue.handle());
        queue
    }
}

mod peer {
    pub use tokio_util::time::delay_queue::{DelayQueue, Key};
}

compacts!(compacted_here, here);
compacts!(compacted_by_peer, peer);

impl Compacted {
    /// Measured in this process, which was told the side and the part.
    fn measure(told: &str) -> Compacted {
        let (side, part) = told.split_once(' ').expect("a side and a part");
        let is_gone = PARTS[part.parse::<usize>().expect("a part")].1;
        paused().block_on(async {
            match side {
                "peer" => compacted_by_peer(peer::DelayQueue::new, is_gone),
                "here" => compacted_here(here::DelayQueue::new, is_gone),
                _ => compacted_here(here::with_handle, is_gone),
            }
        })
    }

    /// Measured in a process of its own.
    fn of(side: &str, part: usize) -> Compacted {
        let said =
            said("compact_takes_no_memory_where_little_is_to_be_had_and_gives_much_back", &format!("{side} {part}"));
        let mut figures = said.split(' ').map(|it| it.parse::<usize>().expect("a figure"));
        let mut next = || figures.next().expect("five figures");
        Compacted { held: next(), after: next(), most: next(), micros: next() as u128, allocations: next() }
    }
}

/// To move an entry costs more than a slot that is free for it.
#[test]
fn compact_takes_no_memory_where_little_is_to_be_had_and_gives_much_back() {
    if let Some(told) = told() {
        let Compacted { held, after, most, micros, allocations } = Compacted::measure(&told);
        return println!("said: {held} {after} {most} {micros} {allocations}");
    }
    for (part, (name, _)) in PARTS.iter().enumerate() {
        let [peer, here, with_handle] = ["peer", "here", "handle"].map(|side| Compacted::of(side, part));
        for (side, it) in [("the peer", &peer), ("here", &here), ("here, with a handle", &with_handle)] {
            let Compacted { held, after, most, micros, allocations } = it;
            println!("row\tcompact\t{name}\t{side}\t{held}\t{after}\t{most}\t{micros}");
            println!("{name}, {side}: memory is taken {allocations} times");
        }
        for it in [&here, &with_handle] {
            assert!(it.after <= 110 && it.most <= 110, "{name}: {} and {} of a hundred", it.after, it.most);
            assert!(it.allocations <= 1_000, "{name}: memory is taken {} times", it.allocations);
            assert!(part < 3 || it.after <= 50, "{name}: {} of a hundred", it.after);
        }
    }
}

/// Room for a million entries, of which three are put in: the pages of one wheel are touched.
#[test]
fn room_that_no_entry_needs_yet_is_not_resident() {
    alone("room_that_no_entry_needs_yet_is_not_resident", || {
        paused().block_on(async {
            let before = resident("VmHWM:");
            let mut queue = here::DelayQueue::with_capacity(1_048_576);
            let mut other = here::DelayQueue::new();
            other.reserve(1_048_576);
            assert!(queue.capacity() >= 1_048_576 && other.capacity() >= 1_048_576);
            for at in 0..3 {
                queue.insert(at, ms(10));
                other.insert(at, ms(10));
            }
            let taken = resident("VmHWM:") - before;
            println!("{taken} KiB for two queues of three entries");
            assert!(taken < 12_000, "{taken} KiB");
            for at in 3..1_048_576 {
                queue.insert(at, ms(10));
            }
            assert_eq!((queue.len(), queue.capacity()), (1_048_576, 1_048_576));
        });
    });
}

/// What no memory holds is refused before any is taken.
#[test]
fn room_that_cannot_be_is_refused_at_once() {
    alone("room_that_cannot_be_is_refused_at_once", || {
        paused().block_on(async {
            std::panic::set_hook(Box::new(|_| {}));
            let before = resident("VmHWM:");
            for many in [usize::MAX, usize::MAX / 2, 1 << 40, (1 << 32) + 1] {
                let made = std::panic::catch_unwind(|| here::DelayQueue::<u64>::with_capacity(many).capacity());
                let why = made.expect_err("more than there is");
                assert_eq!(why.downcast_ref::<&str>(), Some(&"capacity overflow"));
                let mut queue = here::DelayQueue::new();
                let key = queue.insert(7, ms(10));
                let reserve = std::panic::AssertUnwindSafe(|| queue.reserve(many));
                assert!(std::panic::catch_unwind(reserve).is_err());
                assert!(queue.capacity() < 1_000 && queue.remove(&key).into_inner() == 7);
            }
            // As many as there may be, but of 32 KiB each.
            let made =
                std::panic::catch_unwind(|| here::DelayQueue::<[u64; 1 << 12]>::with_capacity(1 << 32).capacity());
            assert!(made.is_err());
            let taken = resident("VmHWM:") - before;
            assert!(taken < 8_000, "{taken} KiB");
        });
    });
}

/// A value of 64 KiB.
struct Large([u8; 65_536]);

const CALLS: [&str; 4] = ["insert", "reset", "remove", "poll_expired"];

/// Runs something on a stack of so many KiB.
fn on_stack(kib: usize, work: impl FnOnce() + Send) {
    std::thread::scope(|scope| {
        let thread = std::thread::Builder::new().stack_size(kib << 10).spawn_scoped(scope, work).expect("a thread");
        thread.join().expect("it ends");
    });
}

macro_rules! large_calls {
    ($name:ident, $module:path) => {
        mod $name {
            use super::*;
            use $module as side;
            type Queue = side::DelayQueue<Large>;

            fn insert(queue: &mut Queue) {
                queue.insert(Large([3; 65_536]), ms(10));
            }

            fn reset(queue: &mut Queue, key: &side::Key) {
                queue.reset(key, ms(20));
            }

            fn remove(queue: &mut Queue, key: &side::Key) {
                assert_eq!(queue.remove(key).get_ref().0[9], 1);
            }

            fn poll(queue: &mut Queue) {
                let waker = Waker::from(Arc::new(Wakes::default()));
                assert!(queue.poll_expired(&mut Context::from_waker(&waker)).is_ready());
            }

            /// Makes that call on a stack of so many KiB, of a queue that has two entries and room for more.
            pub fn make(call: &str, kib: usize) {
                let runtime = paused();
                let (mut queue, mut keys) = (Queue::new(), Vec::new());
                on_stack(65_536, || {
                    let _context = runtime.enter();
                    keys.extend([1, 2].map(|value| queue.insert(Large([value; 65_536]), ms(10))));
                    runtime.block_on(tokio::time::advance(ms(if call == "poll_expired" { 20 } else { 0 })));
                });
                on_stack(kib, || {
                    let _context = runtime.enter();
                    match call {
                        "insert" => insert(&mut queue),
                        "reset" => reset(&mut queue, &keys[0]),
                        "remove" => remove(&mut queue, &keys[0]),
                        _ => poll(&mut queue),
                    }
                });
            }
        }
    };
}

large_calls!(large_here, crate::here);
large_calls!(large_in_peer, crate::peer);

/// The KiB of stack that a call of a side wants: of a process of its own, since one that wants more ends.
fn stack_of(side: &str, call: &str) -> usize {
    let (mut too_little, mut enough) = (16, 65_536);
    while enough - too_little > 8 {
        let kib = (too_little + enough) / 2;
        let run = child("large_values_want_at_most_twice_the_peers_stack", &format!("{side} {call} {kib}"));
        *(if run.status.success() { &mut enough } else { &mut too_little }) = kib;
    }
    enough
}

#[test]
fn large_values_want_at_most_twice_the_peers_stack() {
    if let Some(told) = told() {
        let [side, call, kib] = told.split(' ').collect::<Vec<_>>()[..] else { panic!("{told}") };
        let kib = kib.parse().expect("KiB");
        return if side == "here" { large_here::make(call, kib) } else { large_in_peer::make(call, kib) };
    }
    for call in CALLS {
        let (here, in_peer) = (stack_of("here", call), stack_of("peer", call));
        println!("row\tstack\t{call}\t{in_peer}\t{here}");
        assert!(here <= 2 * in_peer, "{call}: {here} KiB here, {in_peer} of the peer");
    }
}
