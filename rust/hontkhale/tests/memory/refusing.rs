//! An allocator that refuses one allocation of a thread, the one that a test chooses, and counts what a thread has in
//! use.

use std::alloc::{GlobalAlloc, Layout, System};
use std::cell::Cell;

thread_local! {
    // How many allocations of this thread are granted before one is refused; none where all are granted.
    static GRANTS: Cell<Option<u64>> = const { Cell::new(None) };
    // The allocations of this thread that were asked for since it was told to refuse.
    static ASKED: Cell<u64> = const { Cell::new(0) };
    static USED: Cell<isize> = const { Cell::new(0) };
    // The size up to which each allocation of this thread is granted, and isn't counted as asked for.
    static GRANTED: Cell<usize> = const { Cell::new(0) };
}

struct Refusing;

#[global_allocator]
static REFUSING: Refusing = Refusing;

// std's `Arc` can't be refused memory: of a row of words it takes so many bytes at the most.
const OF_AN_ARC: usize = 40;

// Whether the next allocation of this thread is granted. Refused is one alone.
fn is_granted(size: usize) -> bool {
    if size <= GRANTED.get() {
        return true;
    }
    ASKED.set(ASKED.get() + 1);
    let grants = GRANTS.get();
    GRANTS.set(grants.and_then(|grants| grants.checked_sub(1)));
    grants != Some(0)
}

fn count(bytes: isize) {
    USED.set(USED.get() + bytes);
}

// SAFETY: each call goes to the system's allocator or answers that there is no memory.
unsafe impl GlobalAlloc for Refusing {
    unsafe fn alloc(&self, layout: Layout) -> *mut u8 {
        if !is_granted(layout.size()) {
            return std::ptr::null_mut();
        }
        count(layout.size() as isize);
        // SAFETY: as the caller says.
        unsafe { System.alloc(layout) }
    }

    unsafe fn alloc_zeroed(&self, layout: Layout) -> *mut u8 {
        if !is_granted(layout.size()) {
            return std::ptr::null_mut();
        }
        count(layout.size() as isize);
        // SAFETY: as the caller says.
        unsafe { System.alloc_zeroed(layout) }
    }

    unsafe fn dealloc(&self, ptr: *mut u8, layout: Layout) {
        count(-(layout.size() as isize));
        // SAFETY: as the caller says.
        unsafe { System.dealloc(ptr, layout) }
    }

    unsafe fn realloc(&self, ptr: *mut u8, layout: Layout, size: usize) -> *mut u8 {
        if !is_granted(size) {
            return std::ptr::null_mut();
        }
        count(size as isize - layout.size() as isize);
        // SAFETY: as the caller says.
        unsafe { System.realloc(ptr, layout, size) }
    }
}

/// The bytes that this thread has in use.
pub fn used() -> isize {
    USED.get()
}

/// Makes a call of which the allocation behind so many is refused: its answer, and how many it asked for.
pub fn refusing<T>(grants: u64, call: impl FnOnce() -> T) -> (T, u64) {
    ASKED.set(0);
    GRANTS.set(Some(grants));
    let answer = call();
    GRANTS.set(None);
    (answer, ASKED.get())
}

/// Makes a call of which the allocation behind so many is refused, of those that are larger than an `Arc`'s.
pub fn refusing_large<T>(grants: u64, call: impl FnOnce() -> T) -> (T, u64) {
    GRANTED.set(OF_AN_ARC);
    let answer = refusing(grants, call);
    GRANTED.set(0);
    answer
}

/// Makes a call that asks for no memory.
pub fn without_memory<T>(call: impl FnOnce() -> T) -> T {
    let (answer, asked) = refusing(u64::MAX, call);
    assert_eq!(asked, 0, "a call takes memory");
    answer
}
