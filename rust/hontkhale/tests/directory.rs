//! The directory of what is made later: what one thread adds, others find under its number, and nothing else.

use hontkhale::parts::directory::{AddError, Clerk, Directory, MOST};
use std::sync::atomic::{AtomicBool, AtomicU32, Ordering};
use std::sync::Arc;
use std::thread;

const READERS: usize = 8;

const THINGS: u32 = 20_000;

fn directory_of(things: u32) -> (Clerk<Box<u32>>, Directory<Box<u32>>) {
    let mut clerk = Clerk::new(things).expect("memory");
    assert!(add_all(&mut clerk, things, &AtomicU32::new(0)));
    let directory = clerk.directory().clone();
    (clerk, directory)
}

/// Adds so many things, each of which is its own number, and tells after each how many there are. Whether all were added.
fn add_all(clerk: &mut Clerk<Box<u32>>, things: u32, added: &AtomicU32) -> bool {
    (0..things).all(|number| {
        let is_added = clerk.add(Box::new(number)) == Ok(number);
        added.store(number + u32::from(is_added), Ordering::SeqCst);
        is_added
    })
}

/// Looks from the last number to the first. What is there is its own number's, and so is all below it. How many are there.
fn look(directory: &Directory<Box<u32>>, things: u32) -> u32 {
    let last = (0..things).rev().find(|&number| directory.get(number).is_some());
    let found = last.map_or(0, |number| number + 1);
    for number in 0..found {
        assert_eq!(directory.get(number).map(|thing| **thing), Some(number));
    }
    found
}

// promise: directory.finds
#[test]
fn readers_find_what_was_added_at_once_and_in_order() {
    let mut clerk = Clerk::new(THINGS).expect("memory");
    let (added, is_over) = (AtomicU32::new(0), AtomicBool::new(false));
    let read = |directory: Directory<Box<u32>>| {
        let (added, is_over) = (&added, &is_over);
        move || loop {
            let is_last = is_over.load(Ordering::SeqCst);
            let before = added.load(Ordering::SeqCst);
            let found = look(&directory, THINGS);
            assert!(found >= before, "{found} of {before} that were added are there");
            if is_last {
                break;
            }
        }
    };
    let all_added = thread::scope(|scope| {
        for _ in 0..READERS {
            scope.spawn(read(clerk.directory().clone()));
        }
        let all_added = add_all(&mut clerk, THINGS, &added);
        is_over.store(true, Ordering::SeqCst);
        all_added
    });
    assert!(all_added);
}

// promise: directory.for-ever
#[test]
fn a_thing_stays_where_it_was_put() {
    let mut clerk = Clerk::new(MOST).expect("memory");
    let directory = clerk.directory().clone();
    clerk.add(Box::new(0)).expect("memory");
    let first = directory.get(0).expect("the first");
    for number in 1..5_000 {
        assert_eq!(clerk.add(Box::new(number)), Ok(number));
        assert!(std::ptr::eq(first, directory.get(0).expect("the first")));
    }
    assert_eq!(look(&directory, 5_000), 5_000);
}

// promise: directory.add-refused
#[test]
fn it_is_full_at_its_last_number() {
    for most in [0, 1, 2, 3, 4, 7, 8, 15, 16, 31, 33, 100] {
        let (mut clerk, directory) = directory_of(most);
        for _ in 0..2 {
            let refused = clerk.add(Box::new(77));
            assert_eq!(refused, Err((AddError::Full { most }, Box::new(77))));
            assert_eq!(clerk.given(), most);
        }
        assert_eq!(look(&directory, most), most);
        for beyond in [most, most + 1, 1 << 31, MOST - 1, MOST] {
            assert_eq!(directory.get(beyond), None);
        }
    }
}

#[test]
fn each_thing_is_dropped_once_with_the_last_directory() {
    let thing = Arc::new(());
    let mut clerk = Clerk::new(MOST).expect("memory");
    for _ in 0..100 {
        clerk.add(Arc::clone(&thing)).expect("memory");
    }
    let directory = clerk.directory().clone();
    drop(clerk);
    assert_eq!(Arc::strong_count(&thing), 101);
    assert!(directory.get(99).is_some_and(|found| Arc::ptr_eq(found, &thing)));
    drop(directory);
    assert_eq!(Arc::strong_count(&thing), 1);
}

#[test]
fn it_goes_to_other_threads() {
    fn goes<T: Send + Sync>() {}
    goes::<Clerk<Arc<u64>>>();
    goes::<Directory<Arc<u64>>>();
}
