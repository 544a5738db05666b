//! An entry that another thread extends comes out at its later deadline.

use hontkhale::DelayQueue;
use std::thread;
use std::time::Duration;

fn main() -> Result<(), Box<dyn std::error::Error>> {
    let queue = DelayQueue::new();
    let key = queue.insert("lease", Duration::from_millis(30))?;

    let handle = queue.handle();
    let deadline = thread::spawn(move || handle.extend(&key, Duration::from_millis(45)))
        .join()
        .unwrap()?;

    let expired = queue.recv().expect("the queue is open");
    assert_eq!((expired.value, expired.deadline), ("lease", deadline));
    Ok(())
}
