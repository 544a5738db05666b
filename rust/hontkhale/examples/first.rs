//! Sessions that are closed once they were idle for a while. One is extended meanwhile, by another thread.

use hontkhale::DelayQueue;
use std::error::Error;
use std::thread;
use std::time::Duration;

fn main() -> Result<(), Box<dyn Error>> {
    let queue = DelayQueue::new();
    let ann = queue.insert("ann", Duration::from_millis(30))?;
    queue.insert("bob", Duration::from_millis(50))?;

    // Any thread may insert, extend and cancel. An insert with an earlier deadline wakes a waiting receiver.
    let clone = queue.clone();
    thread::spawn(move || clone.extend(&ann, Duration::from_millis(80)))
        .join()
        .unwrap()?;

    // No more sessions come: the loop ends with the last one. Any number of threads may run it.
    queue.close_when_empty();
    for expired in &queue {
        println!("{} was idle", expired.value);
    }
    Ok(())
}
