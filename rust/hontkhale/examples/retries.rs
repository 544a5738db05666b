//! Jobs that failed, and are tried again after a while. One is put off meanwhile, by another thread.

use hontkhale::DelayQueue;
use std::error::Error;
use std::thread;
use std::time::Duration;

fn main() -> Result<(), Box<dyn Error>> {
    let jobs = DelayQueue::new();
    let mail = jobs.insert("the mail", Duration::from_millis(100))?;
    jobs.insert("the backup", Duration::from_millis(200))?;

    // A handle puts a job off from any thread, without a lock.
    let handle = jobs.handle();
    thread::spawn(move || handle.extend(&mail, Duration::from_millis(300)))
        .join()
        .unwrap()?;

    // No more jobs come: the loop ends with the last one. Any number of threads may run it.
    jobs.close_when_empty();
    for job in &jobs {
        println!("{} is tried again", job.value);
    }
    Ok(())
}
