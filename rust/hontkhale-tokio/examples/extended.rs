//! An entry that a handle extends from another task than the owner's.

use hontkhale_tokio::DelayQueue;
use std::time::Duration;

#[tokio::main(flavor = "current_thread")]
async fn main() {
    let mut sessions = DelayQueue::new();
    let handle = sessions.handle();
    let key = sessions.insert("ann", Duration::from_secs(30));
    let task = tokio::spawn(async move { handle.extend(&key, Duration::from_secs(60)) });
    task.await.unwrap().unwrap();
}
