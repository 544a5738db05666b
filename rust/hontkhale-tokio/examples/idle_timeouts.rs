//! Connections are closed that were silent for 30 seconds. What is heard on one costs no message to the owner of the queue.

use hontkhale_tokio::DelayQueue;
use std::future::poll_fn;
use tokio::time::{sleep, Duration, Instant};

const IDLE: Duration = Duration::from_secs(30);

#[tokio::main(flavor = "current_thread", start_paused = true)]
pub async fn main() {
    let start = Instant::now();
    let mut idle = DelayQueue::new();
    let handle = idle.handle();
    for (name, every, times) in [("ann", 20, 3), ("bob", 25, 1), ("eve", 40, 9)] {
        let key = idle.insert(name, IDLE);
        let handle = handle.clone();
        tokio::spawn(async move {
            for _ in 0..times {
                sleep(Duration::from_secs(every)).await;
                if handle.extend(&key, IDLE).is_err() {
                    return; // the connection is closed
                }
            }
        });
    }
    let mut closed = Vec::new();
    while let Some(connection) = poll_fn(|cx| idle.poll_expired(cx)).await {
        let (name, seconds) = (connection.into_inner(), start.elapsed().as_secs());
        println!("{name} was silent for 30 seconds: closed after {seconds}");
        closed.push((name, seconds));
    }
    assert_eq!(closed, [("eve", 30), ("bob", 55), ("ann", 90)]);
}
