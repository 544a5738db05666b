//! Idle timeouts where every worker accepts connections, and one task closes those that were silent.

use hontkhale_tokio::SharedQueue;
use tokio::time::{sleep, Duration, Instant};

const IDLE: Duration = Duration::from_secs(30);

/// Serves one connection: what is heard on it extends its deadline, without a message and without a lock.
async fn serve(sessions: SharedQueue<&'static str>, name: &'static str, every: u64, times: u32) {
    let key = sessions.insert(name, IDLE).expect("memory");
    for _ in 0..times {
        sleep(Duration::from_secs(every)).await;
        if sessions.extend(&key, IDLE).is_err() {
            return; // the connection is closed
        }
    }
}

#[tokio::main(flavor = "current_thread", start_paused = true)]
pub async fn main() {
    let start = Instant::now();
    let sessions = SharedQueue::new();
    let mut silent = sessions.stream();
    for (name, every, times) in [("ann", 20, 3), ("bob", 25, 1), ("eve", 40, 9)] {
        tokio::spawn(serve(sessions.clone(), name, every, times));
    }
    let mut closed = Vec::new();
    while closed.len() < 3 {
        let connection = silent.next().await.expect("nobody closes the queue");
        closed.push((connection.value, start.elapsed().as_secs()));
    }
    assert_eq!(closed, [("eve", 30), ("bob", 55), ("ann", 90)]);
}
