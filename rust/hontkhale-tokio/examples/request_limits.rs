//! Requests that aren't answered in two seconds are given up. An answer in time cancels the limit, without a message.

use hontkhale_tokio::DelayQueue;
use std::future::poll_fn;
use tokio::sync::oneshot;
use tokio::time::{sleep, Duration};

const LIMIT: Duration = Duration::from_secs(2);

#[tokio::main(flavor = "current_thread", start_paused = true)]
pub async fn main() {
    let mut limits = DelayQueue::new();
    let handle = limits.handle();
    let requests: Vec<_> = [500, 5_000, 1_900, 2_100]
        .map(|millis| {
            let (late, is_late) = oneshot::channel();
            let key = limits.insert(late, LIMIT);
            let handle = handle.clone();
            tokio::spawn(async move {
                tokio::select! {
                    _ = sleep(Duration::from_millis(millis)) => {
                        // Where the limit was reached at this very moment it has ended, and either answer is right.
                        let _ = handle.cancel(&key);
                        format!("answered after {millis} ms")
                    }
                    Ok(()) = is_late => format!("given up, it would take {millis} ms"),
                }
            })
        })
        .into();
    while let Some(late) = poll_fn(|cx| limits.poll_expired(cx)).await {
        // A request that is over has dropped its end.
        let _ = late.into_inner().send(());
    }
    let mut answers = Vec::new();
    for request in requests {
        answers.push(request.await.expect("a request that is done"));
    }
    assert_eq!(
        answers,
        [
            "answered after 500 ms",
            "given up, it would take 5000 ms",
            "answered after 1900 ms",
            "given up, it would take 2100 ms",
        ]
    );
}
