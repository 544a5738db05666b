//! Leases are granted by one task, which owns the queue, and renewed and given up by their holders.

use hontkhale_tokio::{delay_queue::Key, DelayQueue, Handle};
use std::future::poll_fn;
use tokio::sync::{mpsc, oneshot};
use tokio::time::{sleep, Duration};

const TERM: Duration = Duration::from_secs(10);

/// Asks for a lease on a name.
type Ask = (&'static str, oneshot::Sender<Key>);

/// Grants leases until nobody asks any more, and answers those that ran out.
async fn grant(mut leases: DelayQueue<&'static str>, mut asks: mpsc::Receiver<Ask>) -> Vec<&'static str> {
    let mut ran_out = Vec::new();
    loop {
        tokio::select! {
            Some(lease) = poll_fn(|cx| leases.poll_expired(cx)) => ran_out.push(lease.into_inner()),
            ask = asks.recv() => match ask {
                Some((name, reply)) => {
                    let _ = reply.send(leases.insert(name, TERM));
                }
                None => return ran_out,
            },
        }
    }
}

/// Holds a lease for some terms, and gives it up in time or is silent.
async fn hold(name: &'static str, terms: u32, gives_up: bool, asks: mpsc::Sender<Ask>, leases: Handle) {
    let (reply, granted) = oneshot::channel();
    asks.send((name, reply)).await.expect("the granting task runs");
    let key = granted.await.expect("a lease");
    for _ in 0..terms {
        sleep(TERM / 2).await;
        leases.extend(&key, TERM).expect("the lease hasn't run out");
    }
    if gives_up {
        leases.cancel(&key).expect("the lease hasn't run out");
    } else {
        sleep(2 * TERM).await;
        assert!(leases.extend(&key, TERM).is_err());
    }
}

#[tokio::main(flavor = "current_thread", start_paused = true)]
pub async fn main() {
    let mut leases = DelayQueue::new();
    let handle = leases.handle();
    let (asks, asked) = mpsc::channel(8);
    let holders = [("disk", 9, true), ("shard 7", 4, false), ("leader", 1, false)]
        .map(|(name, terms, gives_up)| tokio::spawn(hold(name, terms, gives_up, asks.clone(), handle.clone())));
    drop(asks);
    assert_eq!(grant(leases, asked).await, ["leader", "shard 7"]);
    for holder in holders {
        holder.await.expect("a holder that is done");
    }
}
