//! So many requests of each client within a window: each that is admitted counts until its window is over.

use hontkhale::DelayQueue;
use std::collections::HashMap;
use std::sync::{Mutex, PoisonError};
use std::time::Duration;

pub struct RateLimit {
    pub most: u32,
    pub window: Duration,
    pub admitted: DelayQueue<String>,
    pub counts: Mutex<HashMap<String, u32>>,
}

impl RateLimit {
    /// Whether a request of a client is admitted now. A client that makes none takes no memory.
    pub fn admits(&self, client: &str) -> bool {
        let mut counts = self.counts.lock().unwrap_or_else(PoisonError::into_inner);
        for over in self.admitted.try_iter() {
            match counts.get_mut(&over.value) {
                Some(count) if *count > 1 => *count -= 1,
                _ => drop(counts.remove(&over.value)),
            }
        }
        let is_below = counts.get(client).map_or(true, |count| *count < self.most);
        let admitted = is_below && self.admitted.insert(client.to_string(), self.window).is_ok();
        if admitted {
            *counts.entry(client.to_string()).or_default() += 1;
        }
        admitted
    }
}

#[allow(dead_code)]
fn main() {
    let (admitted, counts) = (DelayQueue::new(), Mutex::default());
    let limit = RateLimit { most: 2, window: Duration::from_secs(1), admitted, counts };
    println!("{:?}", ["ann", "ann", "ann", "bob"].map(|client| limit.admits(client)));
}
