//! The threads that take off what is due, each in the tick of its deadline. They sleep while nothing is.

use crate::keyspace::Keyspace;
use std::sync::Arc;
use std::task::{Context, Wake, Waker};
use std::thread::{self, Thread};
use std::time::Instant;

/// Wakes a keeper for a deadline that is before all that it waits for.
struct Unparks(Thread);

impl Wake for Unparks {
    fn wake(self: Arc<Self>) {
        self.0.unpark();
    }
}

pub fn keep(keyspace: &Keyspace, keeper: usize) {
    let (mut receiver, waker) = (keyspace.receiver(), Waker::from(Arc::new(Unparks(thread::current()))));
    loop {
        if !keyspace.take_off(keeper, || receiver.poll_recv(&mut Context::from_waker(&waker))) {
            match receiver.wake_at() {
                Some(when) => thread::park_timeout(when.saturating_duration_since(Instant::now())),
                None => thread::park(),
            }
        }
    }
}
