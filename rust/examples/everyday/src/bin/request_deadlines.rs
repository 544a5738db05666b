//! Requests that are answered, or told that they took too long, whichever comes first and never both.

use hontkhale::DelayQueue;
use std::sync::mpsc::{channel, Receiver, Sender};
use std::thread;
use std::time::Duration;

#[derive(Debug, PartialEq, Eq)]
pub enum Reply {
    Answer(u64),
    TooLate,
}

/// Has the work done in a thread. The reply is there at the deadline at the latest.
pub fn ask(
    deadlines: &DelayQueue<Sender<Reply>>,
    within: Duration,
    work: impl FnOnce() -> u64 + Send + 'static,
) -> Receiver<Reply> {
    let (sends, replies) = channel();
    let deadline = deadlines.guard(sends, within).expect("an open queue");
    thread::spawn(move || {
        let answer = work();
        deadline.cancel().map(|sends| sends.send(Reply::Answer(answer)))
    });
    replies
}

/// Tells those whose deadline is over, until the queue is closed.
pub fn tell_late_ones(deadlines: &DelayQueue<Sender<Reply>>) {
    deadlines.iter().for_each(|late| drop(late.value.send(Reply::TooLate)));
}

#[allow(dead_code)]
fn main() {
    let deadlines = DelayQueue::new();
    let late = deadlines.clone();
    thread::spawn(move || tell_late_ones(&late));
    println!("{:?}", ask(&deadlines, Duration::from_secs(1), || 42).recv());
}
