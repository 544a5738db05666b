//! One timer of tokio's, which is set anew for each moment.
//!
//! A timer belongs to the runtime in which it was made, and stands still while that one isn't driven. So it is made anew, in
//! its place, where the next wait may be in another runtime.

use std::future::Future;
use std::pin::Pin;
use std::task::{Context, Poll, Waker};
use tokio::time::{sleep_until, Instant, Sleep};

#[derive(Default)]
pub(crate) struct Timer {
    sleep: Option<Pin<Box<Sleep>>>,
    /// The task that was noted last, in whose runtime the timer is.
    pub task: Option<Waker>,
    /// Whether the next wait may be in another runtime than the last.
    is_left: bool,
}

impl Timer {
    /// The next wait may be in another runtime.
    #[inline]
    pub fn leave(&mut self) {
        self.is_left = true;
    }

    /// Whether that task was noted last.
    #[inline]
    pub fn is_of(&self, waker: &Waker) -> bool {
        self.task.as_ref().is_some_and(|task| task.will_wake(waker))
    }

    /// Notes the task that is to wait. Another one than before may be in another runtime, and then the timer is of no use there.
    #[inline]
    pub fn note_task(&mut self, waker: &Waker) {
        if !self.is_of(waker) {
            self.task = Some(waker.clone());
            self.leave();
        }
    }

    /// Sleeps on where a poll was pending: ready where that moment is reached, or the next wait may be in another runtime.
    #[inline]
    pub fn poll_again(&mut self, cx: &mut Context<'_>) -> Poll<()> {
        match &mut self.sleep {
            Some(sleep) if !self.is_left && !sleep.is_elapsed() => sleep.as_mut().poll(cx),
            _ => Poll::Ready(()),
        }
    }

    /// Sleeps until a moment: ready where it is reached.
    #[inline]
    pub fn poll_until(&mut self, moment: Instant, cx: &mut Context<'_>) -> Poll<()> {
        let sleep = self.sleep.get_or_insert_with(|| new_sleep(moment));
        let is_elapsed = sleep.is_elapsed();
        if is_elapsed && sleep.deadline() == moment && moment <= Instant::now() {
            return Poll::Ready(());
        }
        if is_elapsed || self.is_left {
            // It has fired, or its runtime has gone: polled again, it would panic then.
            renew(sleep.as_mut(), moment);
        } else if sleep.deadline() != moment {
            sleep.as_mut().reset(moment);
        }
        self.is_left = false;
        sleep.as_mut().poll(cx)
    }
}

/// A timer, which is large: it is made where a poll's own frame doesn't hold it.
#[cold]
#[inline(never)]
fn new_sleep(moment: Instant) -> Pin<Box<Sleep>> {
    Box::pin(sleep_until(moment))
}

/// The timer of the present runtime, in the place of another.
#[inline(never)]
fn renew(mut sleep: Pin<&mut Sleep>, moment: Instant) {
    sleep.set(sleep_until(moment));
}
