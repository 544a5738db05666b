//! What the tests of tokio_util use of the crate tokio_test, which Debian hasn't: a task that is polled by hand and tells whether
//! it was woken.

#[macro_export]
macro_rules! assert_ready {
    ($polled:expr) => {
        match $polled {
            std::task::Poll::Ready(value) => value,
            std::task::Poll::Pending => panic!("pending"),
        }
    };
}
#[macro_export]
macro_rules! assert_pending {
    ($polled:expr) => {
        assert!($polled.is_pending(), "ready")
    };
}

pub mod task {
    use std::ops::{Deref, DerefMut};
    use std::pin::Pin;
    use std::sync::atomic::{AtomicBool, Ordering::SeqCst};
    use std::sync::Arc;
    use std::task::{Context, Wake, Waker};

    #[derive(Default)]
    struct Flag(AtomicBool);

    impl Wake for Flag {
        fn wake(self: Arc<Self>) {
            self.0.store(true, SeqCst);
        }
    }

    pub struct Spawn<T> {
        flag: Arc<Flag>,
        held: T,
    }

    pub fn spawn<T>(held: T) -> Spawn<T> {
        Spawn { flag: Arc::default(), held }
    }

    impl<T: Unpin> Spawn<T> {
        pub fn enter<R>(&mut self, call: impl FnOnce(&mut Context<'_>, Pin<&mut T>) -> R) -> R {
            self.flag.0.store(false, SeqCst);
            let waker = Waker::from(self.flag.clone());
            call(&mut Context::from_waker(&waker), Pin::new(&mut self.held))
        }

        pub fn is_woken(&self) -> bool {
            self.flag.0.load(SeqCst)
        }
    }

    impl<T> Deref for Spawn<T> {
        type Target = T;

        fn deref(&self) -> &T {
            &self.held
        }
    }

    impl<T> DerefMut for Spawn<T> {
        fn deref_mut(&mut self) -> &mut T {
            &mut self.held
        }
    }
}
