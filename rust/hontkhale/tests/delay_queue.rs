//! The queue that a server just uses: what it promises, by tests of one call, by models, and by threads.
//!
//! The seeds are fixed. `HONTKHALE_CALLS=10000000` makes ten million calls of each model.

#[allow(dead_code)]
#[path = "models/draw.rs"]
mod draw;

#[path = "delay_queue/closing.rs"]
mod closing;
#[path = "delay_queue/drops.rs"]
mod drops;
#[path = "delay_queue/due.rs"]
mod due;
#[path = "delay_queue/ends.rs"]
mod ends;
#[path = "delay_queue/growth.rs"]
mod growth;
#[path = "delay_queue/hostile.rs"]
mod hostile;
#[path = "delay_queue/inputs.rs"]
mod inputs;
#[path = "delay_queue/keys.rs"]
mod keys;
#[path = "delay_queue/long.rs"]
mod long;
#[path = "delay_queue/model.rs"]
mod model;
#[path = "delay_queue/moves.rs"]
mod moves;
#[path = "delay_queue/receivers.rs"]
mod receivers;
#[path = "delay_queue/servers.rs"]
mod servers;
#[path = "delay_queue/tasks.rs"]
mod tasks;
#[path = "delay_queue/threads.rs"]
mod threads;
#[path = "delay_queue/user_code.rs"]
mod user_code;
#[path = "delay_queue/values.rs"]
mod values;

mod kit {
    //! What the tests share: a time limit, drawn numbers, and values that are counted.

    use std::collections::HashMap;
    use std::fmt;
    use std::sync::mpsc::{channel, RecvTimeoutError};
    use std::sync::{Arc, Mutex};
    use std::thread;
    use std::time::Duration;

    /// A deadline that no test waits for.
    pub const FAR: Duration = Duration::from_secs(100_000);

    pub fn ms(millis: u64) -> Duration {
        Duration::from_millis(millis)
    }

    /// Runs a test in a thread of its own. It fails where the test does, and where it hangs.
    pub fn within_the_limit(test: impl FnOnce() + Send + 'static) {
        let (done, waits) = channel();
        let runs = thread::spawn(move || {
            test();
            let _ = done.send(());
        });
        match waits.recv_timeout(Duration::from_secs(120)) {
            Err(RecvTimeoutError::Timeout) => panic!("it hangs"),
            _ => runs.join().expect("the test passes"),
        }
    }

    /// How often each value was dropped.
    #[derive(Clone, Default)]
    pub struct Drops(Arc<Mutex<HashMap<u64, usize>>>);

    impl Drops {
        pub fn value(&self, number: u64) -> Value {
            Value {
                number,
                drops: self.clone(),
                then: None,
            }
        }

        pub fn count(&self, number: u64) -> usize {
            self.0.lock().unwrap().get(&number).copied().unwrap_or(0)
        }

        /// Whether each of so many values was dropped once.
        pub fn are_once(&self, values: u64) -> bool {
            (0..values).all(|number| self.count(number) == 1)
        }
    }

    /// A value that counts its drop, and then makes a call of its own.
    pub struct Value {
        pub number: u64,
        drops: Drops,
        then: Option<Box<dyn FnOnce() + Send>>,
    }

    impl Value {
        pub fn then(mut self, call: impl FnOnce() + Send + 'static) -> Value {
            self.then = Some(Box::new(call));
            self
        }
    }

    impl PartialEq for Value {
        fn eq(&self, other: &Value) -> bool {
            self.number == other.number
        }
    }

    impl fmt::Debug for Value {
        fn fmt(&self, f: &mut fmt::Formatter<'_>) -> fmt::Result {
            f.debug_tuple("Value").field(&self.number).finish()
        }
    }

    impl Drop for Value {
        fn drop(&mut self) {
            *self.drops.0.lock().unwrap().entry(self.number).or_default() += 1;
            if let Some(then) = self.then.take() {
                then();
            }
        }
    }
}
