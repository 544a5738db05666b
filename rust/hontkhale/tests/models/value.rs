//! Values that own memory and are counted while they live.

use std::sync::atomic::{AtomicU64, Ordering};
use std::sync::Arc;

/// Counts the values that it made and that live still.
#[derive(Clone, Default)]
pub struct Living(Arc<AtomicU64>);

impl Living {
    /// A new value.
    pub fn value(&self, number: u64) -> Value {
        self.0.fetch_add(1, Ordering::SeqCst);
        Value {
            number: Box::new(number),
            living: self.clone(),
        }
    }

    pub fn count(&self) -> u64 {
        self.0.load(Ordering::SeqCst)
    }
}

/// A number in memory of its own.
pub struct Value {
    number: Box<u64>,
    living: Living,
}

impl Value {
    pub fn number(&self) -> u64 {
        *self.number
    }
}

impl Drop for Value {
    fn drop(&mut self) {
        self.living.0.fetch_sub(1, Ordering::SeqCst);
    }
}
