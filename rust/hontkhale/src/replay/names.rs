//! The live names, each with the key of its entry.

use crate::memory::AllocError;
use crate::replay::name::Name;
use crate::ticks::Key;
use std::collections::HashMap;

/// Names with their keys. A name is found in constant time.
pub struct Names {
    keys: HashMap<Name, Key>,
}

impl Names {
    pub fn new() -> Names {
        Names { keys: HashMap::new() }
    }

    pub fn len(&self) -> usize {
        self.keys.len()
    }

    /// The key of a name.
    pub fn get(&self, name: &Name) -> Option<Key> {
        self.keys.get(name).copied()
    }

    /// Makes room for one more name.
    pub fn make_room(&mut self) -> Result<(), AllocError> {
        Ok(self.keys.try_reserve(1)?)
    }

    /// Gives a name a key, for which there is room or which has one.
    pub fn put(&mut self, name: Name, key: Key) {
        // requires (0 < self.old.spare) ⊎ IsSome (found_in self.old name)
        self.keys.insert(name, key);
    }

    /// Takes a name out.
    pub fn remove(&mut self, name: &Name) {
        self.keys.remove(name);
    }

    /// Takes all names out.
    pub fn clear(&mut self) {
        self.keys.clear();
    }
}
