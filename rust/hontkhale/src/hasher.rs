//! How the numbers of ids are hashed. The queue gave them itself, so nobody chooses some that collide.

use std::hash::{BuildHasherDefault, Hasher};

pub(crate) type NumberHash = BuildHasherDefault<NumberHasher>;

#[derive(Default)]
pub(crate) struct NumberHasher {
    mixed: u64,
}

impl Hasher for NumberHasher {
    fn write(&mut self, bytes: &[u8]) {
        bytes.iter().for_each(|byte| self.write_u32(u32::from(*byte)));
    }

    #[inline]
    fn write_u32(&mut self, number: u32) {
        // 2^64 by the golden ratio. A product's upper half is mixed best, and the next one begins with it.
        self.mixed = (self.mixed.rotate_left(32) ^ u64::from(number)).wrapping_mul(0x9e37_79b9_7f4a_7c15);
    }

    #[inline]
    fn finish(&self) -> u64 {
        self.mixed.rotate_left(32)
    }
}
