//! A multiplicative hasher: a word costs a rotation and a product.

use std::hash::Hasher;

const FACTOR: u64 = 0xf135_7aea_2e62_a9c5;

#[derive(Default)]
pub(crate) struct Multiplicative(u64);

impl Hasher for Multiplicative {
    fn write(&mut self, bytes: &[u8]) {
        for chunk in bytes.chunks(8) {
            let mut word = [0; 8];
            word[..chunk.len()].copy_from_slice(chunk);
            self.write_u64(u64::from_le_bytes(word));
        }
    }

    fn write_u64(&mut self, word: u64) {
        self.0 = self.0.wrapping_add(word).wrapping_mul(FACTOR);
    }

    /// The map takes the low bits for the place: the high ones of the product are the mixed ones.
    fn finish(&self) -> u64 {
        self.0.rotate_left(26)
    }
}
