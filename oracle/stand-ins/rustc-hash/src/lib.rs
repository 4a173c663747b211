//! Stand-in for `rustc_hash`: FxHashMap, FxHasher and FxBuildHasher, as far as the three files use them.
//! The start value of every hash is read once from ORACLE_SEED (a decimal number, 0 if absent), so that a run
//! can show whether any answer depends on these hashes.

use std::hash::{BuildHasher, Hasher};
use std::sync::OnceLock;

pub type FxHashMap<K, V> = std::collections::HashMap<K, V, FxBuildHasher>;

const FACTOR: u64 = 0xf135_7aea_2e62_a9c5;

fn seed() -> u64 {
    static SEED: OnceLock<u64> = OnceLock::new();
    *SEED.get_or_init(|| {
        std::env::var("ORACLE_SEED").ok().and_then(|s| s.parse().ok()).unwrap_or(0)
    })
}

#[derive(Debug, Clone, Copy)]
pub struct FxHasher(u64);

impl Default for FxHasher {
    fn default() -> Self {
        FxHasher(seed())
    }
}

impl FxHasher {
    #[inline]
    fn add(&mut self, word: u64) {
        self.0 = self.0.wrapping_add(word).wrapping_mul(FACTOR);
    }
}

impl Hasher for FxHasher {
    fn write(&mut self, bytes: &[u8]) {
        for chunk in bytes.chunks(8) {
            let mut word = [0; 8];
            word[..chunk.len()].copy_from_slice(chunk);
            self.add(u64::from_le_bytes(word));
        }
        self.add(bytes.len() as u64);
    }
    #[inline]
    fn write_u8(&mut self, i: u8) { self.add(i.into()); }
    #[inline]
    fn write_u16(&mut self, i: u16) { self.add(i.into()); }
    #[inline]
    fn write_u32(&mut self, i: u32) { self.add(i.into()); }
    #[inline]
    fn write_u64(&mut self, i: u64) { self.add(i); }
    #[inline]
    fn write_usize(&mut self, i: usize) { self.add(i as u64); }
    #[inline]
    fn finish(&self) -> u64 { self.0.rotate_left(26) }
}

#[derive(Debug, Clone, Copy, Default)]
pub struct FxBuildHasher;

impl BuildHasher for FxBuildHasher {
    type Hasher = FxHasher;
    #[inline]
    fn build_hasher(&self) -> FxHasher { FxHasher::default() }
}
