//! Stand-in for `rand`: `random`, `random_range`, `rng` and `seq::SliceRandom::shuffle`. None of the functions that the
//! oracle runs draws from it.

use std::cell::Cell;

thread_local!(static STATE: Cell<u64> = const { Cell::new(0x9e37_79b9_7f4a_7c15) });

fn next() -> u64 {
    STATE.with(|s| {
        let mut x = s.get();
        x ^= x << 13;
        x ^= x >> 7;
        x ^= x << 17;
        s.set(x);
        x.wrapping_mul(0x2545_f491_4f6c_dd1d)
    })
}

pub trait Random {
    fn random() -> Self;
}
impl Random for bool {
    fn random() -> bool { next() >> 63 == 1 }
}
impl Random for f64 {
    fn random() -> f64 { (next() >> 11) as f64 / (1u64 << 53) as f64 }
}

pub fn random<T: Random>() -> T { T::random() }

pub fn random_range(range: std::ops::Range<usize>) -> usize {
    assert!(range.start < range.end);
    range.start + (next() % (range.end - range.start) as u64) as usize
}

pub struct Rng;
pub fn rng() -> Rng { Rng }

pub mod seq {
    pub trait SliceRandom {
        fn shuffle(&mut self, rng: &mut super::Rng);
    }
    impl<T> SliceRandom for [T] {
        fn shuffle(&mut self, _rng: &mut super::Rng) {
            for i in (1..self.len()).rev() { self.swap(i, super::random_range(0..i + 1)); }
        }
    }
}
