//! Keys of k-mers, whose order is that of their ranks. They are floats, since the machine has a least of two floats and none of two
//! such words.
//! Assumes codes below 4^15 and indexes below 1,048,576.

use super::ranks::{rank, unrank};

pub trait Key: Copy + PartialOrd {
    /// Below all keys.
    const NONE: Self;

    /// The key of a code, given the index of the k-mer's last letter.
    fn of(code: u32, last: usize) -> Self;
}

/// The rank alone: equal ranks have equal keys.
impl Key for f32 {
    const NONE: f32 = 0.0;

    #[inline(always)]
    fn of(code: u32, _: usize) -> f32 {
        // above all floats that are not normal, and below those that are not finite
        f32::from_bits(rank(code) + (1 << 23))
    }
}

/// The rank stands above 20 bits that hold 2^20 − 1 − index, in the digits of a float between 1 and 2.
const PLACE: u32 = 20;
const LAST_PLACE: u64 = (1 << PLACE) - 1;
const ONE: u64 = 0x3ff << 52;

/// The rank and the place: among equal ranks the rightmost is the least.
impl Key for f64 {
    const NONE: f64 = 0.0;

    #[inline(always)]
    fn of(code: u32, last: usize) -> f64 {
        f64::from_bits(ONE | u64::from(rank(code)) << PLACE | (LAST_PLACE - last as u64))
    }
}

#[inline(always)]
pub fn code_of(key: f64) -> u32 {
    unrank((key.to_bits() >> PLACE) as u32)
}

/// The index of the k-mer's last letter.
#[inline(always)]
pub fn last_of(key: f64) -> u32 {
    (LAST_PLACE - (key.to_bits() & LAST_PLACE)) as u32
}

/// The least of two keys: one instruction, as `f64::min` is not.
#[inline(always)]
pub fn least<K: Key>(a: K, b: K) -> K {
    if a < b { a } else { b }
}
