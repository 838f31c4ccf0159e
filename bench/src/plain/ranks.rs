//! Codes of k-mers: the next one, the rank of one, and the code that a rank gives back.

/// Ranks are taken modulo 2^30.
const RANKS: u32 = (1 << 30) - 1;
const MULTIPLIER: u32 = 2_654_435_761;
/// MULTIPLIER · INVERSE is 1 mod 2^30.
const INVERSE: u32 = 244_002_641;

#[inline(always)]
pub fn rank(code: u32) -> u32 {
    code.wrapping_mul(MULTIPLIER) & RANKS
}

#[inline(always)]
pub fn unrank(rank: u32) -> u32 {
    rank.wrapping_mul(INVERSE) & RANKS
}

/// The code with one more digit behind, of which `last` digits and the new one are kept.
#[inline(always)]
pub fn next_code(code: u32, digit: u8, last: usize) -> u32 {
    (code * 4 + u32::from(digit)) & ((4 << (2 * last)) - 1)
}
