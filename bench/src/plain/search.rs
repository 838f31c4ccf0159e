//! The search of the proved start: where a code would stand among sorted words, by halving steps that do not depend on the words.

use std::hint::select_unpredictable;

pub const MAX_PATTERN: usize = 4_096;

#[inline(always)]
fn bisect(sorted: &[u32], n: usize, code: u32) -> usize {
    let (mut at, mut left) = (0, n);
    while left > 0 {
        let half = left.div_ceil(2);
        at += select_unpredictable(sorted[at + half - 1] < code, half, 0);
        left -= half;
    }
    at
}

/// The number of words below the code. The steps through a full pattern are known beforehand, and are laid out one after the other.
#[inline(always)]
pub fn lower_bound(sorted: &[u32], code: u32) -> usize {
    if sorted.len() == MAX_PATTERN {
        return bisect(sorted, MAX_PATTERN, code);
    }
    bisect(sorted, sorted.len(), code)
}
