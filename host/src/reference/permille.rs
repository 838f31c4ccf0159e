//! The per mille of a mapping.

use super::start::MAX_PATTERN;
use super::strike::MAX_TEXT;

/// "m over len or over the pattern's length, len over 65,535, pattern over 4,096, or both lengths 0"
pub fn is_refused(m: u32, len: u32, size: u32) -> bool {
    m > len || m > size || len as usize > MAX_TEXT || size as usize > MAX_PATTERN || (len == 0 && size == 0)
}

/// 1,000·m / (len + |p| − m), rounded "to the nearest whole number, an exact half to the even one", or 16 negated. Of the two neighbours
/// of the fraction the nearer one is taken, and of two that are equally near the even one.
pub fn per_mille(m: u32, len: u32, size: u32) -> i32 {
    if is_refused(m, len, size) {
        return -16;
    }
    let (n, d) = (1_000 * u64::from(m), u64::from(len) + u64::from(size) - u64::from(m));
    let below = n / d;
    let nearest = [below, below + 1].into_iter().min_by_key(|&q| (n.abs_diff(q * d), q % 2));
    nearest.expect("two neighbours") as i32
}
