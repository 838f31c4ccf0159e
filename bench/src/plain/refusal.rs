//! What refuses a sketch or a count, in the order of the proved functions.

/// The number that refuses these arguments, or 0.
pub fn refusal(letters: &[u8], k: u32, w: u32) -> i32 {
    if !(1..=15).contains(&k) {
        return 1;
    }
    if !(1..=64).contains(&w) {
        return 2;
    }
    if letters.len() > 1_048_576 {
        return 3;
    }
    0
}
