//! The filter of the proved strikes: words are counted in slots by a multiplicative hash. A word occurs at most as often as its slot
//! holds words, so only those of crowded slots need be sorted.

pub const SLOTS: usize = 1 << 16;

#[inline(always)]
pub fn slot(word: u32) -> usize {
    (word.wrapping_mul(2_246_822_519) >> 16) as usize
}

/// Writes the words whose slots hold more than `limit` words to the start of `out`, and answers their number. Another word is written
/// too, where the next one then goes.
pub fn suspects(words: &[u32], limit: u32, out: &mut [u32]) -> usize {
    let mut slots = [0u16; SLOTS];
    for &word in words {
        slots[slot(word)] += 1;
    }
    let mut at = 0;
    for &word in words {
        out[at] = word;
        at += usize::from(u32::from(slots[slot(word)]) > limit);
    }
    at
}
