//! Both strikes as one would write them in Rust at first: a hash map of counts.

use std::collections::HashMap;

use super::strike::refusal;

/// Writes the entries of the read that stay and returns their number, or the refusal number negated.
pub fn strike_read(
    text: &[u32],
    codes: &[u32],
    positions: &[u32],
    c: u32,
    out_codes: &mut [u32],
    out_positions: &mut [u32],
) -> i32 {
    let number = refusal(text, codes, positions, c);
    if number != 0 {
        return -number;
    }
    let mut counts: HashMap<u32, u32> = HashMap::new();
    for &code in text {
        *counts.entry(code).or_default() += 1;
    }
    let stays = |code: &u32| counts.get(code).is_none_or(|&times| times <= c);
    let room = out_codes.len().min(out_positions.len());
    if room < codes.len() && room < codes.iter().filter(|&code| stays(code)).count() {
        return -4;
    }
    let mut at = 0;
    for (&code, &position) in codes.iter().zip(positions) {
        if stays(&code) {
            out_codes[at] = code;
            out_positions[at] = position;
            at += 1;
        }
    }
    at as i32
}

/// The same of a text, which decides on its own entries.
pub fn strike(codes: &[u32], positions: &[u32], c: u32, out_codes: &mut [u32], out_positions: &mut [u32]) -> i32 {
    strike_read(codes, codes, positions, c, out_codes, out_positions)
}
