//! The reverse complement of a read: "letters in reverse order, A with T and C with G, other bytes kept".

use super::refusal::{Refusal, refused_with};

/// "A with T and C with G"
const PAIRS: [(u8, u8); 2] = [(b'A', b'T'), (b'C', b'G')];

/// The other letter of a pair, in upper case: "The eight letters come out in upper case". Any other byte is kept.
pub fn complement(letter: u8) -> u8 {
    let upper = letter.to_ascii_uppercase();
    for (one, other) in PAIRS {
        if upper == one {
            return other;
        }
        if upper == other {
            return one;
        }
    }
    letter
}

/// The complements of the letters, the last letter's first.
pub fn reverse_complement(read: &[u8]) -> Vec<u8> {
    read.iter().rev().map(|&letter| complement(letter)).collect()
}

/// The call, with the length of the output: "An output shorter than the read gets number 4 with the bytes needed".
pub fn reverse_complement_call(read: &[u8], room: usize) -> Result<Vec<u8>, Refusal> {
    if room < read.len() {
        return Err(refused_with(4, read.len()));
    }
    Ok(reverse_complement(read))
}
