//! The reverse complement by the algorithm of the proved function: the read from its end to its start, a match at each letter.

/// The complement of a letter, in upper case; any other byte is kept.
#[inline(always)]
pub const fn complement(letter: u8) -> u8 {
    match letter {
        b'A' | b'a' => b'T',
        b'C' | b'c' => b'G',
        b'G' | b'g' => b'C',
        b'T' | b't' => b'A',
        _ => letter,
    }
}

/// Writes the reverse complement and returns its length, or the refusal number negated.
pub fn reverse_complement(read: &[u8], out: &mut [u8]) -> i32 {
    let n = read.len();
    if out.len() < n {
        return -4;
    }
    let mut i = 0;
    while i < n {
        out[i] = complement(read[n - 1 - i]);
        i += 1;
    }
    n as i32
}
