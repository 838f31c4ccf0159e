//! Both strikes by the algorithm of the proved functions: the entries are taken in blocks, each block is marked, and its marked entries
//! are copied without a branch.

use super::marking::{MAX_TEXT, mark_rare};

/// The number that refuses these arguments, or 0. The text decides; codes and positions are what is struck.
pub fn refusal(text: &[u32], codes: &[u32], positions: &[u32], c: u32) -> i32 {
    if codes.len() != positions.len() {
        return 5;
    }
    if text.len() > MAX_TEXT {
        return 8;
    }
    if !(1..=65_535).contains(&c) {
        return 6;
    }
    0
}

/// Marks the entries of a block, and answers how many stay.
fn mark_block(text: &[u32], block: &[u32], c: u32, marks: &mut [u8]) -> usize {
    mark_rare(text, block, c, marks);
    marks.iter().map(|&mark| usize::from(mark)).sum()
}

/// Copies the n marked words to the start of `out`. A word that is not marked is written too, where the next marked one then goes.
fn copy_marked(words: &[u32], marks: &[u8], n: usize, out: &mut [u32]) {
    let (mut index, mut at) = (0, 0);
    while at < n {
        out[at] = words[index];
        at += usize::from(marks[index]);
        index += 1;
    }
}

/// Writes the entries of the read that stay and returns their number, or the refusal number negated. They are counted before where the
/// buffers may be too short.
pub fn strike_read(
    text: &[u32],
    codes: &[u32],
    positions: &[u32],
    c: u32,
    out_codes: &mut [u32],
    out_positions: &mut [u32],
) -> i32 {
    let number = refusal(text, codes, positions, c);
    if number != 0 {
        return -number;
    }
    let mut marks = [0; MAX_TEXT];
    let room = out_codes.len().min(out_positions.len());
    if room < codes.len() {
        let rest: usize = codes.chunks(MAX_TEXT).map(|block| mark_block(text, block, c, &mut marks[..block.len()])).sum();
        if room < rest {
            return -4;
        }
    }
    let mut at = 0;
    for (block, places) in codes.chunks(MAX_TEXT).zip(positions.chunks(MAX_TEXT)) {
        let marks = &mut marks[..block.len()];
        let n = mark_block(text, block, c, marks);
        copy_marked(block, marks, n, &mut out_codes[at..]);
        copy_marked(places, marks, n, &mut out_positions[at..]);
        at += n;
    }
    at as i32
}

/// The same of a text, which decides on its own entries.
pub fn strike(codes: &[u32], positions: &[u32], c: u32, out_codes: &mut [u32], out_positions: &mut [u32]) -> i32 {
    strike_read(codes, codes, positions, c, out_codes, out_positions)
}
