//! K-mers, ranks, windows and the sketch, each window looked at by itself.

use super::letters::{Run, runs};
use super::refusal::{Refusal, refused, refused_with};

pub const MAX_K: u32 = 15;
pub const MAX_W: u32 = 64;
pub const MAX_LETTERS: usize = 1_048_576;

/// A k-mer, as its code and its position: "the index, from 0, of its first letter".
#[derive(Clone, Copy, Debug, PartialEq, Eq)]
pub struct Entry {
    pub code: u32,
    pub position: u32,
}

/// "its code reads them as base-4 digits, first letter highest"
pub fn code(values: &[u32]) -> u32 {
    values.iter().fold(0, |code, value| code * 4 + value)
}

/// "(code × 2,654,435,761) mod 2^30"
pub fn rank(code: u32) -> u64 {
    (u64::from(code) * 2_654_435_761) % (1 << 30)
}

/// The k-mers of a run: "k neighbouring letters of one run".
pub fn kmers(run: &Run, k: u32) -> Vec<Entry> {
    let places = run.values.windows(k as usize).enumerate();
    places.map(|(at, values)| Entry { code: code(values), position: (run.first + at) as u32 }).collect()
}

/// "each w neighbouring k-mers form a window; if 1 ≤ n < w, all n form one"
pub fn windows(kmers: &[Entry], w: u32) -> Vec<&[Entry]> {
    let w = w as usize;
    match kmers.len() {
        0 => Vec::new(),
        n if n < w => vec![kmers],
        _ => kmers.windows(w).collect(),
    }
}

/// "A window picks its lowest rank, and among equal ranks the rightmost."
pub fn pick(window: &[Entry]) -> Entry {
    let mut picked = window[0];
    for &kmer in window {
        if rank(kmer.code) <= rank(picked.code) {
            picked = kmer;
        }
    }
    picked
}

/// "the picked k-mers by rising position, each position once"
pub fn sketch(letters: &[u8], k: u32, w: u32) -> Vec<Entry> {
    let mut picked = vec![false; letters.len()];
    let mut all = Vec::new();
    for run in runs(letters) {
        let kmers = kmers(&run, k);
        for window in windows(&kmers, w) {
            picked[pick(window).position as usize] = true;
        }
        all.extend(kmers);
    }
    all.retain(|kmer| picked[kmer.position as usize]);
    all
}

/// The refusals that sketch and count share, in their order: 1, 2, 3.
fn judged(letters: &[u8], k: u32, w: u32) -> Result<(), Refusal> {
    if !(1..=MAX_K).contains(&k) {
        return Err(refused(1));
    }
    if !(1..=MAX_W).contains(&w) {
        return Err(refused(2));
    }
    if letters.len() > MAX_LETTERS {
        return Err(refused(3));
    }
    Ok(())
}

/// The call of sketch, with the lengths of the two buffers.
pub fn sketch_call(letters: &[u8], k: u32, w: u32, codes: usize, positions: usize) -> Result<Vec<Entry>, Refusal> {
    judged(letters, k, w)?;
    let entries = sketch(letters, k, w);
    if codes.min(positions) < entries.len() {
        return Err(refused_with(4, entries.len()));
    }
    Ok(entries)
}

/// The call of count: "the count of entries a sketch would have", or "the refusal number negated".
pub fn count(letters: &[u8], k: u32, w: u32) -> i32 {
    match judged(letters, k, w) {
        Ok(()) => sketch(letters, k, w).len() as i32,
        Err(refusal) => -(refusal.number as i32),
    }
}

/// The codes of a sketch.
pub fn codes(entries: &[Entry]) -> Vec<u32> {
    entries.iter().map(|entry| entry.code).collect()
}

/// The positions of a sketch.
pub fn positions(entries: &[Entry]) -> Vec<u32> {
    entries.iter().map(|entry| entry.position).collect()
}
