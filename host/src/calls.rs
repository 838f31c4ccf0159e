//! The nine calls with answers as a Rust program wants them: a result, or a refusal.

use crate::exported::{self, StepWords};
use crate::reference::refusal::{Refusal, refused, refused_with};

/// The value answered where the number is 0. Only 4, 11, 12, 13 and 14 have a second value.
fn answered(number: u32, value: usize) -> Result<usize, Refusal> {
    match number {
        0 => Ok(value),
        4 | 11..=14 => Err(refused_with(number, value)),
        _ => Err(refused(number)),
    }
}

/// The number of bytes written.
pub fn reverse_complement(read: &[u8], out: &mut [u8]) -> Result<usize, Refusal> {
    let mut number = 0;
    let value = exported::reverse_complement(read, out, &mut number);
    answered(number, value)
}

/// The number of entries written.
pub fn sketch(letters: &[u8], k: u32, w: u32, codes: &mut [u32], positions: &mut [u32]) -> Result<usize, Refusal> {
    let mut number = 0;
    let value = exported::sketch(letters, k, w, codes, positions, &mut number);
    answered(number, value)
}

/// The number of entries written.
pub fn strike(
    codes: &[u32],
    positions: &[u32],
    c: u32,
    codes_out: &mut [u32],
    positions_out: &mut [u32],
) -> Result<usize, Refusal> {
    let mut number = 0;
    let value = exported::strike(codes, positions, c, codes_out, positions_out, &mut number);
    answered(number, value)
}

/// The number of the read's entries written, those that the text's codes do not strike.
pub fn strike_read(
    text: &[u32],
    codes: &[u32],
    positions: &[u32],
    c: u32,
    codes_out: &mut [u32],
    positions_out: &mut [u32],
) -> Result<usize, Refusal> {
    let mut number = 0;
    let value = exported::strike_read(text, codes, positions, c, codes_out, positions_out, &mut number);
    answered(number, value)
}

/// The number of words written.
pub fn save(codes: &[u32], positions: &[u32], k: u32, w: u32, words: &mut [u32]) -> Result<usize, Refusal> {
    let mut number = 0;
    let value = exported::save(codes, positions, k, w, words, &mut number);
    answered(number, value)
}

/// A loaded store: its k and w, and the number of entries written.
#[derive(Clone, Copy, Debug, PartialEq, Eq)]
pub struct Loaded {
    pub k: u32,
    pub w: u32,
    pub entries: usize,
}

pub fn load(words: &[u32], codes: &mut [u32], positions: &mut [u32]) -> Result<Loaded, Refusal> {
    let (mut k, mut w, mut number) = (0, 0, 0);
    let value = exported::load(words, codes, positions, &mut k, &mut w, &mut number);
    answered(number, value).map(|entries| Loaded { k, w, entries })
}

/// h.
pub fn start(text: &[u32], pattern: &[u32], u: u32, v: u32, threshold: i32, work: &mut [u32]) -> Result<usize, Refusal> {
    let mut number = 0;
    let value = exported::start(text, pattern, u, v, threshold, work, &mut number);
    answered(number, value)
}

/// h, under the weighted Jaccard with the threshold f/g.
pub fn start_jaccard(text: &[u32], pattern: &[u32], f: u32, g: u32, work: &mut [u32]) -> Result<usize, Refusal> {
    let mut number = 0;
    let value = exported::start_jaccard(text, pattern, f, g, work, &mut number);
    answered(number, value)
}

/// What a step answers.
#[derive(Clone, Copy, Debug, PartialEq, Eq)]
pub enum Stepped {
    Found {
        a: u32,
        b: u32,
        score: i32,
        m: u32,
        cells: u32,
    },
    /// under Jaccard, whose score is m over the divisor
    FoundJaccard {
        a: u32,
        b: u32,
        m: u32,
        divisor: u32,
        cells: u32,
    },
    Finished(u32),
    Spent(u32),
    Refused(u32),
}

/// The answer of a step with this kind and these words.
pub fn stepped(kind: u32, words: StepWords) -> Stepped {
    let StepWords { a, b, score, m, cells } = words;
    match kind {
        0 => Stepped::Found { a, b, score, m, cells },
        1 => Stepped::Finished(cells),
        2 => Stepped::Spent(cells),
        3 => Stepped::FoundJaccard { a, b, m, divisor: score as u32, cells },
        number => Stepped::Refused(number),
    }
}

pub fn step(work: &mut [u32], budget: u32) -> Stepped {
    let mut words = StepWords::default();
    let kind = exported::step(work, budget, &mut words);
    stepped(kind, words)
}
