//! The store of a sketch: its words, saving, and loading with the first bad word named.

use super::refusal::{Refusal, refused, refused_with};
use super::sketch::{Entry, MAX_K, MAX_LETTERS, MAX_W};

/// What a store holds.
#[derive(Clone, Debug, PartialEq, Eq)]
pub struct Stored {
    pub k: u32,
    pub w: u32,
    pub entries: Vec<Entry>,
}

/// A word of this kind: "The top two bits are the kind."
fn word(kind: u32, content: u32) -> u32 {
    kind << 30 | content
}

fn kind(word: u32) -> u32 {
    word >> 30
}

fn content(word: u32) -> u32 {
    word & 0x3fff_ffff
}

/// "code, below 4^k"
fn is_code(k: u32, code: u32) -> bool {
    u64::from(code) < 4u64.pow(k)
}

/// "position, at most 1,048,575, rising strictly"
fn is_position(before: Option<u32>, position: u32) -> bool {
    (position as usize) < MAX_LETTERS && before.is_none_or(|before| before < position)
}

fn is_storable(k: u32, codes: &[u32], positions: &[u32]) -> bool {
    let before = |at: usize| at.checked_sub(1).map(|at| positions[at]);
    codes.len() == positions.len()
        && codes.iter().all(|&code| is_code(k, code))
        && (0..positions.len()).all(|at| is_position(before(at), positions[at]))
}

/// The call of save, with the length of the output buffer. Refusals in their order: 1, 2, 5, 4.
pub fn save(k: u32, w: u32, codes: &[u32], positions: &[u32], room: usize) -> Result<Vec<u32>, Refusal> {
    if !(1..=MAX_K).contains(&k) {
        return Err(refused(1));
    }
    if !(1..=MAX_W).contains(&w) {
        return Err(refused(2));
    }
    if !is_storable(k, codes, positions) {
        return Err(refused(5));
    }
    let mut words = vec![word(0, w << 5 | k)];
    for (&code, &position) in codes.iter().zip(positions) {
        words.push(word(1, code));
        words.push(word(2, position));
    }
    words.push(word(3, codes.len() as u32));
    if room < words.len() {
        return Err(refused_with(4, words.len()));
    }
    Ok(words)
}

/// Word 0: "kind 0, k in bits 0–4, w in bits 5–11, bits 12–29 zero", with k 1–15 and w 1–64.
fn head(words: &[u32]) -> Result<(u32, u32), Refusal> {
    let word = *words.first().ok_or(refused_with(12, 0))?;
    let (k, w) = (word & 0x1f, word >> 5 & 0x7f);
    let laid_out = kind(word) == 0 && content(word) >> 12 == 0;
    if laid_out && (1..=MAX_K).contains(&k) && (1..=MAX_W).contains(&w) { Ok((k, w)) } else { Err(refused_with(12, 0)) }
}

/// What the words hold, judged in order: 12, 13 and 14 as met.
fn judged(words: &[u32]) -> Result<Stored, Refusal> {
    let (k, w) = head(words)?;
    let mut entries: Vec<Entry> = Vec::new();
    let mut at = 1;
    loop {
        let word = *words.get(at).ok_or(refused_with(14, at))?;
        if kind(word) == 3 {
            break;
        }
        if kind(word) != 1 || !is_code(k, content(word)) {
            return Err(refused_with(13, at));
        }
        let next = *words.get(at + 1).ok_or(refused_with(14, at + 1))?;
        let before = entries.last().map(|entry| entry.position);
        if kind(next) != 2 || !is_position(before, content(next)) {
            return Err(refused_with(13, at + 1));
        }
        entries.push(Entry { code: content(word), position: content(next) });
        at += 2;
    }
    if content(words[at]) as usize != entries.len() {
        return Err(refused_with(14, at));
    }
    if at + 1 < words.len() {
        return Err(refused_with(14, at + 1));
    }
    Ok(Stored { k, w, entries })
}

/// The call of load, with the lengths of the two buffers: 12, 13, 14 as met, then 4.
pub fn load(words: &[u32], codes: usize, positions: usize) -> Result<Stored, Refusal> {
    let stored = judged(words)?;
    if codes.min(positions) < stored.entries.len() {
        return Err(refused_with(4, stored.entries.len()));
    }
    Ok(stored)
}
