//! Striking of frequent k-mers, from a text sketch and from a read's.

use std::collections::BTreeMap;

use super::refusal::{Refusal, refused, refused_with};
use super::sketch::Entry;

pub const MAX_STRIKE: u32 = 65_535;
pub const MAX_TEXT: usize = 65_535;

/// How often each code occurs.
pub fn occurrences(codes: impl Iterator<Item = u32>) -> BTreeMap<u32, usize> {
    let mut counts = BTreeMap::new();
    for code in codes {
        *counts.entry(code).or_insert(0) += 1;
    }
    counts
}

/// "drops each text entry whose code occurs more than c times in the text sketch. The rest keep order and positions."
pub fn strike(entries: &[Entry], c: u32) -> Vec<Entry> {
    let counts = occurrences(entries.iter().map(|entry| entry.code));
    entries.iter().copied().filter(|entry| counts[&entry.code] <= c as usize).collect()
}

/// "A code struck from the text is now also dropped from the pattern": the read's entries whose code is not one of those that occur more
/// than c times among the unstruck text's. A code that the text lacks is not struck from it.
pub fn strike_read(text: &[u32], read: &[Entry], c: u32) -> Vec<Entry> {
    let mut struck = occurrences(text.iter().copied());
    struck.retain(|_, times| *times > c as usize);
    read.iter().copied().filter(|entry| !struck.contains_key(&entry.code)).collect()
}

/// The entries of codes and positions that are to be struck by a text of so many entries. Refusals in their order: 5, 8, 6.
fn judged(text: usize, codes: &[u32], positions: &[u32], c: u32) -> Result<Vec<Entry>, Refusal> {
    if codes.len() != positions.len() {
        return Err(refused(5));
    }
    if text > MAX_TEXT {
        return Err(refused(8));
    }
    if !(1..=MAX_STRIKE).contains(&c) {
        return Err(refused(6));
    }
    let pairs = codes.iter().zip(positions);
    Ok(pairs.map(|(&code, &position)| Entry { code, position }).collect())
}

/// The entries that are kept, where two buffers of these lengths hold them. The last refusal: 4.
fn held(rest: Vec<Entry>, codes_room: usize, positions_room: usize) -> Result<Vec<Entry>, Refusal> {
    if codes_room.min(positions_room) < rest.len() {
        return Err(refused_with(4, rest.len()));
    }
    Ok(rest)
}

/// The call of strike, with the lengths of the two output buffers.
pub fn strike_call(
    codes: &[u32],
    positions: &[u32],
    c: u32,
    codes_room: usize,
    positions_room: usize,
) -> Result<Vec<Entry>, Refusal> {
    let entries = judged(codes.len(), codes, positions, c)?;
    held(strike(&entries, c), codes_room, positions_room)
}

/// The call of the strike of the read, with the lengths of the two output buffers: it "refuses as strike does, 5 and 4 judged on the
/// read", and 8 on the text.
pub fn strike_read_call(
    text: &[u32],
    codes: &[u32],
    positions: &[u32],
    c: u32,
    codes_room: usize,
    positions_room: usize,
) -> Result<Vec<Entry>, Refusal> {
    let entries = judged(text.len(), codes, positions, c)?;
    held(strike_read(text, &entries, c), codes_room, positions_room)
}
