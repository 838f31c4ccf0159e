//! The proved save and load beside the reference.

use super::buffer::Buffer;
use super::{Held, UNWRITTEN, agree, agree_with};
use crate::exported;
use crate::random::Random;
use crate::reference::sketch::{codes as codes_of, positions as positions_of};
use crate::reference::store;

/// Holds the call with an output buffer of this length.
pub fn save(random: &mut Random, codes: &[u32], positions: &[u32], k: u32, w: u32, room: usize) -> Held<usize> {
    let expected = store::save(k, w, codes, positions, room);
    let mut words = Buffer::new(random, room);
    let mut number = UNWRITTEN;
    let value = exported::save(codes, positions, k, w, words.lent(), &mut number);
    words.holds("words", expected.as_deref().unwrap_or(&[]))?;
    let answer = expected.map(|words| words.len());
    agree_with(&answer, number, value)?;
    Ok(answer)
}

/// Holds the call with output buffers of these lengths.
pub fn load(random: &mut Random, words: &[u32], rooms: (usize, usize)) -> Held<usize> {
    let expected = store::load(words, rooms.0, rooms.1);
    let (mut codes, mut positions) = (Buffer::new(random, rooms.0), Buffer::new(random, rooms.1));
    let (mut k, mut w, mut number) = (UNWRITTEN, UNWRITTEN, UNWRITTEN);
    let value = exported::load(words, codes.lent(), positions.lent(), &mut k, &mut w, &mut number);
    let entries = expected.as_ref().map_or(&[][..], |stored| &stored.entries);
    codes.holds("codes", &codes_of(entries))?;
    positions.holds("positions", &positions_of(entries))?;
    let given = expected.as_ref().map_or((UNWRITTEN, UNWRITTEN), |stored| (stored.k, stored.w));
    agree("k and w", (k, w), given)?;
    let answer = expected.map(|stored| stored.entries.len());
    agree_with(&answer, number, value)?;
    Ok(answer)
}
