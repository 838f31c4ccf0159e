//! The proved sketch and count beside the reference.

use super::buffer::Buffer;
use super::{Held, UNWRITTEN, agree, agree_with};
use crate::random::Random;
use crate::reference::refusal::refused;
use crate::reference::sketch::{codes, count, positions, sketch_call};
use crate::{count as proved_count, exported};

/// Holds the call with output buffers of these lengths.
pub fn sketch(random: &mut Random, letters: &[u8], k: u32, w: u32, rooms: (usize, usize)) -> Held<usize> {
    let expected = sketch_call(letters, k, w, rooms.0, rooms.1);
    let (mut codes_out, mut positions_out) = (Buffer::new(random, rooms.0), Buffer::new(random, rooms.1));
    let mut number = UNWRITTEN;
    let value = exported::sketch(letters, k, w, codes_out.lent(), positions_out.lent(), &mut number);
    let entries = expected.as_deref().unwrap_or(&[]);
    codes_out.holds("codes", &codes(entries))?;
    positions_out.holds("positions", &positions(entries))?;
    let answer = expected.map(|entries| entries.len());
    agree_with(&answer, number, value)?;
    Ok(answer)
}

/// Holds the count of entries.
pub fn hold_count(letters: &[u8], k: u32, w: u32) -> Held<usize> {
    let expected = count(letters, k, w);
    agree("count", proved_count(letters, k, w), expected)?;
    Ok(usize::try_from(expected).map_err(|_| refused(expected.unsigned_abs())))
}
