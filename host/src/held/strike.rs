//! The proved strikes, of a text and of a read, beside the reference.

use super::buffer::Buffer;
use super::{Held, UNWRITTEN, agree_with};
use crate::exported;
use crate::random::Random;
use crate::reference::refusal::Refusal;
use crate::reference::sketch::{Entry, codes as codes_of, positions as positions_of};
use crate::reference::strike::{strike_call, strike_read_call};

/// Holds a call that is to keep these entries. It is made with output buffers of these lengths and a word for the number.
fn hold(
    random: &mut Random,
    expected: Result<Vec<Entry>, Refusal>,
    rooms: (usize, usize),
    call: impl FnOnce(&mut [u32], &mut [u32], &mut u32) -> usize,
) -> Held<usize> {
    let (mut codes_out, mut positions_out) = (Buffer::new(random, rooms.0), Buffer::new(random, rooms.1));
    let mut number = UNWRITTEN;
    let value = call(codes_out.lent(), positions_out.lent(), &mut number);
    let rest = expected.as_deref().unwrap_or(&[]);
    codes_out.holds("codes", &codes_of(rest))?;
    positions_out.holds("positions", &positions_of(rest))?;
    let answer = expected.map(|rest| rest.len());
    agree_with(&answer, number, value)?;
    Ok(answer)
}

/// Holds the call with output buffers of these lengths.
pub fn strike(random: &mut Random, codes: &[u32], positions: &[u32], c: u32, rooms: (usize, usize)) -> Held<usize> {
    let expected = strike_call(codes, positions, c, rooms.0, rooms.1);
    hold(random, expected, rooms, |codes_out, positions_out, number| {
        exported::strike(codes, positions, c, codes_out, positions_out, number)
    })
}

/// Holds the call of the strike of the read with output buffers of these lengths.
pub fn strike_read(
    random: &mut Random,
    text: &[u32],
    codes: &[u32],
    positions: &[u32],
    c: u32,
    rooms: (usize, usize),
) -> Held<usize> {
    let expected = strike_read_call(text, codes, positions, c, rooms.0, rooms.1);
    hold(random, expected, rooms, |codes_out, positions_out, number| {
        exported::strike_read(text, codes, positions, c, codes_out, positions_out, number)
    })
}
