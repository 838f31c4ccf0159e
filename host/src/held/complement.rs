//! The proved reverse complement beside the reference.

use super::buffer::Buffer;
use super::{Held, UNWRITTEN, agree_with};
use crate::exported;
use crate::random::Random;
use crate::reference::complement::reverse_complement_call;

/// Holds the call with an output of this length.
pub fn reverse_complement(random: &mut Random, read: &[u8], room: usize) -> Held<usize> {
    let expected = reverse_complement_call(read, room);
    let mut out: Buffer<u8> = Buffer::new(random, room);
    let mut number = UNWRITTEN;
    let value = exported::reverse_complement(read, out.lent(), &mut number);
    out.holds("bytes", expected.as_deref().unwrap_or(&[]))?;
    let answer = expected.map(|bytes| bytes.len());
    agree_with(&answer, number, value)?;
    Ok(answer)
}
