//! The proved functions that the table times, in the shapes that plain Rust has too.

use host::calls::{self, Stepped};
use host::exported::{self, StepWords};
use host::reference::refusal::Refusal;
use host::reference::score::Scoring;

use crate::signatures::Count;

pub const COUNT: Count = host::count;

/// The value, or the refusal number negated.
fn signed(answer: Result<usize, Refusal>) -> i32 {
    match answer {
        Ok(value) => value as i32,
        Err(refusal) => -(refusal.number as i32),
    }
}

pub fn reverse_complement(read: &[u8], out: &mut [u8]) -> i32 {
    signed(calls::reverse_complement(read, out))
}

pub fn sketch(letters: &[u8], k: u32, w: u32, codes: &mut [u32], positions: &mut [u32]) -> i32 {
    signed(calls::sketch(letters, k, w, codes, positions))
}

pub fn strike(codes: &[u32], positions: &[u32], c: u32, codes_out: &mut [u32], positions_out: &mut [u32]) -> i32 {
    signed(calls::strike(codes, positions, c, codes_out, positions_out))
}

pub fn strike_read(
    text: &[u32],
    codes: &[u32],
    positions: &[u32],
    c: u32,
    codes_out: &mut [u32],
    positions_out: &mut [u32],
) -> i32 {
    signed(calls::strike_read(text, codes, positions, c, codes_out, positions_out))
}

pub fn start(text: &[u32], pattern: &[u32], scoring: Scoring, work: &mut [u32]) -> i32 {
    signed(match scoring {
        Scoring::Linear { u, v, threshold } => calls::start(text, pattern, u, v, threshold, work),
        Scoring::Jaccard { f, g } => calls::start_jaccard(text, pattern, f, g, work),
    })
}

/// A step whose answer's words are lent anew with each call, and not made anew.
pub fn step() -> impl FnMut(&mut [u32], u32) -> Stepped {
    let mut words = StepWords::default();
    move |work, budget| {
        let kind = exported::step(work, budget, &mut words);
        calls::stepped(kind, words)
    }
}
