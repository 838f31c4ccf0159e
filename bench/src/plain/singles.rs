//! Windows of one k-mer, each of which picks it: nothing is compared, and counted are the letters of runs alone.

use super::block_codes::Halves;
use super::parts::{BLOCK, Part, Taker, Values};

/// Counts k-mers.
#[derive(Default)]
pub struct Counted {
    pub number: usize,
}

impl Taker for Counted {
    fn block(&mut self, _: &Values, _: usize) {}

    #[inline(always)]
    fn part(&mut self, part: Part) {
        self.number += part.to.saturating_sub(part.first.max(part.base));
    }
}

/// Writes k-mers, for which there is room.
pub struct Written<'a> {
    k: usize,
    halves: Halves,
    block: [u32; BLOCK],
    codes: &'a mut [u32],
    positions: &'a mut [u32],
    pub number: usize,
}

impl Written<'_> {
    pub fn new<'a>(k: usize, codes: &'a mut [u32], positions: &'a mut [u32]) -> Written<'a> {
        Written { k, halves: Halves::NONE, block: [0; BLOCK], codes, positions, number: 0 }
    }
}

impl Taker for Written<'_> {
    fn block(&mut self, values: &Values, _: usize) {
        self.halves.codes(values, self.k, &mut self.block, |_, code| code);
    }

    #[inline(always)]
    fn part(&mut self, part: Part) {
        let Part { base, first, to, .. } = part;
        let from = first.max(base);
        if to <= from {
            return;
        }
        let (number, end) = (self.number, self.number + to - from);
        self.codes[number..end].copy_from_slice(&self.block[from - base..to - base]);
        for (position, at) in self.positions[number..end].iter_mut().zip((from + 1 - self.k) as u32..) {
            *position = at;
        }
        self.number = end;
    }
}
