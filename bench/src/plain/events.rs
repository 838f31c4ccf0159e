//! The picks of a run's windows by its events: between a new lowest rank and the moment when the lowest leaves its window, a k-mer
//! costs a comparison. The ranks of a block are there before.

use super::block_codes::Halves;
use super::parts::{BLOCK, Part, Taker, Values};
use super::ranks::{rank, unrank};

/// How many ranks are kept of the block before: those of the widest window.
const BACK: usize = 64;

/// Takes the parts of runs, and hands on their picks, each by its code and its position.
pub struct Events<T> {
    k: usize,
    w: usize,
    halves: Halves,
    /// with a sign, since the machine compares many of these at a time
    ranks: [i32; BACK + BLOCK],
    low: i32,
    /// the last letter of the lowest
    low_at: usize,
    take: T,
}

impl<T: FnMut(u32, usize)> Events<T> {
    pub fn new(k: usize, w: usize, take: T) -> Events<T> {
        Events { k, w, halves: Halves::NONE, ranks: [0; BACK + BLOCK], low: 0, low_at: 0, take }
    }

    #[inline(always)]
    fn pick(&mut self, low: i32, low_at: usize) {
        (self.low, self.low_at) = (low, low_at);
        (self.take)(unrank(low as u32), low_at + 1 - self.k);
    }

    /// Picks the lowest of the k-mers that end from `from` to before `to`, rightmost among equals: the lowest rank, and then its last
    /// place, since each of the two is had of many at a time.
    #[inline(always)]
    fn search(&mut self, base: usize, from: usize, to: usize) {
        let ranks = &self.ranks[from + BACK - base..to + BACK - base];
        let low = ranks.iter().copied().fold(i32::MAX, i32::min);
        let places = ranks.iter().zip(0i32..).map(|(&rank, at)| if rank == low { at } else { 0 });
        self.pick(low, from + places.fold(0, i32::max) as usize);
    }

    /// Passes the k-mers that end from `at` to before `to`.
    #[inline(always)]
    fn pass(&mut self, base: usize, mut at: usize, to: usize) {
        loop {
            let (low, leaves) = (self.low, self.low_at + self.w);
            let ahead = &self.ranks[at + BACK - base..leaves.min(to) + BACK - base];
            if let Some(passed) = ahead.iter().position(|&rank| rank <= low) {
                at += passed;
                self.pick(ahead[passed], at);
            } else if leaves < to {
                at = leaves;
                self.search(base, at + 1 - self.w, at + 1);
            } else {
                return;
            }
            at += 1;
        }
    }
}

impl<T: FnMut(u32, usize)> Taker for Events<T> {
    fn block(&mut self, values: &Values, _: usize) {
        self.ranks.copy_within(BLOCK.., 0);
        let new = self.ranks.last_chunk_mut().expect("room for a block");
        self.halves.codes(values, self.k, new, |_, code| rank(code) as i32);
    }

    #[inline(always)]
    fn part(&mut self, part: Part) {
        let Part { base, first, to, ends } = part;
        if first + self.w <= base {
            self.pass(base, base, to);
        } else if first + self.w <= to {
            self.search(base, first, first + self.w);
            self.pass(base, first + self.w, to);
        } else if ends && first < to {
            // a run with fewer k-mers than w has one window
            self.search(base, first, to);
        }
    }
}
