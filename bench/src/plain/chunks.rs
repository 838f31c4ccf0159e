//! The picks of a run's windows by chunks: keys for all k-mers of a block, and then the least one of each window. No branch depends on
//! the letters but for a run's end.

use super::block_codes::Halves;
use super::keys::Key;
use super::minima::minima;
use super::parts::{BLOCK, Part, Taker, Values};

/// How many keys are kept of the block before: those of the widest window.
const BACK: usize = 64;
pub const ROOM: usize = BACK + BLOCK;

/// Windows of a run that follow each other.
pub struct Windows<'a, K> {
    /// the key of each window's last k-mer
    pub lasts: &'a [K],
    /// the least key of the window before, or none where the run begins, and then that of each window
    pub lows: &'a [K],
}

/// Takes the parts of runs, and hands on their windows.
pub struct Chunks<K, T> {
    k: usize,
    w: usize,
    halves: Halves,
    keys: [K; ROOM],
    lows: [[K; ROOM + 1]; 2],
    before: K,
    take: T,
}

impl<K: Key, T: FnMut(Windows<K>)> Chunks<K, T> {
    pub fn new(k: usize, w: usize, take: T) -> Chunks<K, T> {
        let (keys, lows) = ([K::NONE; ROOM], [[K::NONE; ROOM + 1]; 2]);
        Chunks { k, w, halves: Halves::NONE, keys, lows, before: K::NONE, take }
    }

    /// Hands on the windows of w k-mers among those that end from `from` to before `to`.
    #[inline(always)]
    fn windows(&mut self, base: usize, w: usize, from: usize, to: usize) {
        let keys = &self.keys[from + BACK - base..to + BACK - base];
        let [one, other] = &mut self.lows;
        let lows = minima(keys, w, one, other);
        lows[0] = self.before;
        self.before = lows[lows.len() - 1];
        (self.take)(Windows { lasts: &keys[w - 1..], lows });
    }
}

impl<K: Key, T: FnMut(Windows<K>)> Taker for Chunks<K, T> {
    fn block(&mut self, values: &Values, base: usize) {
        self.keys.copy_within(BLOCK.., 0);
        let new = self.keys.last_chunk_mut().expect("room for a block");
        self.halves.codes(values, self.k, new, |at, code| K::of(code, base + at));
    }

    #[inline(always)]
    fn part(&mut self, part: Part) {
        let Part { base, first, to, ends } = part;
        // the first k-mer whose window ends in this block, or the run's first one
        let from = first.max((base + 1).saturating_sub(self.w));
        if from == first {
            self.before = K::NONE;
        }
        if from + self.w <= to {
            self.windows(base, self.w, from, to);
        } else if ends && from == first && first < to {
            // a run with fewer k-mers than w has one window
            self.windows(base, to - first, first, to);
        }
    }
}
