//! Letters by blocks: the values of a block at a time, and the parts of runs that stand in it.
//! No run is followed letter by letter: where it ends is asked of many letters at once.

use super::letters::FOREIGN;

/// How many letters a block has.
pub const BLOCK: usize = 512;

/// How many values are kept of the block before: those of a k-mer that ends in this one.
pub const FRONT: usize = 16;

pub type Values = [u8; FRONT + BLOCK];

/// A part of a run: the letters of it that stand in a block. Indexes are those of the letters.
#[derive(Clone, Copy)]
pub struct Part {
    /// where the block begins
    pub base: usize,
    /// the last letter of the run's first k-mer: in this block, before it, or behind the part
    pub first: usize,
    /// the letter behind the part
    pub to: usize,
    /// whether the run ends with the part
    pub ends: bool,
}

/// Who takes blocks and the parts in them.
pub trait Taker {
    /// A block that begins at `base`, before its parts.
    fn block(&mut self, values: &Values, base: usize);

    /// A part, which can be without letters.
    fn part(&mut self, part: Part);
}

/// The value of a letter, and for one outside the eight a number with the bit FOREIGN. These are fewer instructions than those of a
/// match, since large and small letters are compared together.
#[inline(always)]
fn marked(letter: u8) -> u8 {
    let small = letter | 32;
    let own = (small == b'a') | (small == b'c') | (small == b'g') | (small == b't');
    ((letter >> 1 ^ letter >> 2) & 3) | if own { 0 } else { FOREIGN }
}

/// Reads the values of a block behind the last ones of the block before; returns whether all letters are outside the eight.
fn read(values: &mut Values, letters: &[u8]) -> bool {
    values.copy_within(BLOCK.., 0);
    let mut all = FOREIGN;
    for (to, &letter) in values[FRONT..].iter_mut().zip(letters) {
        *to = marked(letter);
        all &= *to;
    }
    all == FOREIGN
}

/// How many values there are before the first foreign one, or before the first one that is not.
#[inline(always)]
fn before(foreign: bool, values: &[u8]) -> usize {
    const MANY: usize = 32;
    let turned = if foreign { 0 } else { FOREIGN };
    let stops = |value: u8| (value ^ turned) & FOREIGN;
    let mut at = 0;
    for many in values.chunks_exact(MANY) {
        if many.iter().fold(0, |any, &value| any | stops(value)) != 0 {
            break;
        }
        at += MANY;
    }
    at + values[at..].iter().take_while(|&&value| stops(value) == 0).count()
}

/// Hands on all blocks and all parts of runs in them. Blocks without a letter of the eight are left out, but for one in front of
/// which a run ends.
pub fn pass(letters: &[u8], k: usize, taker: &mut impl Taker) {
    let mut values = [0; FRONT + BLOCK];
    let mut first = k - 1;
    for (block, base) in letters.chunks(BLOCK).zip((0..).step_by(BLOCK)) {
        let end = block.len();
        if read(&mut values, block) && first == base + k - 1 {
            first += end;
            continue;
        }
        taker.block(&values, base);
        let ahead = &values[FRONT..FRONT + end];
        let mut at = before(true, ahead);
        taker.part(Part { base, first, to: base + at, ends: at < end || base + end == letters.len() });
        while at < end {
            at += before(false, &ahead[at..]);
            first = base + at + k - 1;
            at += before(true, &ahead[at..]);
            taker.part(Part { base, first, to: base + at, ends: at < end || base + end == letters.len() });
        }
    }
}
