//! Blocks of letters: their values, read ahead of the scan, and the ranks of the k-mers that end in them.
//! This is the proved functions' `blocks`, function for function.

use super::letters::{FOREIGN, value};

/// How many letters a block has.
pub const BLOCK: usize = 512;

/// How many ranks are kept of the block before: those of the widest window.
const BACK: usize = 64;

pub type Values = [u8; BLOCK];
pub type Ranks = [u32; BACK + BLOCK];

pub const NO_VALUES: Values = [0; BLOCK];
pub const NO_RANKS: Ranks = [0; BACK + BLOCK];

/// Reads a block: the values of the letters from `base` on, and where the letters end in it FOREIGN behind them. No turn depends on
/// another, so that many letters are read at a time.
pub fn read_block(letters: &[u8], values: &mut Values, base: usize) {
    let ahead = &letters[base..];
    for (to, &letter) in values.iter_mut().zip(ahead) {
        *to = value(letter);
    }
    if let Some(behind) = values.get_mut(ahead.len()) {
        *behind = FOREIGN;
    }
}

/// Reads the block from `from` on where the block at hand ends before `to`; returns where the block at hand then begins.
#[inline(always)]
pub fn covering(letters: &[u8], values: &mut Values, base: usize, from: usize, to: usize) -> usize {
    if to <= base + BLOCK {
        return base;
    }
    read_block(letters, values, from);
    from
}

/// The value of the letter at a position of the block.
#[inline(always)]
pub fn value_at(values: &Values, base: usize, at: usize) -> u8 {
    values[at - base]
}

/// Where the rank of the k-mer at a position stands.
#[inline(always)]
pub fn slot(at: usize, last: usize, base: usize) -> usize {
    at + last + BACK - base
}

/// Takes the last ranks of a block to the front, where the next block looks for them.
pub fn carry(ranks: &mut Ranks) {
    ranks.copy_within(BLOCK.., 0);
}
