//! Reads the letters of a run: those in front of its first k-mer's last one, and its k-mers with their ranks.
//! This is the proved functions' `reading`, function for function.

use super::blocks::{Ranks, Values, slot, value_at};
use super::letters::FOREIGN;
use super::ranks::{next_code, rank};

/// A position, and the code in hand there.
#[derive(Clone, Copy)]
pub struct Reached {
    pub at: usize,
    pub code: u32,
}

/// A position, the code in hand there, and the rank of its k-mer, or NO_RANK where none was found.
pub struct Found {
    pub at: usize,
    pub code: u32,
    pub rank: u32,
}

/// Above every rank.
const NO_RANK: u32 = u32::MAX;

/// Reads the letters in front of the last one of a run's first k-mer.
#[inline(always)]
pub fn first_letters(values: &Values, base: usize, from: usize, last: usize) -> Reached {
    let (mut at, mut code) = (from, 0);
    while at < from + last {
        let value = value_at(values, base, at);
        if value == FOREIGN {
            break;
        }
        code = code * 4 + u32::from(value);
        at += 1;
    }
    Reached { at, code }
}

/// Reads the k-mers of a run's first window.
#[inline(always)]
pub fn first_window(values: &Values, base: usize, ranks: &mut Ranks, begun: Reached, last: usize, w: usize) -> Reached {
    let Reached { mut at, mut code } = begun;
    while at < begun.at + w {
        let value = value_at(values, base, at + last);
        if value == FOREIGN {
            break;
        }
        code = next_code(code, value, last);
        ranks[slot(at, last, base)] = rank(code);
        at += 1;
    }
    Reached { at, code }
}

/// Reads k-mers as long as their ranks are above `low`, up to position `stop`.
#[inline(always)]
pub fn read_above(
    values: &Values,
    base: usize,
    ranks: &mut Ranks,
    reached: Reached,
    last: usize,
    stop: usize,
    low: u32,
) -> Found {
    let Reached { mut at, mut code } = reached;
    let ahead = &values[at + last - base..stop + last - base];
    // parts of equal lengths, so that no index is tested in the loop
    let slots = &mut ranks[slot(at, last, base)..][..ahead.len()];
    for (&value, slot) in ahead.iter().zip(slots) {
        if value == FOREIGN {
            break;
        }
        code = next_code(code, value, last);
        let rank = rank(code);
        *slot = rank;
        if rank <= low {
            return Found { at, code, rank };
        }
        at += 1;
    }
    Found { at, code, rank: NO_RANK }
}
