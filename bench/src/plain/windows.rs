//! Windows of k-mers: the k-mers that the windows of a block pick.
//! This is the proved functions' `windows`, function for function.

use super::blocks::{BLOCK, Ranks, Values, slot, value_at};
use super::entries::Entries;
use super::letters::FOREIGN;
use super::ranks::{next_code, unrank};
use super::reading::{Reached, read_above};

/// The measures of a scan: how many letters of a k-mer stand in front of its last one, and how many k-mers a window has.
#[derive(Clone, Copy)]
pub struct Measures {
    pub last: usize,
    pub w: usize,
}

/// What is reached with the lowest of the window that ends there, and its rank.
#[derive(Clone, Copy)]
pub struct Passed {
    pub reached: Reached,
    pub low_at: usize,
    pub low: u32,
}

/// The slot of the lowest rank, the rightmost of equal ones, among neighbouring slots.
#[inline(always)]
fn lowest(ranks: &Ranks, from: usize, to: usize) -> usize {
    let (mut low_at, mut low) = (from, ranks[from]);
    for (&rank, at) in ranks[from..to].iter().zip(from..) {
        if rank <= low {
            (low_at, low) = (at, rank);
        }
    }
    low_at
}

/// Searches the slots from `from` to `to`, those of k-mers in front of `position`, and puts the lowest; returns its position and rank.
#[inline(always)]
pub fn put_lowest(ranks: &Ranks, from: usize, to: usize, position: usize, entries: &mut Entries) -> (usize, u32) {
    let found = lowest(ranks, from, to);
    let (low_at, low) = (position - (to - found), ranks[found]);
    entries.put(unrank(low), low_at);
    (low_at, low)
}

/// Passes the windows that end in a block, the first of which has its lowest put, and puts each pick that is new: a pick changes where
/// a new rank is not above the lowest, or where the lowest has left the window, which is then searched.
#[inline(always)]
pub fn pass_windows(
    values: &Values,
    base: usize,
    ranks: &mut Ranks,
    of: Measures,
    from: Passed,
    entries: &mut Entries,
) -> Passed {
    let end = base + BLOCK - of.last;
    let Passed { mut reached, mut low_at, mut low } = from;
    loop {
        let leaves = low_at + of.w + 1;
        let read = read_above(values, base, ranks, reached, of.last, leaves.min(end), low);
        reached = Reached { at: read.at, code: read.code };
        if read.rank <= low {
            (low_at, low) = (read.at, read.rank);
            entries.put(read.code, read.at);
            reached.at += 1;
            continue;
        }
        // the block ends, or the run
        if reached.at < leaves {
            return Passed { reached, low_at, low };
        }
        let to = slot(reached.at, of.last, base);
        (low_at, low) = put_lowest(ranks, to - of.w, to, reached.at, entries);
    }
}

/// Passes the k-mers that end in a block and puts each of them: with windows of one k-mer there are no ranks to compare.
#[inline(always)]
pub fn pass_kmers(values: &Values, base: usize, of: Measures, from: Reached, entries: &mut Entries) -> Reached {
    let Reached { mut at, mut code } = from;
    while at < base + BLOCK - of.last {
        let value = value_at(values, base, at + of.last);
        if value == FOREIGN {
            break;
        }
        code = next_code(code, value, of.last);
        entries.put(code, at);
        at += 1;
    }
    Reached { at, code }
}
