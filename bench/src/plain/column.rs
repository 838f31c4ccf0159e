//! Passing the cells of one column, as the proved function does: the rest of a block of rows is skipped where none of its scores can
//! reach what has been seen. Of the other cells a score enters its row as a record where it is greater than all that was seen in the
//! rows up to there, and such a cell, or one with an equal score, is asked whether it is final.

use super::scored::Scored;
use super::work::{BLOCK_ROWS, MAX_HITS, Part};

/// A place in a column: the row and the m of the next cell, and the greatest of the threshold and of the records in the rows before it.
/// A linear score is its word.
#[derive(Clone, Copy)]
pub struct At<S = u32> {
    pub row: usize,
    pub m: u32,
    pub highest: S,
}

/// Where cells were passed, and what is answered of the last one's score if it is final.
pub struct Passed<S = u32> {
    pub at: At<S>,
    pub found: Option<i32>,
}

/// Enters a cell whose score is at least what was seen in the rows up to its own, `at` being the place behind it.
#[inline(always)]
fn enter<L: Scored>(part: &mut Part, line: &L, score: L::Score, at: At<L::Score>) -> Passed<L::Score> {
    let row = at.row - 1;
    if L::is_below(at.highest, score) {
        let word = L::word_of(score);
        part.best[row] = word;
        let top = &mut part.tops[row / BLOCK_ROWS];
        if !L::is_below(score, L::of_word(*top)) {
            *top = word;
        }
    }
    // the left end is reasonable, so m fell by one behind the cell
    let is_final = line.is_reasonable(row, part.reach[row]);
    let found = if is_final { line.enough(at.m.wrapping_add(1), part.index[row]) } else { None };
    // of equal scores the first is kept
    let highest = if L::is_below(at.highest, score) { score } else { at.highest };
    Passed { at: At { highest, ..at }, found }
}

/// Passes the cells up to row `to`, or up to one whose score is at least what was seen in the rows up to its own: that score.
#[inline(always)]
fn quiet<L: Scored>(part: &Part, line: &L, from: At<L::Score>, to: usize) -> (At<L::Score>, Option<L::Score>) {
    let At { mut row, mut m, mut highest } = from;
    while row < to {
        let score = line.score(m, part.index[row]);
        highest = L::or_greater(highest, part.best[row]);
        m = m.wrapping_sub(u32::from(line.column() < part.reach[row]));
        row += 1;
        if !L::is_below(score, highest) {
            return (At { row, m, highest }, Some(score));
        }
    }
    (At { row, m, highest }, None)
}

/// Passes the cells up to row `to`, which are of one block, or up to the first final one.
#[inline(always)]
fn pass_rows<L: Scored>(part: &mut Part, line: &L, from: At<L::Score>, to: usize) -> Passed<L::Score> {
    let mut at = from;
    loop {
        let (behind, score) = quiet(part, line, at, to);
        let Some(score) = score else { return Passed { at: behind, found: None } };
        let passed = enter(part, line, score, behind);
        if passed.found.is_some() {
            return passed;
        }
        at = passed.at;
    }
}

/// Passes the cells up to row `to`, or up to the first final one.
#[inline(always)]
pub fn pass<L: Scored>(part: &mut Part, line: &L, from: At<L::Score>, to: usize) -> Passed<L::Score> {
    assert!(to <= MAX_HITS && to <= line.column() as usize + 1, "rows of the column");
    let mut at = from;
    while at.row < to {
        let block = at.row / BLOCK_ROWS;
        let end = ((block + 1) * BLOCK_ROWS).min(line.column() as usize + 1);
        // m does not rise with the row, and the interval gets shorter: no score of the rest is greater than this
        if end <= to && L::is_below(line.score(at.m, part.index[end - 1]), at.highest) {
            at = At { row: end, m: part.starts[block + 1], highest: L::or_greater(at.highest, part.tops[block]) };
            continue;
        }
        let passed = pass_rows(part, line, at, end.min(to));
        if passed.found.is_some() {
            return passed;
        }
        at = passed.at;
    }
    Passed { at, found: None }
}

/// Passes the one cell of this place: no loop, and no block.
#[inline(always)]
pub fn pass_one<L: Scored>(part: &mut Part, line: &L, from: At<L::Score>) -> Passed<L::Score> {
    let At { row, m, highest } = from;
    let score = line.score(m, part.index[row]);
    let m = m.wrapping_sub(u32::from(line.column() < part.reach[row]));
    let at = At { row: row + 1, m, highest: L::or_greater(highest, part.best[row]) };
    if L::is_below(score, at.highest) { Passed { at, found: None } } else { enter(part, line, score, at) }
}
