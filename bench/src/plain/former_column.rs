//! Passing the cells of one column, as the proved function did before blocks: every cell is looked at, and one whose score reaches the
//! threshold is asked whether it is final.

use super::scored::Scored;
use super::work::{MAX_HITS, Part};

/// Where cells were passed: the row of the next one, m of the next one or of the final one, and what is answered of a final one's score.
pub struct Passed {
    pub row: usize,
    pub m: u32,
    pub found: Option<i32>,
}

/// Where cells were passed up to one whose score reaches the threshold: the row of the next cell and its m, the greatest score so far,
/// and of the cell at the threshold its score and its left end's reach, where there was one.
struct Paused<S> {
    row: usize,
    m: u32,
    best: S,
    at_threshold: Option<(S, u32)>,
}

/// What is answered of the score of the cell of this row and m, if it is final: no cell passed in the rows up to it has a greater score,
/// both its ends are reasonable, and its score reaches the threshold.
fn final_score<L: Scored>(part: &Part, line: &L, row: usize, m: u32, is_best: bool) -> Option<i32> {
    if is_best && line.is_reasonable(row, part.reach[row]) { line.enough(m, part.index[row]) } else { None }
}

/// The greatest score of the rows before this one.
fn best_before<L: Scored>(part: &Part, row: usize) -> L::Score {
    L::of_word(if row == 0 { 0 } else { part.best[row - 1] })
}

/// The greatest of what was seen in the rows before, of what a row has, and of a score that it gets. The row is given it.
#[inline(always)]
fn raise<L: Scored>(best: L::Score, row_best: &mut u32, score: L::Score) -> L::Score {
    let best = L::or_greater(best, *row_best);
    let best = if L::is_below(best, score) { score } else { best };
    *row_best = L::word_of(best);
    best
}

/// Passes the cells of rows `from` to `to`, or up to the first whose score reaches the threshold.
#[inline(always)]
fn quiet<L: Scored>(part: &mut Part, line: &L, from: usize, to: usize, m: u32, best: L::Score) -> Paused<L::Score> {
    let (mut m, mut best) = (m, best);
    for row in from..to {
        let score = line.score(m, part.index[row]);
        let reach = part.reach[row];
        best = raise::<L>(best, &mut part.best[row], score);
        m = m.wrapping_sub(u32::from(line.column() < reach));
        if !L::is_below(score, line.threshold()) {
            return Paused { row: row + 1, m, best, at_threshold: Some((score, reach)) };
        }
    }
    Paused { row: to, m, best, at_threshold: None }
}

/// Passes the cells of rows `from` to `to`, or up to the first final one. m is the first cell's.
pub fn pass<L: Scored>(part: &mut Part, line: &L, from: usize, to: usize, m: u32) -> Passed {
    assert!(from <= to && to <= MAX_HITS, "rows of a block");
    let (mut row, mut m, mut best) = (from, m, best_before::<L>(part, from));
    while row < to {
        let paused = quiet(part, line, row, to, m, best);
        (row, m, best) = (paused.row, paused.m, paused.best);
        if let Some((score, reach)) = paused.at_threshold {
            let is_inside = line.column() < reach;
            let cell_m = m.wrapping_add(u32::from(is_inside));
            if let Some(score) = final_score(part, line, row - 1, cell_m, !L::is_below(score, best)) {
                return Passed { row, m: cell_m, found: Some(score) };
            }
        }
    }
    Passed { row, m, found: None }
}

/// Passes the one cell of this row, whose m is this: no loop, and the threshold first.
pub fn pass_one<L: Scored>(part: &mut Part, line: &L, row: usize, m: u32) -> Passed {
    let score = line.score(m, part.index[row]);
    let is_inside = line.column() < part.reach[row];
    let best = raise::<L>(best_before::<L>(part, row), &mut part.best[row], score);
    if !L::is_below(score, line.threshold())
        && let Some(score) = final_score(part, line, row, m, !L::is_below(score, best))
    {
        return Passed { row: row + 1, m, found: Some(score) };
    }
    Passed { row: row + 1, m: m.wrapping_sub(u32::from(is_inside)), found: None }
}
