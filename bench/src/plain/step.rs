//! Step by the algorithm of the proved function: the place is read once and written once, blocks of rows are skipped where none of
//! their cells can matter, and each other cell costs one turn of a loop.
//! Assumes, for its answers, words that start and steps made.

use host::calls::Stepped;

use super::column::{Passed, pass, pass_one};
use super::fraction_line::FractionLine;
use super::line::Line;
use super::scored::Scored;
use super::start::refused_numbers;
use super::walk::{Columns, Place, found, walk};
use super::work::{BACK, BLOCK_ROWS, COLUMNS, HITS, KIND, MAX_HITS, PASSED, ROW, STARTS, U, V, WORK_WORDS, Words, part};

/// The words of the session, or what step answers without passing a cell: a refusal, or spent where the place lies in no column.
#[inline(always)]
pub fn judged(work: &mut [u32]) -> Result<&mut Words, Stepped> {
    let Some(words) = work.first_chunk_mut::<WORK_WORDS>() else { return Err(Stepped::Refused(10)) };
    let (h, passed) = (words[HITS], words[PASSED]);
    let refused = refused_numbers(words[KIND], words[U], words[V]);
    if h as usize > MAX_HITS || refused || passed > h * (h + 1) / 2 {
        return Err(Stepped::Refused(15));
    }
    if words[COLUMNS] > h || words[ROW] > words[COLUMNS] { Err(Stepped::Spent(0)) } else { Ok(words) }
}

/// By blocks of 64 rows.
struct Blocks;

impl<L: Scored> Columns<L> for Blocks {
    #[inline(always)]
    fn update(&self, words: &mut Words, place: Place<L::Score>, left: usize) -> Passed<L::Score> {
        let line = L::new(words, place.columns - 1);
        let to = place.at.row + left.min(place.columns - place.at.row);
        pass(&mut part(words), &line, place.at, to)
    }

    /// m falls by one in the rows from the hit's back up to its own.
    #[inline(always)]
    fn leave(&self, words: &mut Words, column: usize) -> u32 {
        let (from, to) = ((words[BACK + column] as usize).div_ceil(BLOCK_ROWS), column / BLOCK_ROWS + 1);
        for start in &mut words[STARTS + from.min(to)..STARTS + to] {
            *start = start.wrapping_sub(1);
        }
        words[STARTS]
    }
}

/// The step of more cells. Kept apart, so that a step of one cell saves few registers.
#[inline(never)]
fn walk_on<L: Scored>(words: &mut Words, place: Place<L::Score>, budget: u32) -> Stepped {
    walk::<L>(words, place, budget, Blocks)
}

/// The step of one cell in a column that has a further row.
#[inline(always)]
fn walk_one<L: Scored>(words: &mut Words, place: Place<L::Score>) -> Stepped {
    let line = L::new(words, place.columns - 1);
    let Passed { at, found: score } = pass_one(&mut part(words), &line, place.at);
    Place { at, ..place }.save::<L>(words, 1);
    match score {
        Some(score) => found::<L>(words, place.columns, at, score, 1),
        None => Stepped::Spent(1),
    }
}

#[inline(always)]
fn step_by<L: Scored>(words: &mut Words, budget: u32) -> Stepped {
    let place = Place::read::<L>(words);
    if budget == 1 && place.at.row + 1 < place.columns { walk_one::<L>(words, place) } else { walk_on::<L>(words, place, budget) }
}

/// Passes cells until one is final, none remains or the budget is spent, by the score that the session has.
pub fn step(work: &mut [u32], budget: u32) -> Stepped {
    match judged(work) {
        Err(answer) => answer,
        Ok(words) if words[KIND] == 0 => step_by::<Line>(words, budget),
        Ok(words) => step_by::<FractionLine>(words, budget),
    }
}
