//! Step by the fastest session, which scores linearly.
//! Assumes, for its answers, words that the fastest start and such steps made.

use host::calls::Stepped;

use super::column::Passed;
use super::fastest_column::{leave, pass};
use super::line::Line;
use super::scored::Scored;
use super::step::judged;
use super::walk::{Columns, Place, walk};
use super::work::{U, V, Words};

/// By blocks of two sizes whose greatest scores are carried from column to column.
struct Carried;

impl Columns<Line> for Carried {
    #[inline(always)]
    fn update(&self, words: &mut Words, place: Place, left: usize) -> Passed {
        let line = Line::new(words, place.columns - 1);
        pass(words, &line, place.at, place.at.row + left.min(place.columns - place.at.row))
    }

    /// m is not kept.
    #[inline(always)]
    fn leave(&self, words: &mut Words, column: usize) -> u32 {
        leave(words, column, words[U] + 2 * words[V]);
        0
    }
}

/// Passes cells until one is final, none remains or the budget is spent.
pub fn step(work: &mut [u32], budget: u32) -> Stepped {
    match judged(work) {
        Err(answer) => answer,
        Ok(words) => walk::<Line>(words, Place::read::<Line>(words), budget, Carried),
    }
}
