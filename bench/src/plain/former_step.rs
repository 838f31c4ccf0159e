//! Step by the proved function's former algorithm, which looks at every cell: each costs one turn of a loop over a column.
//! Assumes, for its answers, words that the former start and such steps made.

use host::calls::Stepped;

use super::former_column::{Passed, pass, pass_one};
use super::former_walk::{Place, found, walk};
use super::fraction_line::FractionLine;
use super::line::Line;
use super::scored::Scored;
use super::step::judged;
use super::work::{KIND, Words, part};

/// Passes cells of the place's column, at most so many.
fn update<L: Scored>(words: &mut Words, place: Place, left: usize) -> Passed {
    let line = L::new(words, place.columns - 1);
    let to = place.row + left.min(place.columns - place.row);
    pass(&mut part(words), &line, place.row, to, place.m)
}

/// The step of more cells. Kept apart, so that a step of one cell saves few registers.
#[inline(never)]
fn walk_on<L: Scored>(words: &mut Words, place: Place, budget: u32) -> Stepped {
    walk::<L>(words, place, budget, update::<L>)
}

/// The step of one cell in a column that has a further row.
fn walk_one<L: Scored>(words: &mut Words, place: Place) -> Stepped {
    let line = L::new(words, place.columns - 1);
    let passed = pass_one(&mut part(words), &line, place.row, place.m);
    let m = passed.m.wrapping_sub(u32::from(passed.found.is_some()));
    Place { row: passed.row, m, ..place }.save(words, 1);
    match passed.found {
        Some(score) => found::<L>(words, place.columns, passed.row, passed.m, score, 1),
        None => Stepped::Spent(1),
    }
}

fn step_by<L: Scored>(words: &mut Words, budget: u32) -> Stepped {
    let place = Place::read(words);
    if budget == 1 && place.row + 1 < place.columns { walk_one::<L>(words, place) } else { walk_on::<L>(words, place, budget) }
}

/// Passes cells until one is final, none remains or the budget is spent, by the score that the session has.
pub fn step(work: &mut [u32], budget: u32) -> Stepped {
    match judged(work) {
        Err(answer) => answer,
        Ok(words) if words[KIND] == 0 => step_by::<Line>(words, budget),
        Ok(words) => step_by::<FractionLine>(words, budget),
    }
}
