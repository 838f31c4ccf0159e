//! Walking along the columns of a session from its place, until a final cell, the budget's end or the last cell.

use host::calls::Stepped;

use super::column::{At, Passed};
use super::scored::Scored;
use super::work::{COLUMNS, HIGHEST, INDEX, PASSED, ROW, SHARED, THRESHOLD, Words};

/// The place of a session: how many columns are left, and the place in the last of them.
#[derive(Clone, Copy)]
pub struct Place<S = u32> {
    pub columns: usize,
    pub at: At<S>,
}

impl<S: Copy> Place<S> {
    #[inline(always)]
    pub fn read<L: Scored<Score = S>>(words: &Words) -> Place<S> {
        let at = At { row: words[ROW] as usize, m: words[SHARED], highest: L::of_word(words[HIGHEST]) };
        Place { columns: words[COLUMNS] as usize, at }
    }

    /// Writes the place, and adds the cells passed.
    #[inline(always)]
    pub fn save<L: Scored<Score = S>>(self, words: &mut Words, cells: u32) {
        words[PASSED] += cells;
        words[COLUMNS] = self.columns as u32;
        words[ROW] = self.at.row as u32;
        words[SHARED] = self.at.m;
        words[HIGHEST] = L::word_of(self.at.highest);
    }
}

/// The answer for a final cell of whose score this is answered, and which was passed last, `at` being the place behind it.
#[inline(always)]
pub fn found<L: Scored>(words: &Words, columns: usize, at: At<L::Score>, score: i32, cells: u32) -> Stepped {
    L::found(words[INDEX + at.row - 1], words[INDEX + columns - 1], score, at.m.wrapping_add(1), cells)
}

/// How the cells of a column are passed, and how it is left.
pub trait Columns<L: Scored> {
    /// Passes cells of the place's column, at most so many.
    fn update(&self, words: &mut Words, place: Place<L::Score>, left: usize) -> Passed<L::Score>;

    /// Leaves a column all of whose cells are passed, and gives m of the first cell of the next one, 0 where there is none.
    fn leave(&self, words: &mut Words, column: usize) -> u32;
}

/// The cells from this place on, at most `budget` of them.
#[inline(always)]
pub fn walk<L: Scored>(words: &mut Words, start: Place<L::Score>, budget: u32, by: impl Columns<L>) -> Stepped {
    let mut place = start;
    let mut left = budget;
    while place.columns > 0 {
        if left == 0 {
            place.save::<L>(words, budget);
            return Stepped::Spent(budget);
        }
        let (columns, row) = (place.columns, place.at.row);
        let Passed { at, found: score } = by.update(words, place, left as usize);
        left -= (at.row - row) as u32;
        place = Place { columns, at };
        if at.row == columns {
            let m = by.leave(words, columns - 1);
            place = Place { columns: columns - 1, at: At { row: 0, m, highest: L::of_word(words[THRESHOLD]) } };
        }
        if let Some(score) = score {
            place.save::<L>(words, budget - left);
            return found::<L>(words, columns, at, score, budget - left);
        }
    }
    place.save::<L>(words, budget - left);
    Stepped::Finished(budget - left)
}
