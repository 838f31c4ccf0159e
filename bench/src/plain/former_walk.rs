//! Walking along the columns of a session of the former algorithm.

use host::calls::Stepped;

use super::former_column::Passed;
use super::former_start::WHOLE;
use super::scored::Scored;
use super::work::{COLUMNS, INDEX, PASSED, ROW, SHARED, Words};

/// The place of a session: how many columns are left, and the row and the m of the next cell.
#[derive(Clone, Copy)]
pub struct Place {
    pub columns: usize,
    pub row: usize,
    pub m: u32,
}

impl Place {
    pub fn read(work: &Words) -> Place {
        Place { columns: work[COLUMNS] as usize, row: work[ROW] as usize, m: work[SHARED] }
    }

    /// Writes the place, and adds the cells passed.
    pub fn save(self, work: &mut Words, cells: u32) {
        work[PASSED] += cells;
        work[COLUMNS] = self.columns as u32;
        work[ROW] = self.row as u32;
        work[SHARED] = self.m;
    }

    /// The top of this many columns' last one.
    fn top(work: &Words, columns: usize) -> Place {
        Place { columns, row: 0, m: if columns == 0 { 0 } else { work[WHOLE + columns - 1] } }
    }

    /// The place itself, or the top of the next column where its column is passed.
    fn settled(self, work: &Words) -> Place {
        if self.row < self.columns { self } else { Place::top(work, self.columns - 1) }
    }
}

/// The answer for a final cell of this m, of whose score this is answered, and which was passed last, in the row before this one.
pub fn found<L: Scored>(work: &Words, columns: usize, row: usize, m: u32, score: i32, cells: u32) -> Stepped {
    L::found(work[INDEX + row - 1], work[INDEX + columns - 1], score, m, cells)
}

/// The cells from this place on, at most `budget` of them. `update` passes cells of the place's column, at most so many.
#[inline(always)]
pub fn walk<L: Scored>(
    work: &mut Words,
    start: Place,
    budget: u32,
    update: impl Fn(&mut Words, Place, usize) -> Passed,
) -> Stepped {
    let mut place = start;
    let mut left = budget;
    while place.columns > 0 {
        if left == 0 {
            place.save(work, budget);
            return Stepped::Spent(budget);
        }
        let passed = update(work, place, left as usize);
        left -= (passed.row - place.row) as u32;
        let cells = budget - left;
        if let Some(score) = passed.found {
            let answer = found::<L>(work, place.columns, passed.row, passed.m, score, cells);
            Place { row: passed.row, m: passed.m.wrapping_sub(1), ..place }.settled(work).save(work, cells);
            return answer;
        }
        place = Place { row: passed.row, m: passed.m, ..place }.settled(work);
    }
    place.save(work, budget - left);
    Stepped::Finished(budget - left)
}
