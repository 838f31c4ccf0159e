//! Definition 1 as document 01 has it, word for word: all intervals, each beside all intervals that contain it, and counts by
//! counting. The faster forms are held to it.

use super::score::{Score, Task, score_of, shared, times};

/// A final mapping, as it is handed out.
#[derive(Clone, Copy, Debug, PartialEq, Eq)]
pub struct Mapping {
    pub a: usize,
    pub b: usize,
    pub score: Score,
    pub m: usize,
}

/// The mapping of [a, b], final or not: its m is counted from its own entries.
pub fn mapping_of(task: &Task, a: usize, b: usize) -> Mapping {
    let m = shared(&task.pattern, &task.text[a..=b]);
    Mapping { a, b, score: score_of(task, m, b - a + 1), m }
}

/// All intervals of a text, each with its mapping, so that an interval is counted once and not anew for each one that it contains.
pub struct Intervals<'a> {
    task: &'a Task,
    /// the mapping of [a, b] is that of row a at b − a
    rows: Vec<Vec<Mapping>>,
}

impl Intervals<'_> {
    pub fn new(task: &Task) -> Intervals<'_> {
        let end = task.text.len();
        let row = |a: usize| (a..end).map(|b| mapping_of(task, a, b)).collect();
        Intervals { task, rows: (0..end).map(row).collect() }
    }

    /// The mapping of [a, b].
    pub fn at(&self, a: usize, b: usize) -> Mapping {
        self.rows[a][b - a]
    }

    /// The code of entry `end` "occurs in [a, b] at most as often as in p".
    fn is_reasonable(&self, a: usize, b: usize, end: usize) -> bool {
        let code = self.task.text[end];
        times(code, &self.task.text[a..=b]) <= times(code, &self.task.pattern)
    }

    /// "no interval that contains [a, b] has a greater score"
    fn is_maximal(&self, a: usize, b: usize) -> bool {
        let score = self.at(a, b).score;
        (0..=a).all(|c| (b..self.rows.len()).all(|d| !score.is_below(self.at(c, d).score)))
    }

    /// Whether [a, b] is final, by each of the definition's conditions.
    pub fn is_final(&self, a: usize, b: usize) -> bool {
        !self.at(a, b).score.is_below(self.task.scoring.threshold())
            && self.is_reasonable(a, b, a)
            && self.is_reasonable(a, b, b)
            && self.is_maximal(a, b)
    }
}

/// Every final interval, in the order of the list: by falling b, and for one b by rising a.
pub fn finals_by_definition(task: &Task) -> Vec<Mapping> {
    let intervals = Intervals::new(task);
    let ends = (0..task.text.len()).rev().flat_map(|b| (0..=b).map(move |a| (a, b)));
    ends.filter(|&(a, b)| intervals.is_final(a, b)).map(|(a, b)| intervals.at(a, b)).collect()
}
