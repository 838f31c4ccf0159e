//! What every work word holds after q cells, by docs/WORK_WORDS.md, from counts of m alone.
//! Assumes that start accepts the task, with at least 16,384 words.

use super::by_hits::{Hits, named_hits, row};
use super::cells::cell_count;
use super::score::{Score, Scoring, Task, score};

const BACK: usize = 2_048;
const INDEX: usize = 4_096;
const REACH: usize = 6_144;
const BEST: usize = 8_192;
const TOPS: usize = 10_240;
const STARTS: usize = 10_272;

/// The rows of a column come in blocks of so many.
const BLOCK_ROWS: usize = 64;

/// The words of a session, and what is needed to pass its cells.
#[derive(Clone)]
pub struct WorkWords {
    words: Vec<u32>,
    scoring: Scoring,
    /// the pattern's number of entries
    size: usize,
    /// each hit's index in the text
    index: Vec<usize>,
    q: usize,
    /// the columns left, and the row of the next cell; both 0 where none is left
    columns: usize,
    row: usize,
    /// the last record of each row
    records: Vec<Option<Score>>,
    /// the greatest of the threshold and of the records in the rows before the next cell's, the first of equal ones
    highest: Score,
    /// m of each cell in the order of passing
    cells: Vec<u32>,
}

/// The word of a score: a number plus 2^31; of a fraction (m − 1)·2^21 + (2^21 − 1 − divisor), and 0 of one that is 0.
fn word(score: Score) -> u32 {
    match score {
        Score::Number(number) => u32::try_from(number + (1 << 31)).expect("a number of 32 bits"),
        Score::Fraction { m: 0, .. } => 0,
        Score::Fraction { m, divisor } => (m - 1) * (1 << 21) + ((1 << 21) - 1 - divisor),
    }
}

/// Words 1, 2 and 4: the two numbers that start was given, and the kind of score.
fn first_words(scoring: Scoring) -> [u32; 3] {
    match scoring {
        Scoring::Linear { u, v, .. } => [u, v, 0],
        Scoring::Jaccard { f, g } => [f, g, 1],
    }
}

/// The smallest row from which hit j is reasonable as a right end: its code stands at most as often as in p from there to j.
fn back(hits: &Hits, j: usize) -> usize {
    let code = hits.name[j];
    let mut same = (0..=j).rev().filter(|&i| hits.name[i] == code);
    same.nth(hits.allowed[code]).map_or(0, |i| i + 1)
}

/// The first column at which hit i is no longer reasonable as a left end, or h.
fn reach(hits: &Hits, i: usize) -> usize {
    let (code, h) = (hits.name[i], hits.name.len());
    let mut same = (i..h).filter(|&j| hits.name[j] == code);
    same.nth(hits.allowed[code]).unwrap_or(h)
}

/// m of each cell, by falling j, and for one j by rising i.
fn passed_cells(hits: &Hits) -> Vec<u32> {
    let h = hits.index.len();
    let rows: Vec<Vec<(usize, bool)>> = (0..h).map(|i| row(hits, i)).collect();
    (0..h).rev().flat_map(|j| (0..=j).map(move |i| (i, j))).map(|(i, j)| rows[i][j - i].0 as u32).collect()
}

impl WorkWords {
    /// The words that start leaves, given those before it.
    pub fn new(task: &Task, before: &[u32]) -> WorkWords {
        let hits = named_hits(task);
        let h = hits.index.len();
        let (size, threshold, [first, second, kind]) = (task.pattern.len(), task.scoring.threshold(), first_words(task.scoring));
        let mut words = before.to_vec();
        words[..7].copy_from_slice(&[h as u32, first, second, 0, kind, size as u32, word(threshold)]);
        for j in 0..h {
            words[BACK + j] = back(&hits, j) as u32;
            words[INDEX + j] = hits.index[j] as u32;
            words[REACH + j] = reach(&hits, j) as u32;
            words[BEST + j] = 0;
        }
        let (cells, index, records) = (passed_cells(&hits), hits.index, vec![None; h]);
        let scoring = task.scoring;
        let mut made = WorkWords { words, scoring, size, index, q: 0, columns: h, row: 0, records, highest: threshold, cells };
        made.write_place();
        made.write_starts();
        (0..h.div_ceil(BLOCK_ROWS)).for_each(|block| made.write_top(block));
        made
    }

    /// m of the cell of this row in the column in hand, 0 where that column has none. The columns after it have the cells before it.
    fn shared(&self, row: usize) -> u32 {
        if row < self.columns { self.cells[cell_count(self.index.len()) - cell_count(self.columns) + row] } else { 0 }
    }

    fn write_place(&mut self) {
        self.words[3] = self.q as u32;
        let (columns, row, m) = (self.columns as u32, self.row as u32, self.shared(self.row));
        self.words[7..11].copy_from_slice(&[columns, row, m, word(self.highest)]);
    }

    /// The greatest record of a block, the first of equal ones, or 0 where it has none.
    fn write_top(&mut self, block: usize) {
        let rows = block * BLOCK_ROWS..self.index.len().min((block + 1) * BLOCK_ROWS);
        let top = self.records[rows].iter().flatten().copied().reduce(Score::or_greater);
        self.words[TOPS + block] = top.map_or(0, word);
    }

    /// m at the first row of each block; one row more has such an m.
    fn write_starts(&mut self) {
        for block in 0..=self.index.len().div_ceil(BLOCK_ROWS) {
            self.words[STARTS + block] = self.shared(block * BLOCK_ROWS);
        }
    }

    /// The score of the next cell.
    fn score(&self) -> Score {
        let len = self.index[self.columns - 1] - self.index[self.row] + 1;
        score(self.scoring, self.size, self.shared(self.row) as usize, len)
    }

    /// Passes one cell. Its score enters its row as a record where no row up to there has seen one as great, and the threshold is lower.
    fn pass(&mut self) {
        let (row, score) = (self.row, self.score());
        if let Some(record) = self.records[row] {
            self.highest = self.highest.or_greater(record);
        }
        if self.highest.is_below(score) {
            (self.records[row], self.highest) = (Some(score), score);
            self.words[BEST + row] = word(score);
            self.write_top(row / BLOCK_ROWS);
        }
        self.row += 1;
        if self.row == self.columns {
            (self.columns, self.row, self.highest) = (self.columns - 1, 0, self.scoring.threshold());
            self.write_starts();
        }
    }

    /// The words after q cells. q does not fall from call to call.
    pub fn after(&mut self, q: usize) -> &[u32] {
        for _ in self.q..q {
            self.pass();
        }
        self.q = q;
        self.write_place();
        &self.words
    }
}
