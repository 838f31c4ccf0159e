//! Definition 1 over intervals that begin and end on hits only, for sessions at the limits: an entry that is no hit adds to len and
//! to no m, so that either score of a wider interval does not fall when such an end is cut off.
//! The tests hold it to the definition over all intervals.

use super::cells::hits;
use super::definition1::Mapping;
use super::score::{Task, score_of};
use super::strike::occurrences;

/// The session's hits as numbers: each one's index in t, the number of its code, and how often that code occurs in p.
pub struct Hits {
    pub index: Vec<usize>,
    pub name: Vec<usize>,
    pub allowed: Vec<usize>,
}

pub fn named_hits(task: &Task) -> Hits {
    let in_pattern = occurrences(task.pattern.iter().copied());
    let names: Vec<u32> = in_pattern.keys().copied().collect();
    let index = hits(task);
    let name = index.iter().map(|&at| names.binary_search(&task.text[at]).expect("a code of the pattern")).collect();
    Hits { index, name, allowed: in_pattern.into_values().collect() }
}

/// m of the cells (i, j) of one row i, by rising j, and whether the cell's two ends are reasonable.
pub fn row(hits: &Hits, i: usize) -> Vec<(usize, bool)> {
    let mut times = vec![0; hits.allowed.len()];
    let mut m = 0;
    let mut row = Vec::with_capacity(hits.name.len() - i);
    for j in i..hits.name.len() {
        let code = hits.name[j];
        times[code] += 1;
        m += usize::from(times[code] <= hits.allowed[code]);
        let reasonable = |end: usize| times[hits.name[end]] <= hits.allowed[hits.name[end]];
        row.push((m, reasonable(i) && reasonable(j)));
    }
    row
}

/// Every final interval, in the order of the list.
pub fn finals_by_hits(task: &Task) -> Vec<Mapping> {
    let hits = named_hits(task);
    let h = hits.index.len();
    let threshold = task.scoring.threshold();
    let mut widest = vec![task.scoring.lowest(); h + 1];
    let mut found = Vec::new();
    for i in 0..h {
        let row = row(&hits, i);
        for j in (i..h).rev() {
            let ((m, reasonable), a, b) = (row[j - i], hits.index[i], hits.index[j]);
            let score = score_of(task, m, b - a + 1);
            widest[j] = widest[j].or_greater(widest[j + 1]).or_greater(score);
            if reasonable && !score.is_below(threshold) && !score.is_below(widest[j]) {
                found.push(Mapping { a, b, score, m });
            }
        }
    }
    found.sort_by_key(|mapping| (usize::MAX - mapping.b, mapping.a));
    found
}
