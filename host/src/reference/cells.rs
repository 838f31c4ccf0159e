//! Hits, and cells in the order in which a session passes them.

use std::collections::BTreeSet;

use super::score::Task;

/// "A hit is an index of t whose code is in p"
pub fn hits(task: &Task) -> Vec<usize> {
    let pattern: BTreeSet<u32> = task.pattern.iter().copied().collect();
    (0..task.text.len()).filter(|&index| pattern.contains(&task.text[index])).collect()
}

/// h(h + 1)/2
pub fn cell_count(h: usize) -> usize {
    h * (h + 1) / 2
}

/// The cells as intervals of t: "by falling j, and for one j by rising i".
pub fn cells(task: &Task) -> Vec<(usize, usize)> {
    let hits = hits(task);
    let mut cells = Vec::with_capacity(cell_count(hits.len()));
    for j in (0..hits.len()).rev() {
        for i in 0..=j {
            cells.push((hits[i], hits[j]));
        }
    }
    cells
}
