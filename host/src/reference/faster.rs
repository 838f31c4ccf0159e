//! Definition 1 over all intervals, fast enough for texts of some thousand entries: m is counted on from each end to the next, and
//! the greatest score of the intervals that contain one is kept and not looked for. The tests hold it to the definition.

use super::definition1::Mapping;
use super::score::{Task, score_of};
use super::strike::occurrences;

/// Every final interval, in the order of the list. Intervals are visited start by start, and `widest[b]` is the greatest score of
/// those that contain [a, b].
pub fn finals(task: &Task) -> Vec<Mapping> {
    let numbering = occurrences(task.text.iter().copied());
    let names: Vec<u32> = numbering.into_keys().collect();
    let text: Vec<usize> = task.text.iter().map(|code| names.binary_search(code).expect("a code of the text")).collect();
    let in_pattern = occurrences(task.pattern.iter().copied());
    let allowed: Vec<usize> = names.iter().map(|code| in_pattern.get(code).copied().unwrap_or(0)).collect();

    let threshold = task.scoring.threshold();
    let mut widest = vec![task.scoring.lowest(); text.len() + 1];
    let mut found = Vec::new();
    for a in 0..text.len() {
        let row = intervals_from(task, &text, &allowed, a);
        for b in (a..text.len()).rev() {
            let (mapping, reasonable) = row[b - a];
            widest[b] = widest[b].or_greater(widest[b + 1]).or_greater(mapping.score);
            if reasonable && !mapping.score.is_below(threshold) && !mapping.score.is_below(widest[b]) {
                found.push(mapping);
            }
        }
    }
    found.sort_by_key(|mapping| (usize::MAX - mapping.b, mapping.a));
    found
}

/// The intervals that start at a, by rising b, each with its mapping and whether both its ends are reasonable.
/// `text` has its codes numbered, and `allowed` has for each number how often that code occurs in p.
fn intervals_from(task: &Task, text: &[usize], allowed: &[usize], a: usize) -> Vec<(Mapping, bool)> {
    let mut times = vec![0; allowed.len()];
    let mut m = 0;
    let mut row = Vec::with_capacity(text.len() - a);
    for b in a..text.len() {
        times[text[b]] += 1;
        if times[text[b]] <= allowed[text[b]] {
            m += 1;
        }
        let reasonable = |end: usize| times[text[end]] <= allowed[text[end]];
        let mapping = Mapping { a, b, score: score_of(task, m, b - a + 1), m };
        row.push((mapping, reasonable(a) && reasonable(b)));
    }
    row
}
