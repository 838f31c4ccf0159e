//! What start answers: h, or a refusal.

use super::cells::hits;
use super::refusal::{Refusal, refused, refused_with};
use super::score::{Scoring, Task};
use super::strike::MAX_TEXT;

pub const MAX_WEIGHT: u32 = 1_000;
pub const MAX_DIVISOR: u32 = 1_000;
pub const MAX_PATTERN: usize = 4_096;
pub const MAX_HITS: usize = 2_048;
pub const WORK_WORDS: usize = 16_384;

/// The number that refuses how a session is to score, if one does: 7 for weights, and 17 "when g is outside 1–1,000 or f is over g".
pub fn refused_scoring(scoring: Scoring) -> Option<u32> {
    match scoring {
        Scoring::Linear { u, v, .. } => {
            let bad = !(1..=MAX_WEIGHT).contains(&u) || !(1..=MAX_WEIGHT).contains(&v);
            bad.then_some(7)
        }
        Scoring::Jaccard { f, g } => (!(1..=MAX_DIVISOR).contains(&g) || f > g).then_some(17),
    }
}

/// The call of the start for this task's score with this many work words. Refusals in their order: 7 or 17, then 8 to 11.
pub fn start_call(task: &Task, lent: usize) -> Result<usize, Refusal> {
    if let Some(number) = refused_scoring(task.scoring) {
        return Err(refused(number));
    }
    if task.text.len() > MAX_TEXT {
        return Err(refused(8));
    }
    if task.pattern.is_empty() || task.pattern.len() > MAX_PATTERN {
        return Err(refused(9));
    }
    if lent < WORK_WORDS {
        return Err(refused(10));
    }
    let h = hits(task).len();
    if h > MAX_HITS {
        return Err(refused_with(11, h));
    }
    Ok(h)
}
