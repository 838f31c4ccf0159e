//! What lists from letters and lists from words share: weights, thresholds of both scores, and the comparison of a whole list.

use super::stepping::hold_list;
use super::tally::Met;
use crate::cases::{fraction, fraction_near};
use crate::held::Difference;
use crate::held::session::start;
use crate::random::Random;
use crate::reference::cells::{cell_count, hits};
use crate::reference::faster::finals;
use crate::reference::list::{form_of, list_of};
use crate::reference::score::{Score, Scoring, Task};
use crate::reference::start::WORK_WORDS;

/// Which of the two scores the tasks of a part have.
#[derive(Clone, Copy)]
pub enum Kind {
    Linear,
    Jaccard,
}

impl Kind {
    /// This score, with the weights where it has any, and with a threshold that is chosen later.
    pub fn scoring(self, (u, v): (u32, u32)) -> Scoring {
        match self {
            Kind::Linear => Scoring::Linear { u, v, threshold: 0 },
            Kind::Jaccard => Scoring::Jaccard { f: 0, g: 1 },
        }
    }
}

/// The name of the start that this score has.
pub fn start_name(scoring: Scoring) -> &'static str {
    match scoring {
        Scoring::Linear { .. } => "start",
        Scoring::Jaccard { .. } => "start, Jaccard",
    }
}

/// Weights of any size, mostly small ones.
pub fn weights(random: &mut Random) -> (u32, u32) {
    let any = |random: &mut Random| random.between(1, 1_000) as u32;
    match random.below(4) {
        0 => (any(random), any(random)),
        1 => random.one_of(&[(1, 1_000), (1_000, 1), (1_000, 1_000), (1, 1)]),
        _ => (random.between(1, 4) as u32, random.between(1, 4) as u32),
    }
}

/// A threshold of the linear score: that of an interval that is final below it, one beside it, an end of the 32 bits, or any.
fn threshold(random: &mut Random, listed: &[Score]) -> i32 {
    match random.below(6) {
        0 => random.one_of(&[i32::MIN, i32::MAX]),
        1 => random.word() as i32,
        2 => random.between(0, 40) as i32 - 20,
        _ if listed.is_empty() => 0,
        _ => listed[random.below(listed.len())].number() as i32 + random.below(3) as i32 - 1,
    }
}

/// The task's scoring with a threshold: mostly the score of an interval that is final below it, or one beside it.
pub fn thresholded(random: &mut Random, task: &Task) -> Scoring {
    let open = finals(&Task { scoring: task.scoring.open(), ..task.clone() });
    let listed: Vec<Score> = open.iter().map(|mapping| mapping.score).collect();
    match task.scoring {
        Scoring::Linear { u, v, .. } => Scoring::Linear { u, v, threshold: threshold(random, &listed) },
        Scoring::Jaccard { .. } if listed.is_empty() || random.once_in(4) => fraction(random),
        Scoring::Jaccard { .. } => {
            let score = random.one_of(&listed);
            fraction_near(random, score)
        }
    }
}

/// Lists a task by start and steps, beside its final intervals. A task that start refuses makes no list.
pub fn hold_task(random: &mut Random, task: &Task, met: &mut Met) -> Result<(), Difference> {
    let lent = WORK_WORDS + random.one_of(&[0, 1, 100]);
    let expected = list_of(task);
    match start(random, task, lent, |_| expected.clone())? {
        Ok(session) => {
            hold_list(random, session, cell_count(hits(task).len()), lent, &expected, met)?;
            met.list(form_of(task), task.text.len(), expected.len());
        }
        Err(refusal) => met.no_list(start_name(task.scoring), refusal),
    }
    Ok(())
}
