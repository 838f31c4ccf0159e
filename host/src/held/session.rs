//! The proved start and step beside the rule, with every work word compared after each.

use super::buffer::Buffer;
use super::{Difference, Held, UNWRITTEN, agree, agree_with};
use crate::exported::{self, StepWords};
use crate::random::Random;
use crate::reference::definition1::Mapping;
use crate::reference::score::{Score, Scoring, Task};
use crate::reference::start::start_call;
use crate::reference::steps::{Answer, Rule, Step};
use crate::reference::work_words::WorkWords;

/// A proved session and the rule's, at the same cell.
#[derive(Clone)]
pub struct Session {
    work: Buffer,
    rule: Rule,
    words: WorkWords,
}

/// The proved start of the task's score.
fn proved_start(task: &Task, work: &mut [u32], number: &mut u32) -> usize {
    match task.scoring {
        Scoring::Linear { u, v, threshold } => exported::start(&task.text, &task.pattern, u, v, threshold, work, number),
        Scoring::Jaccard { f, g } => exported::start_jaccard(&task.text, &task.pattern, f, g, work, number),
    }
}

/// Holds the call of start with this many work words, and gives the session where it is accepted. `finals` makes the task's final
/// mappings, by whichever form of Definition 1 suits its size.
pub fn start(random: &mut Random, task: &Task, lent: usize, finals: impl FnOnce(&Task) -> Vec<Mapping>) -> Held<Session> {
    let expected = start_call(task, lent);
    let mut work = Buffer::new(random, lent);
    let mut number = UNWRITTEN;
    let value = proved_start(task, work.lent(), &mut number);
    agree_with(&expected, number, value)?;
    if let Err(refusal) = expected {
        work.holds("work words of a refused start", &[])?;
        return Ok(Err(refusal));
    }
    let mut words = WorkWords::new(task, work.before());
    work.holds("work words after start", words.after(0))?;
    Ok(Ok(Session { work, rule: Rule::new(task, &finals(task)), words }))
}

/// The number and the words that a step gives for this answer: a score under Jaccard by its divisor. Words that the answer does not have
/// keep their content.
fn as_words(answer: &Answer, before: StepWords) -> (u32, StepWords) {
    match *answer {
        Answer::Found(Mapping { a, b, score, m }, cells) => {
            let (kind, score) = match score {
                Score::Number(number) => (0, number),
                Score::Fraction { divisor, .. } => (3, i64::from(divisor)),
            };
            let score = i32::try_from(score).expect("a score of 32 bits");
            (kind, StepWords { a: a as u32, b: b as u32, score, m: m as u32, cells: cells as u32 })
        }
        Answer::Finished(cells) => (1, StepWords { cells: cells as u32, ..before }),
        Answer::Spent(cells) => (2, StepWords { cells: cells as u32, ..before }),
        Answer::Refused(number) => (number, StepWords { cells: 0, ..before }),
    }
}

impl Session {
    /// The cells passed since start.
    pub fn passed(&self) -> usize {
        self.rule.q
    }

    /// Holds one step, which is lent the first `step.lent` words, and returns its answer.
    pub fn step(&mut self, step: Step) -> Result<Answer, Difference> {
        let answer = self.rule.step(step);
        let before = StepWords { a: 1, b: 2, score: -3, m: 4, cells: UNWRITTEN };
        let mut words = before;
        let number = exported::step(&mut self.work.lent()[..step.lent], step.budget, &mut words);
        agree("step", (number, words), as_words(&answer, before))?;
        self.work.holds("work words after a step", self.words.after(self.rule.q))?;
        Ok(answer)
    }
}
