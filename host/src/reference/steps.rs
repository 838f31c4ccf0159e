//! The rule of a step, and of a list of steps from a fresh session.
//! Assumes that start accepts the task.

use super::cells::{cell_count, cells};
use super::definition1::Mapping;
use super::list::list_of;
use super::score::{Scoring, Task};
use super::start::{MAX_HITS, WORK_WORDS, refused_scoring};

/// A step of a list: its budget, and how many of the work words it is lent.
#[derive(Clone, Copy, Debug)]
pub struct Step {
    pub budget: u32,
    pub lent: usize,
}

#[derive(Clone, Copy, Debug, PartialEq, Eq)]
pub enum Answer {
    Found(Mapping, usize),
    Finished(usize),
    Spent(usize),
    Refused(u32),
}

/// A session by the rule: how many cells it has, which of them are final, and the number q of the last cell passed.
#[derive(Clone)]
pub struct Rule {
    last: usize,
    /// the number of each final cell, rising, and its mapping
    finals: Vec<(usize, Mapping)>,
    pub q: usize,
}

impl Rule {
    /// A fresh session of this task, whose final mappings are these, in the order of the list: "cells are numbered from 1 in their
    /// order", "q is 0 at first".
    pub fn new(task: &Task, finals: &[Mapping]) -> Rule {
        let cells = cells(task);
        let mut numbered = Vec::new();
        for (at, &cell) in cells.iter().enumerate() {
            if let Some(&next) = finals.get(numbered.len())
                && (next.a, next.b) == cell
            {
                numbered.push((at + 1, next));
            }
        }
        assert_eq!(numbered.len(), finals.len(), "each final mapping is a cell, and they are in the order of the cells");
        Rule { last: cells.len(), finals: numbered, q: 0 }
    }

    /// "An accepted step with budget B looks at the next B cells after number q, or at all that remain if they are fewer."
    pub fn step(&mut self, step: Step) -> Answer {
        if step.lent < WORK_WORDS {
            return Answer::Refused(10);
        }
        let before = self.q;
        let looked_at = (step.budget as usize).min(self.last - before);
        let next = self.finals.partition_point(|&(number, _)| number <= before);
        match self.finals.get(next) {
            Some(&(number, mapping)) if number <= before + looked_at => {
                self.q = number;
                Answer::Found(mapping, number - before)
            }
            _ => {
                self.q += looked_at;
                if self.q == self.last { Answer::Finished(looked_at) } else { Answer::Spent(looked_at) }
            }
        }
    }
}

/// Whether words 0 to 4 are refused with 15: h over its limit, words 1 and 2 as start refuses them for the score that word 4 tells, more
/// cells passed than there are, or another number in word 4.
pub fn refused_words([h, first, second, passed, kind]: [u32; 5]) -> bool {
    let scoring = match kind {
        0 => Scoring::Linear { u: first, v: second, threshold: 0 },
        1 => Scoring::Jaccard { f: first, g: second },
        _ => return true,
    };
    h as usize > MAX_HITS || refused_scoring(scoring).is_some() || passed as usize > cell_count(h as usize)
}

/// The answers of a list of steps from a fresh session, and q after it.
pub fn answers(task: &Task, steps: &[Step]) -> (Vec<Answer>, usize) {
    let mut rule = Rule::new(task, &list_of(task));
    let answers = steps.iter().map(|&step| rule.step(step)).collect();
    (answers, rule.q)
}
