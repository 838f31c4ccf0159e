//! The sessions that are tested, and their answers as the reference has them.

use std::ops::Range;

use bench::ours;
use bench::plain::work::WORK_WORDS;
use bench::plain::{fastest_start, fastest_step, fastest_work, former_start, former_step, start, step};
use bench::runs::as_they_are;
use bench::signatures::{Shared, Start, Step};
use bench::steps::{AGREED, Layout};
use host::calls::{self, Stepped};
use host::reference::definition1::Mapping;
use host::reference::score::{Score, Scoring, Task};
use host::reference::steps::Answer;

/// A session's functions, what brings its words behind start into the layout of docs/WORK_WORDS.md, if they have all that it needs, and
/// how they lie behind steps.
pub struct Tested {
    pub name: &'static str,
    pub start: Start,
    pub step: Step,
    pub shared: Option<Shared>,
    pub layout: Layout,
}

/// The sessions for this scoring: the fastest scores linearly.
pub fn sessions(scoring: Scoring) -> Vec<Tested> {
    let same = |name, start: Start, step: Step| Tested { name, start, step, shared: Some(as_they_are), layout: Layout::Shared };
    let own = |name, start: Start, step: Step, shared| Tested { name, start, step, shared, layout: Layout::Own };
    let mut all = vec![
        same("the same algorithm", start::start, step::step),
        own("the former one", former_start::start, former_step::step, None),
        same("the proved one", ours::start, calls::step),
    ];
    if let Scoring::Linear { .. } = scoring {
        all.push(own("the fastest", fastest_start::start, fastest_step::step, Some(fastest_work::shared_after_start)));
    }
    all
}

impl Tested {
    /// Starts in words that held these, and asks for h and the words that the reference has.
    pub fn start(&self, case: &str, task: &Task, before: &[u32], h: usize, fresh: &[u32]) -> Vec<u32> {
        let mut work = before.to_vec();
        let given = (self.start)(&task.text, &task.pattern, task.scoring, &mut work);
        assert_eq!(given, h as i32, "{}, {case}", self.name);
        match self.shared {
            Some(shared) => self.hold_same(case, 0..WORK_WORDS, &shared(&work, before), fresh),
            None => self.hold_words(case, &work, fresh),
        }
        work
    }

    /// Asks for the reference's words behind steps, as far as the session lays them out alike.
    pub fn hold_words(&self, case: &str, work: &[u32], expected: &[u32]) {
        match self.layout {
            Layout::Shared => self.hold_same(case, 0..WORK_WORDS, work, expected),
            Layout::Own => AGREED.into_iter().for_each(|words| self.hold_same(case, words, work, expected)),
        }
    }

    /// Asks that these words are the same, and names the first that is not.
    fn hold_same(&self, case: &str, words: Range<usize>, given: &[u32], expected: &[u32]) {
        // compared as a whole first, since that is fast
        if given[words.clone()] != expected[words.clone()] {
            let at = words.into_iter().find(|&at| given[at] != expected[at]).expect("a word that differs");
            panic!("{}, {case}: word {at} is {} in place of {}", self.name, given[at], expected[at]);
        }
    }
}

pub fn as_reference(answer: Stepped) -> Answer {
    let found = |a: u32, b: u32, score: Score, m: u32, cells: u32| {
        Answer::Found(Mapping { a: a as usize, b: b as usize, score, m: m as usize }, cells as usize)
    };
    match answer {
        Stepped::Found { a, b, score, m, cells } => found(a, b, Score::Number(i64::from(score)), m, cells),
        Stepped::FoundJaccard { a, b, m, divisor, cells } => found(a, b, Score::Fraction { m, divisor }, m, cells),
        Stepped::Finished(cells) => Answer::Finished(cells as usize),
        Stepped::Spent(cells) => Answer::Spent(cells as usize),
        Stepped::Refused(number) => Answer::Refused(number),
    }
}
