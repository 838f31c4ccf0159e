//! Passing all cells of a session by random steps, refused ones between, and the list that they hand out.

use super::tally::Met;
use crate::held::session::{Session, start};
use crate::held::{Difference, agree};
use crate::random::Random;
use crate::reference::by_hits::finals_by_hits;
use crate::reference::cells::{cell_count, hits};
use crate::reference::definition1::Mapping;
use crate::reference::list::Form;
use crate::reference::refusal::refused;
use crate::reference::score::Task;
use crate::reference::start::WORK_WORDS;
use crate::reference::steps::{Answer, Step};

/// How many random steps a list has at most, before all cells that are left are passed by steps of the greatest budget.
const RANDOM_STEPS: usize = 60;

/// A budget of any size, mostly one that is small beside the cells, and mostly all of the words.
fn step(random: &mut Random, cells: usize, lent: usize) -> Step {
    let budget = match random.below(8) {
        0 => 0,
        1 => 1,
        2 => random.word() as u32,
        3 => u32::MAX,
        4 => random.below(cells + 2) as u32,
        _ => random.below(cells / 4 + 4) as u32,
    };
    let lent = match random.below(8) {
        0 => random.one_of(&[0, 1, 3, 4, 2_048, WORK_WORDS - 1]),
        1 => random.below(WORK_WORDS),
        2 => WORK_WORDS,
        _ => lent,
    };
    Step { budget, lent }
}

/// Takes one step, and notes what it hands out. True where it is an accepted one that answers finished.
fn take(session: &mut Session, step: Step, found: &mut Vec<Mapping>, met: &mut Met) -> Result<bool, Difference> {
    match session.step(step)? {
        Answer::Found(mapping, _) => found.push(mapping),
        Answer::Refused(number) => met.refusal("step", refused(number)),
        Answer::Finished(_) => return Ok(true),
        Answer::Spent(_) => {}
    }
    Ok(false)
}

/// Passes the cells that are left. `lent` is how many words the session has.
fn finish(session: &mut Session, lent: usize, found: &mut Vec<Mapping>, met: &mut Met) -> Result<(), Difference> {
    while !take(session, Step { budget: u32::MAX, lent }, found, met)? {}
    Ok(())
}

/// Passes all cells of a fresh session, of which there are so many, and asks that the list is this one. A copy that is made on the
/// way ends with the same list.
pub fn hold_list(
    random: &mut Random,
    mut session: Session,
    cells: usize,
    lent: usize,
    finals: &[Mapping],
    met: &mut Met,
) -> Result<(), Difference> {
    let mut found = Vec::new();
    let steps = random.below(RANDOM_STEPS);
    let copied_at = random.below(steps + 1);
    for _ in 0..copied_at {
        take(&mut session, step(random, cells, lent), &mut found, met)?;
    }
    let (mut copy, mut found_by_copy) = (session.clone(), found.clone());
    for _ in copied_at..steps {
        take(&mut session, step(random, cells, lent), &mut found, met)?;
    }
    finish(&mut session, lent, &mut found, met)?;
    agree("the list", found.as_slice(), finals)?;
    agree("cells passed", session.passed(), cells)?;
    finish(&mut copy, lent, &mut found_by_copy, met)?;
    agree("the list of a copy", found_by_copy.as_slice(), finals)
}

/// Holds a whole session of so many hits by few and long steps, beside the form of Definition 1 over hits.
pub fn hold_by_hits(random: &mut Random, task: &Task, h: usize, met: &mut Met) -> Result<(), Difference> {
    let finals = finals_by_hits(task);
    let session = start(random, task, WORK_WORDS, |_| finals.clone())?.map_err(|refusal| format!("refused: {refusal:?}"))?;
    agree("h", hits(task).len(), h)?;
    hold_list(random, session, cell_count(h), WORK_WORDS, &finals, met)?;
    met.list(Form::Faster, task.text.len(), finals.len());
    Ok(())
}
