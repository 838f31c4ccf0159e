//! Runs of a session's steps, from a fresh session to the last cell.

use std::hint::black_box;
use std::ops::Range;

use host::calls::Stepped;

use crate::made::{Made, Sum};
use crate::plain::work::{BACK, BEST, HITS, SHARED, WORK_WORDS};
use crate::runs::BEFORE;
use crate::sessions::Session;
use crate::signatures::Start;
use crate::timing::{Run, timed};

/// How a session lays out its words: as docs/WORK_WORDS.md, or in a way of its own, which agrees with that only in some.
#[derive(Clone, Copy)]
pub enum Layout {
    Shared,
    Own,
}

/// The words that every session has as docs/WORK_WORDS.md says.
pub const AGREED: [Range<usize>; 2] = [HITS..SHARED, BACK..BEST];

/// How many cells were passed, and how many mappings found.
#[derive(Clone, Copy, Debug, Default, PartialEq, Eq)]
pub struct Passed {
    pub cells: usize,
    pub found: usize,
}

/// Passes all cells by steps of this budget, and hands each answer on. The step is a type of its own, not a pointer, so that a call of
/// it is one as in any Rust program.
fn pass_all(
    step: &mut impl FnMut(&mut [u32], u32) -> Stepped,
    work: &mut [u32],
    budget: u32,
    mut each: impl FnMut(Stepped),
) -> Passed {
    let mut passed = Passed::default();
    loop {
        let answer = step(work, budget);
        each(answer);
        match answer {
            Stepped::Spent(cells) => passed.cells += cells as usize,
            Stepped::Found { cells, .. } | Stepped::FoundJaccard { cells, .. } => {
                passed.cells += cells as usize;
                passed.found += 1;
            }
            Stepped::Finished(cells) => {
                passed.cells += cells as usize;
                return passed;
            }
            Stepped::Refused(number) => panic!("refused {number}"),
        }
    }
}

/// Asks the compiler to make a mapping that is found, though the timed run does not look at it.
fn make(answer: Stepped) {
    match answer {
        Stepped::Found { a, b, score, m, .. } => drop(black_box((a, b, score, m))),
        Stepped::FoundJaccard { a, b, m, divisor, .. } => drop(black_box((a, b, m, divisor))),
        _ => {}
    }
}

/// Adds an answer's kind and all that it has.
fn add(sum: &mut Sum, answer: Stepped) {
    match answer {
        Stepped::Found { a, b, score, m, cells } => sum.add([0, a, b, score as u32, m, cells]),
        Stepped::FoundJaccard { a, b, m, divisor, cells } => sum.add([3, a, b, divisor, m, cells]),
        Stepped::Finished(cells) => sum.add([1, cells]),
        Stepped::Spent(cells) => sum.add([2, cells]),
        Stepped::Refused(number) => sum.add([number, 0]),
    }
}

/// What a session's steps made: every answer in order, and the words behind them.
fn made(mut answers: Sum, work: &[u32], layout: Layout) -> Made {
    for agreed in AGREED {
        answers.add(work[agreed].iter().copied());
    }
    let words = match layout {
        Layout::Shared => Some(Sum::of(work.iter().copied())),
        Layout::Own => None,
    };
    Made { all: answers, words }
}

fn fresh(start: Start, session: &Session) -> Vec<u32> {
    let mut work = vec![BEFORE; WORK_WORDS];
    let h = start(&session.text, &session.pattern, session.scoring, &mut work);
    assert!(h >= 0, "an accepted start");
    work
}

/// How many cells and mappings the session has.
pub fn counted(start: Start, mut step: impl FnMut(&mut [u32], u32) -> Stepped, session: &Session) -> Passed {
    pass_all(&mut step, &mut fresh(start, session), u32::MAX, |_| ())
}

/// Steps of this budget over all cells of a fresh session. They are taken twice: once for the time, and once more to sum up each
/// answer, which costs about as much as a step of one cell. Both must pass and find as much, and leave the same words.
pub fn step_run(
    start: Start,
    mut step: impl FnMut(&mut [u32], u32) -> Stepped + 'static,
    layout: Layout,
    session: &Session,
    budget: u32,
) -> Run<'static> {
    let fresh = fresh(start, session);
    let (mut work, mut again) = (fresh.clone(), fresh.clone());
    Box::new(move || {
        work.copy_from_slice(&fresh);
        let (time, passed) = timed(|| pass_all(&mut step, &mut work, budget, make));
        again.copy_from_slice(&fresh);
        let mut answers = Sum::none();
        let passed_again = pass_all(&mut step, &mut again, budget, |answer| add(&mut answers, answer));
        assert!(passed == passed_again && work == again, "the same steps make the same");
        (time, made(answers, &work, layout))
    })
}
