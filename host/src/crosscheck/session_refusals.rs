//! What start and step refuse, at the limits of weights, fractions, entries, words and hits; and words that no start made.

use super::tally::Tally;
use super::tasks::start_name;
use crate::exported::{self, StepWords};
use crate::held::buffer::Buffer;
use crate::held::session::start;
use crate::held::{Difference, Held, agree};
use crate::random::Random;
use crate::reference::by_hits::finals_by_hits;
use crate::reference::cells::{cell_count, hits};
use crate::reference::refusal::refused;
use crate::reference::score::{Scoring, Task};
use crate::reference::start::{WORK_WORDS, refused_scoring};

/// Holds start, and answers h where it is accepted.
fn hold_start(random: &mut Random, task: &Task, lent: usize) -> Held<usize> {
    Ok(start(random, task, lent, finals_by_hits)?.map(|_| hits(task).len()))
}

/// A text of this many entries, of which the last ones are hits of the pattern's one code.
fn task(entries: usize, hits: usize, pattern: usize, scoring: Scoring) -> Task {
    let text = [vec![8; entries - hits], vec![9; hits]].concat();
    Task { text, pattern: vec![9; pattern], scoring }
}

/// A start that scores so, with entries and words at their limits.
fn starts_with(tally: &mut Tally, random: &mut Random, scoring: Scoring) {
    for entries in [0, 3, 65_535, 65_536] {
        for pattern in [0, 1, 4_096, 4_097] {
            for lent in [0, 16_383, 16_384, 16_400] {
                let task = task(entries, entries.min(3), pattern, scoring);
                let case = || format!("{scoring:?}, {entries} and {pattern} entries, {lent} words");
                tally.call(start_name(scoring), case, hold_start(random, &task, lent));
            }
        }
    }
}

/// Starts that score so, with hits at their limit.
fn starts_with_hits(tally: &mut Tally, random: &mut Random, scoring: Scoring) {
    for hits in [0, 1, 2_047, 2_048, 2_049, 4_097, 65_535] {
        for (entries, pattern) in [(hits, 1), (hits, 4_096), (65_535, 1), (65_535, 4_096)] {
            let task = task(entries, hits, pattern, scoring);
            let case = || format!("{scoring:?}, {hits} hits, {entries} and {pattern} entries");
            tally.call(start_name(scoring), case, hold_start(random, &task, WORK_WORDS));
        }
    }
}

/// Numbers at the limits of weights and of fractions.
const NUMBERS: [u32; 6] = [0, 1, 999, 1_000, 1_001, u32::MAX];

fn starts(tally: &mut Tally, random: &mut Random) {
    for u in NUMBERS {
        for v in NUMBERS {
            starts_with(tally, random, Scoring::Linear { u, v, threshold: 0 });
        }
    }
    starts_with_hits(tally, random, Scoring::Linear { u: 1_000, v: 1_000, threshold: 0 });
}

fn jaccard_starts(tally: &mut Tally, random: &mut Random) {
    for f in NUMBERS {
        for g in NUMBERS {
            starts_with(tally, random, Scoring::Jaccard { f, g });
        }
    }
    starts_with_hits(tally, random, Scoring::Jaccard { f: 1, g: 1_000 });
}

/// Holds a step that is refused with this number: no word is changed.
fn refused_step(random: &mut Random, first: [u32; 5], lent: usize, number: u32) -> Held<usize> {
    let mut work = Buffer::new(random, WORK_WORDS + 20);
    work.lent()[..5].copy_from_slice(&first);
    let before = work.lent().to_vec();
    let mut words = StepWords { a: 1, b: 2, score: -3, m: 4, cells: 5 };
    let given = exported::step(&mut work.lent()[..lent], random.one_of(&[0, 1, 9, u32::MAX]), &mut words);
    agree("step", (given, words), (number, StepWords { a: 1, b: 2, score: -3, m: 4, cells: 0 }))?;
    work.holds("work words of a refused step", &before)?;
    Ok(Err(refused(number)))
}

fn steps(tally: &mut Tally, random: &mut Random) {
    let most = cell_count(2_048) as u32;
    let bad = [
        [2_049, 1, 1, 0, 0],
        [u32::MAX, 1, 1, 0, 0],
        [5, 0, 1, 0, 0],
        [5, 1_001, 1, 0, 0],
        [5, 1, 0, 0, 0],
        [5, 1, 1_001, 0, 0],
        [5, u32::MAX, u32::MAX, 0, 0],
        [5, 1, 1, 16, 0],
        [0, 1, 1, 1, 0],
        [2_048, 1_000, 1_000, most + 1, 0],
        [2_048, 1_000, 1_000, u32::MAX, 0],
        [2_049, 1, 1, 0, 1],
        [5, 0, 0, 0, 1],
        [5, 1, 0, 0, 1],
        [5, 2, 1, 0, 1],
        [5, 1_000, 999, 0, 1],
        [5, 0, 1_001, 0, 1],
        [5, 1_001, 1_001, 0, 1],
        [5, u32::MAX, 1, 0, 1],
        [5, u32::MAX, u32::MAX, 0, 1],
        [5, 0, 1, 16, 1],
        [0, 0, 1, 1, 1],
        [2_048, 1_000, 1_000, most + 1, 1],
        [5, 1, 1, 0, 2],
        [0, 1, 1, 0, 2],
        [5, 1, 1, 0, 3],
        [5, 1, 1, 0, 1 << 16],
        [5, 1, 1, 0, 1 << 31],
        [5, 1, 1, 0, u32::MAX],
    ];
    for first in bad {
        for lent in [WORK_WORDS, WORK_WORDS + 20] {
            tally.call("step", || format!("words {first:?}"), refused_step(random, first, lent, 15));
        }
        for lent in [0, 1, 3, 4, WORK_WORDS - 1] {
            tally.call("step", || format!("{lent} words {first:?}"), refused_step(random, first, lent, 10));
        }
    }
}

/// Any scoring that start accepts.
fn accepted_scoring(random: &mut Random) -> Scoring {
    let [one, other] = [1, 2].map(|_| random.between(1, 1_000) as u32);
    match random.below(4) {
        0 => Scoring::Jaccard { f: 0, g: other },
        1 => Scoring::Jaccard { f: one.min(other), g: one.max(other) },
        _ => Scoring::Linear { u: one, v: other, threshold: 0 },
    }
}

/// What a step answers for words that no start made is open. It ends, and the words beyond the first 16,384 stay.
fn unmade(random: &mut Random) -> Result<(), Difference> {
    let mut work = Buffer::new(random, WORK_WORDS + 100);
    let shift = random.one_of(&[0, 16, 21, 28]);
    for word in &mut work.lent()[..WORK_WORDS] {
        *word >>= shift;
    }
    let h = random.below(2_049);
    let passed = random.below(cell_count(h) + 1);
    let scoring = accepted_scoring(random);
    agree("a scoring that is refused", refused_scoring(scoring), None)?;
    let (first, second, kind, found) = match scoring {
        Scoring::Linear { u, v, .. } => (u, v, 0, 0),
        Scoring::Jaccard { f, g } => (f, g, 1, 3),
    };
    work.lent()[..5].copy_from_slice(&[h as u32, first, second, passed as u32, kind]);
    let mut words = StepWords::default();
    let budget = random.one_of(&[0, 1, 100, 100_000, u32::MAX]);
    let answer = exported::step(work.lent(), budget, &mut words);
    agree("found, finished or spent", [found, 1, 2].contains(&answer), true)?;
    let now = work.lent()[..WORK_WORDS].to_vec();
    work.holds("words beyond the first 16,384", &now)
}

pub fn limits(tally: &mut Tally) {
    let mut random = Random::new(340_000);
    starts(tally, &mut random);
    tally.end_part(
        "start: u, v 0, 1, 999, 1,000, 1,001; 65,535 and 65,536, 4,096 and 4,097 entries; 16,383 words; h 2,048 and 2,049",
    );
    jaccard_starts(tally, &mut random);
    tally.end_part("start under Jaccard: f, g 0, 1, 999, 1,000, 1,001; entries, words and hits at the same limits");
    steps(tally, &mut random);
    tally.end_part("step: 16,383 words, and words 0 to 4 at their limits");
    for seed in 0..2_000 {
        tally.compare(|| format!("seed {seed}"), |_| unmade(&mut Random::new(341_000 + seed)));
    }
    tally.end_part("step: words that no start made");
}
