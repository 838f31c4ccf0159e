//! Sessions with 2,048 hits in 65,535 text entries and 4,096 pattern entries, beside the form of Definition 1 over hits.

use super::numbers::Least;
use super::stepping::hold_by_hits;
use super::tally::Tally;
use crate::held::{Difference, agree};
use crate::random::Random;
use crate::reference::by_hits::finals_by_hits;
use crate::reference::faster::finals;
use crate::reference::score::{Scoring, Task};
use crate::reference::start::{MAX_HITS, MAX_PATTERN};
use crate::reference::strike::MAX_TEXT;

/// Weights and thresholds: both ends of the 32 bits, and some between.
const SETTINGS: [(u32, u32, i32); 5] =
    [(1_000, 1_000, i32::MIN), (1_000, 1_000, i32::MAX), (1_000, 1, -30_000), (1, 1_000, -4_100_000), (1, 1, -4_000)];

/// Thresholds under Jaccard: both ends, the least above 0, and some between.
const FRACTIONS: [(u32, u32); 5] = [(0, 1_000), (1, 1_000), (21, 1_000), (1, 4), (1_000, 1_000)];

const LEAST: Least = Least { lists: 30, medium: 0, mappings: 4_287_000 };
const JACCARD_LEAST: Least = Least { lists: 30, medium: 0, mappings: 59_000 };

/// Where the hits of a text stand.
#[derive(Clone, Copy, Debug)]
enum Places {
    Anywhere,
    First,
    Last,
    Ends,
}

/// The 2,048 indices of the text at which hits stand.
fn places(random: &mut Random, kind: Places) -> Vec<usize> {
    let half = MAX_HITS / 2;
    match kind {
        Places::First => (0..MAX_HITS).collect(),
        Places::Last => (MAX_TEXT - MAX_HITS..MAX_TEXT).collect(),
        Places::Ends => (0..half).chain(MAX_TEXT - half..MAX_TEXT).collect(),
        Places::Anywhere => {
            let mut all: Vec<usize> = (0..MAX_TEXT).collect();
            for at in 0..MAX_HITS {
                all.swap(at, random.between(at, MAX_TEXT - 1));
            }
            all.truncate(MAX_HITS);
            all
        }
    }
}

/// A task with exactly 2,048 hits whose codes are so many; other entries have codes that the pattern lacks.
fn task(random: &mut Random, kind: Places, codes: usize, scoring: Scoring) -> Task {
    let spread = |code: usize| (code as u32).wrapping_mul(2_654_435_761);
    let mut text: Vec<u32> = (0..MAX_TEXT).map(|_| spread(1_000_000 + random.below(50_000))).collect();
    for at in places(random, kind) {
        text[at] = spread(random.below(codes));
    }
    let pattern = (0..MAX_PATTERN)
        .map(|n| {
            spread(if n < codes {
                n
            } else if random.once_in(3) {
                random.below(codes)
            } else {
                500_000 + random.below(900)
            })
        })
        .collect();
    Task { text, pattern, scoring }
}

/// Asks that the form over hits lists what all intervals of a long text give.
fn hold_form(task: &Task) -> Result<(), Difference> {
    let finals = finals(task);
    agree("mappings are listed", finals.is_empty(), false)?;
    agree("the form over hits", finals_by_hits(task), finals)
}

/// Holds a session of each of these scorings, wherever its hits stand.
fn sessions(tally: &mut Tally, random: &mut Random, scorings: [Scoring; 5]) {
    let kinds = [
        (Places::Anywhere, 1),
        (Places::Anywhere, 40),
        (Places::Anywhere, 1_500),
        (Places::First, 300),
        (Places::Last, 1),
        (Places::Ends, 1_500),
    ];
    for (kind, codes) in kinds {
        for scoring in scorings {
            let task = task(random, kind, codes, scoring);
            let case = || format!("{kind:?}, {codes} codes, {scoring:?}");
            tally.compare(case, |met| hold_by_hits(random, &task, MAX_HITS, met));
        }
    }
}

pub fn limits(tally: &mut Tally) {
    let mut random = Random::new(350_000);
    for scoring in [Scoring::Linear { u: 1_000, v: 1, threshold: -3_000_000 }, Scoring::Jaccard { f: 1, g: 1_000 }] {
        let mut whole = task(&mut random, Places::Anywhere, 1_500, scoring);
        whole.text.truncate(16_384);
        tally.compare(|| format!("all intervals of 16,384 entries, {scoring:?}"), |_| hold_form(&whole));
    }
    tally.end_part("the form of Definition 1 over hits beside all 134,225,920 intervals of 16,384 entries, both scores");
    sessions(tally, &mut random, SETTINGS.map(|(u, v, threshold)| Scoring::Linear { u, v, threshold }));
    tally.end_lists("sessions: h 2,048, 65,535 and 4,096 entries, weights 1,000, thresholds at both ends of 32 bits", &LEAST);
    sessions(tally, &mut random, FRACTIONS.map(|(f, g)| Scoring::Jaccard { f, g }));
    tally.end_lists("sessions under Jaccard: h 2,048, 65,535 and 4,096 entries, thresholds from 0 to 1", &JACCARD_LEAST);
}
