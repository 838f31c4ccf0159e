//! The faster forms of Definition 1 beside the definition itself, and the rule of steps beside the list.

use host::random::Random;
use host::reference::by_hits::finals_by_hits;
use host::reference::cells::{cell_count, cells, hits};
use host::reference::definition1::{Intervals, Mapping, finals_by_definition};
use host::reference::faster::finals;
use host::reference::score::{Scoring, Task, times};
use host::reference::start::WORK_WORDS;
use host::reference::steps::{Answer, Step, answers};

/// A linear score.
fn linear(random: &mut Random) -> Scoring {
    let (u, v) = random.one_of(&[(1, 1), (1, 1), (2, 1), (1, 2), (3, 4), (4, 1), (1000, 999)]);
    let threshold = random.between(0, 40) as i32 - 30;
    Scoring::Linear { u, v, threshold: if random.once_in(4) { i32::MIN } else { threshold } }
}

/// The weighted Jaccard.
fn jaccard(random: &mut Random) -> Scoring {
    let (f, g) = random.one_of(&[(0, 1), (0, 1), (1, 1000), (1, 20), (1, 5), (1, 4), (2, 8), (1, 3), (1, 2), (3, 4), (1, 1)]);
    Scoring::Jaccard { f, g }
}

/// Scores so.
type MakeScoring = fn(&mut Random) -> Scoring;

/// A text of at most so many entries whose pieces are repeated within it, and a pattern that has only the lower half of the codes.
fn task(random: &mut Random, longest: usize, scoring: MakeScoring) -> Task {
    let codes = random.between(2, 12);
    let entries = random.below(longest + 1);
    let mut text = Vec::new();
    while text.len() < entries {
        let piece: Vec<u32> = (0..random.between(1, 6)).map(|_| random.below(codes) as u32).collect();
        text.extend(piece.repeat(random.between(1, 3)));
    }
    text.truncate(entries);
    let pattern = (0..random.between(1, 12)).map(|_| random.below(codes.div_ceil(2)) as u32).collect();
    Task { text, pattern, scoring: scoring(random) }
}

/// What a sweep of tasks meets, so that it can't pass on tasks without mappings.
#[derive(Default)]
struct Met {
    mappings: usize,
    /// tasks with a text code that the pattern lacks
    foreign: usize,
    /// tasks whose text has a code of the pattern more often than the pattern
    repeats: usize,
}

/// Holds both faster forms to the definition on tasks with texts of at most so many entries, and asks that enough was met.
fn sweep(seeds: std::ops::Range<u64>, longest: usize, scoring: MakeScoring, least: Met) {
    let mut met = Met::default();
    for seed in seeds {
        let task = task(&mut Random::new(seed), longest, scoring);
        let expected = finals_by_definition(&task);
        assert_eq!(finals(&task), expected, "all intervals, seed {seed}: {task:?}");
        assert_eq!(finals_by_hits(&task), expected, "over hits, seed {seed}: {task:?}");
        met.mappings += expected.len();
        met.foreign += usize::from(task.text.iter().any(|code| !task.pattern.contains(code)));
        met.repeats += usize::from(task.pattern.iter().any(|&code| times(code, &task.text) > times(code, &task.pattern)));
    }
    assert!(met.mappings >= least.mappings, "mappings: {}", met.mappings);
    assert!(met.foreign >= least.foreign, "texts with a code that the pattern lacks: {}", met.foreign);
    assert!(met.repeats >= least.repeats, "texts with a code more often than in the pattern: {}", met.repeats);
}

#[test]
fn faster_forms_agree_up_to_24_entries() {
    sweep(0..6000, 24, linear, Met { mappings: 12_000, foreign: 5_000, repeats: 3_000 });
}

#[test]
fn faster_forms_agree_up_to_40_entries() {
    sweep(10_000..10_800, 40, linear, Met { mappings: 3_000, foreign: 700, repeats: 500 });
}

#[test]
fn faster_forms_agree_under_jaccard() {
    sweep(40_000..44_000, 24, jaccard, Met { mappings: 7_000, foreign: 3_500, repeats: 2_000 });
    sweep(45_000..45_600, 40, jaccard, Met { mappings: 2_000, foreign: 550, repeats: 400 });
}

/// A linear score or the weighted Jaccard.
fn either(random: &mut Random) -> Scoring {
    if random.once_in(2) { linear(random) } else { jaccard(random) }
}

#[test]
fn final_intervals_are_cells_in_order() {
    for seed in 20_000..21_500 {
        let task = task(&mut Random::new(seed), 14, either);
        let (intervals, cells) = (Intervals::new(&task), cells(&task));
        assert_eq!(cells.len(), cell_count(hits(&task).len()));
        let among = cells.iter().filter(|&&(a, b)| intervals.is_final(a, b)).map(|&(a, b)| intervals.at(a, b));
        assert_eq!(among.collect::<Vec<Mapping>>(), finals_by_definition(&task), "seed {seed}: {task:?}");
    }
}

#[test]
fn steps_hand_out_the_list() {
    for seed in 30_000..31_500 {
        let mut random = Random::new(seed);
        let task = task(&mut random, 14, either);
        let last = cell_count(hits(&task).len());
        let step = |random: &mut Random| Step {
            budget: random.below(9) as u32,
            lent: if random.once_in(4) { WORK_WORDS - 1 } else { WORK_WORDS },
        };
        let mut steps: Vec<Step> = (0..random.below(30)).map(|_| step(&mut random)).collect();
        steps.extend(std::iter::repeat_n(Step { budget: 1, lent: WORK_WORDS }, last + 1));
        let (answers, q) = answers(&task, &steps);
        let handed_out: Vec<Mapping> = answers
            .iter()
            .filter_map(|answer| if let Answer::Found(mapping, _) = answer { Some(*mapping) } else { None })
            .collect();
        assert_eq!(handed_out, finals_by_definition(&task), "seed {seed}: {task:?}");
        assert_eq!(q, last, "seed {seed}");
        assert!(answers.iter().any(|answer| matches!(answer, Answer::Finished(_))), "seed {seed}");
    }
}
