//! Sessions of several blocks of rows beside the reference's rule, with every work word compared behind each step. Many blocks are
//! skipped, and steps often end inside one that a longer step skips.

use bench::jobs::TEXT;
use bench::plain::work::{BLOCK_ROWS, HIGHEST, INDEX, SHARED, WORK_WORDS};
use bench::sessions::{self, ABOVE_RISING, HITS, PATTERN, Session, all_records, flat, flat_score, random_hits, rising};
use host::clusters::{ROWS, cluster, jaccard_cluster};
use host::random::Random;
use host::reference::by_hits::finals_by_hits;
use host::reference::score::{Score, Scoring, Task, score_of};
use host::reference::start::start_call;
use host::reference::steps::{Answer, Rule, Step};
use host::reference::work_words::WorkWords;

use crate::on_small_stack;
use crate::tested::{Tested, as_reference, sessions};

/// How many steps ended inside a block that is skipped from its first row on, and inside one that is looked at.
#[derive(Debug, Default)]
struct Ends {
    skipped: usize,
    live: usize,
}

/// The columns left behind q cells of h hits, and the row of the next cell.
fn place(h: usize, q: usize) -> (usize, usize) {
    let (mut columns, mut row) = (h, q);
    while columns > 0 && row >= columns {
        row -= columns;
        columns -= 1;
    }
    (columns, row)
}

/// The score of a word.
fn score_of_word(scoring: Scoring, word: u32) -> Score {
    match scoring {
        Scoring::Linear { .. } => Score::Number(i64::from(word) - (1 << 31)),
        Scoring::Jaccard { .. } => Score::Fraction { m: word / (1 << 21) + 1, divisor: (1 << 21) - 1 - word % (1 << 21) },
    }
}

impl Ends {
    /// Takes note of a step that ended behind q cells. The words are of the cells before it, and go on to the first row of the block.
    fn note(&mut self, task: &Task, words: &mut WorkWords, h: usize, before: usize, q: usize) {
        let (columns, row) = place(h, q);
        let first = q - row % BLOCK_ROWS;
        if first == q || first < before {
            return;
        }
        let words = words.after(first);
        let end = columns.min((row / BLOCK_ROWS + 1) * BLOCK_ROWS);
        let len = words[INDEX + columns - 1] - words[INDEX + end - 1] + 1;
        // m of the first row with the length of the last
        let bound = score_of(task, words[SHARED] as usize, len as usize);
        if bound.is_below(score_of_word(task.scoring, words[HIGHEST])) { self.skipped += 1 } else { self.live += 1 }
    }
}

fn budget(random: &mut Random, h: usize) -> u32 {
    let most = random.one_of(&[2, 130, 2 * h, 8 * h]);
    if random.once_in(40) { u32::MAX } else { random.below(most) as u32 }
}

/// Takes random steps until all cells are passed, and holds each session's answers and words.
fn hold(random: &mut Random, case: &str, task: &Task, ends: &mut Ends) {
    let h = start_call(task, WORK_WORDS).expect("a task that start accepts");
    let before = vec![0xaaaa_aaaa; WORK_WORDS];
    let (mut rule, mut words) = (Rule::new(task, &finals_by_hits(task)), WorkWords::new(task, &before));
    let fresh = words.after(0).to_vec();
    let start = |session: Tested| {
        let work = session.start(case, task, &before, h, &fresh);
        (session, work)
    };
    let mut all: Vec<(Tested, Vec<u32>)> = sessions(task.scoring).into_iter().map(start).collect();
    loop {
        let (q, budget) = (rule.q, budget(random, h));
        let expected = rule.step(Step { budget, lent: WORK_WORDS });
        ends.note(task, &mut words, h, q, rule.q);
        let after = words.after(rule.q);
        for (session, work) in &mut all {
            let given = as_reference((session.step)(work, budget));
            assert_eq!(given, expected, "{}, {case}, budget {budget} behind {q} cells", session.name);
            session.hold_words(case, work, after);
        }
        if matches!(expected, Answer::Finished(_)) {
            return;
        }
    }
}

/// Holds so many clusters with each number of hits.
fn hold_clusters(seeds: std::ops::Range<u64>, cluster: fn(&mut Random, usize) -> Task) -> Ends {
    let mut ends = Ends::default();
    for seed in seeds {
        let mut random = Random::new(seed);
        for h in ROWS {
            let task = cluster(&mut random, h);
            hold(&mut random, &format!("seed {seed}, {h} hits"), &task, &mut ends);
        }
    }
    ends
}

#[test]
fn clusters() {
    on_small_stack(|| {
        let ends = hold_clusters(20_000..20_040, cluster);
        assert!(ends.skipped > 6_000 && ends.live > 20_000, "{ends:?}");
    });
}

#[test]
fn clusters_under_jaccard() {
    on_small_stack(|| {
        let ends = hold_clusters(23_000..23_040, jaccard_cluster);
        assert!(ends.skipped > 7_000 && ends.live > 30_000, "{ends:?}");
    });
}

fn task(session: Session) -> Task {
    let Session { text, pattern, scoring } = session;
    Task { text, pattern, scoring }
}

/// Blocks that are looked at with none found, and cells of which each is a record.
#[test]
fn rising_and_falling_scores_under_jaccard() {
    on_small_stack(|| {
        let mut random = Random::new(24_000);
        let mut ends = Ends::default();
        for h in &ROWS[..6] {
            for (f, g) in [ABOVE_RISING, (0, 1), (1, 1000), (1, 32), (1, 1)] {
                let (rising, records) = (rising(*h).under_jaccard(f, g), all_records(*h).under_jaccard(f, g));
                hold(&mut random, &format!("{h} rising hits, {f}/{g}"), &task(rising), &mut ends);
                hold(&mut random, &format!("{h} hits, all records, {f}/{g}"), &task(records), &mut ends);
            }
        }
        assert!(ends.skipped > 300 && ends.live > 1_200, "{ends:?}");
    });
}

/// All cells found, and all blocks looked at with none found.
#[test]
fn equal_scores() {
    on_small_stack(|| {
        let mut random = Random::new(21_000);
        let mut ends = Ends::default();
        for h in &ROWS[..6] {
            for threshold in [i32::MIN, flat_score(*h), flat_score(*h) + 1] {
                let task = task(flat(*h, threshold));
                hold(&mut random, &format!("{h} equal hits, threshold {threshold}"), &task, &mut ends);
            }
        }
        assert!(ends.live > 300, "{ends:?}");
    });
}

/// The rows of the table in which not all cells are looked at.
#[test]
fn rows_of_the_table() {
    on_small_stack(|| {
        let mut random = Random::new(22_000);
        let mut ends = Ends::default();
        let clusters = [(8, 90), (20, 90), (8, 98), (20, 98)].map(|(copies, kept)| sessions::cluster(copies, kept));
        for session in clusters.into_iter().chain([random_hits(TEXT, PATTERN, HITS, 0).with_third()]) {
            hold(&mut random, "a row", &task(session), &mut ends);
        }
        assert!(ends.skipped > 1_000, "{ends:?}");
    });
}

#[test]
fn rows_of_the_table_under_jaccard() {
    on_small_stack(|| {
        let mut random = Random::new(25_000);
        let mut ends = Ends::default();
        let clusters =
            [(8, 90), (20, 90), (8, 98), (20, 98)].map(|(copies, kept)| sessions::cluster(copies, kept).under_jaccard(1, 3));
        let repeats = random_hits(TEXT, PATTERN, HITS, 0);
        let others = [repeats.under_jaccard(1, 1), repeats.under_jaccard(1, 3)];
        for session in clusters.into_iter().chain(others) {
            hold(&mut random, "a row", &task(session), &mut ends);
        }
        assert!(ends.skipped > 2_000, "{ends:?}");
    });
}

/// No cell of the session that has nearly all blocks live reaches its threshold, and a step looks at nearly all cells.
#[test]
fn rising_scores_stay_below_the_threshold() {
    let (f, g) = ABOVE_RISING;
    for h in [HITS / 2, HITS] {
        let task = task(rising(h).under_jaccard(f, g));
        assert!(finals_by_hits(&task).is_empty());
        // a whole block of 64 rows: m of the first with the length of the last
        let live = |n: usize| !score_of(&task, n, (n - BLOCK_ROWS) * 32 + 1).is_below(task.scoring.threshold());
        assert!((BLOCK_ROWS..=h).all(live), "blocks with up to {h} hits behind them");
    }
}
