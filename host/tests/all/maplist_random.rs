//! The program on thousands of made-up clusters of near copies, beside the reference.
//! Assumes that the program has been built.

use host::cases::{cluster, settings, three_lines, threshold_near};
use host::program::sweep;
use host::random::Random;
use host::reference::faster::finals;
use host::reference::input::{Settings, input};
use host::reference::output::{Prepared, prepared_run};
use host::reference::score::Score;

/// What a sweep of random cases met, so that it can't pass on empty lists alone.
#[derive(Default)]
struct Met {
    mapped: usize,
    several: usize,
    ties: usize,
    negative: usize,
    /// cases with a mapping on each strand
    strands: usize,
    refused: usize,
}

/// The scores of both lists.
fn scores(run: &[Prepared; 2]) -> [Vec<i64>; 2] {
    run.each_ref().map(|of| finals(&of.task).iter().map(|mapping| mapping.score.number()).collect())
}

/// A case whose threshold is, mostly, at a score that some interval has, or one beside it.
fn case(random: &mut Random, longest: usize) -> Vec<u8> {
    let (text, read) = cluster(random, longest);
    let mut settings = settings(random, longest);
    let open = Settings { scoring: settings.scoring.open(), ..settings };
    let all = input(&three_lines(&open, &text, &read)).expect("three lines");
    if let Ok(run) = prepared_run(&all)
        && random.below(4) > 0
        && let found @ [_, ..] = scores(&run).concat().as_slice()
    {
        let lowest = *found.iter().min().expect("a score");
        let score = Score::Number(if random.once_in(3) { lowest } else { found[random.below(found.len())] });
        settings.scoring = threshold_near(settings.scoring, score, random.below(3) as i32 - 1);
    }
    three_lines(&settings, &text, &read)
}

fn meet(met: &mut Met, bytes: &[u8]) {
    let Ok(run) = prepared_run(&input(bytes).expect("three lines")) else {
        met.refused += 1;
        return;
    };
    let [mut scores, reverse] = scores(&run);
    met.strands += usize::from(!scores.is_empty() && !reverse.is_empty());
    scores.extend(reverse);
    met.mapped += usize::from(!scores.is_empty());
    met.several += usize::from(scores.len() > 1);
    met.negative += usize::from(scores.iter().any(|&score| score < 0));
    scores.sort_unstable();
    met.ties += usize::from(scores.windows(2).any(|pair| pair[0] == pair[1]));
}

/// Sweeps so many cases, and asks that enough of each kind were met.
fn sweep_many(seeds: std::ops::Range<u64>, longest: usize) {
    let mut met = Met::default();
    sweep(seeds, |seed| case(&mut Random::new(seed), longest), |bytes| meet(&mut met, bytes));
    assert!(met.mapped > 400, "cases with a mapping: {}", met.mapped);
    assert!(met.several > 200, "cases with several mappings: {}", met.several);
    assert!(met.ties > 100, "cases with equal scores: {}", met.ties);
    assert!(met.negative > 50, "cases with a negative score: {}", met.negative);
    assert!(met.strands > 100, "cases with a mapping on each strand: {}", met.strands);
    assert!(met.refused > 20, "refused cases: {}", met.refused);
}

#[test]
fn tiny_clusters() {
    // short reads are often struck whole
    sweep_many(10_000..12_000, 20);
}

#[test]
fn small_clusters() {
    sweep_many(20_000..21_000, 60);
}

#[test]
fn clusters() {
    sweep_many(30_000..31_000, 150);
}

#[test]
fn longer_clusters() {
    sweep_many(40_000..41_000, 300);
}

#[test]
fn long_clusters() {
    sweep(50_000..50_040, |seed| case(&mut Random::new(seed), 4096), |_| ());
}
