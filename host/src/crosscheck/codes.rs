//! Tasks from codes to the list: any 32-bit words given to start directly.

use std::ops::Range;

use super::numbers::Least;
use super::tally::Tally;
use super::tasks::{Kind, hold_task, thresholded, weights};
use crate::random::Random;
use crate::reference::score::Task;

const CASES: u64 = 20_000;
const JACCARD_CASES: u64 = 12_000;
const LEAST: Least = Least { lists: 17_500, medium: 8_900, mappings: 52_700 };
const JACCARD_LEAST: Least = Least { lists: 10_400, medium: 5_200, mappings: 35_500 };

/// The fewest and the most entries of a text, and the most of its pattern. Half of the texts have 9 to 24.
const LENGTHS: [(usize, usize, usize); 4] = [(0, 8, 5), (9, 24, 8), (9, 24, 16), (25, 50, 20)];

fn task(random: &mut Random, kind: Kind) -> Task {
    let kinds: Vec<u32> = (0..random.between(1, 12))
        .map(|_| {
            if random.once_in(3) {
                random.one_of(&[0, 1, 1 << 30, 1 << 31, u32::MAX - 1, u32::MAX])
            } else {
                random.word() as u32
            }
        })
        .collect();
    let used = random.between(1, kinds.len());
    let (shortest, longest, longest_pattern) = random.one_of(&LENGTHS);
    let text = (0..random.between(shortest, longest)).map(|_| random.one_of(&kinds)).collect();
    let pattern = (0..random.below(longest_pattern + 1)).map(|_| random.one_of(&kinds[..used])).collect();
    let (u, v) = if random.once_in(30) { random.one_of(&[(0, 1), (1, 0), (1_001, 1), (1, 1_001)]) } else { weights(random) };
    let task = Task { text, pattern, scoring: kind.scoring((u, v)) };
    Task { scoring: thresholded(random, &task), ..task }
}

fn hold(tally: &mut Tally, seeds: Range<u64>, kind: Kind) {
    for seed in seeds {
        let mut random = Random::new(seed);
        let task = task(&mut random, kind);
        tally.compare(|| format!("seed {seed}, {task:?}"), |met| hold_task(&mut random, &task, met));
    }
}

pub fn random(tally: &mut Tally) {
    hold(tally, 100_000..100_000 + CASES, Kind::Linear);
    tally.end_lists("lists from any words, by start and step", &LEAST);
    hold(tally, 150_000..150_000 + JACCARD_CASES, Kind::Jaccard);
    tally.end_lists("lists from any words under Jaccard, by start and step", &JACCARD_LEAST);
}
