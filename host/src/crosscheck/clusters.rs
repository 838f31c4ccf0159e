//! Sessions of near copies with several blocks of rows, beside the form of Definition 1 over hits. Steps have random budgets, and every
//! work word is compared behind each of them. How often a step ends inside a block that a longer one skips is counted in bench/tests.

use std::ops::Range;

use super::numbers::Least;
use super::stepping::hold_by_hits;
use super::tally::Tally;
use crate::clusters::{ROWS, cluster, jaccard_cluster};
use crate::random::Random;
use crate::reference::score::Task;

const LEAST: Least = Least { lists: 210, medium: 0, mappings: 13_000 };
const JACCARD_LEAST: Least = Least { lists: 210, medium: 0, mappings: 25_000 };

fn hold(tally: &mut Tally, seeds: Range<u64>, cluster: fn(&mut Random, usize) -> Task) {
    for seed in seeds {
        let mut random = Random::new(seed);
        for h in ROWS {
            let task = cluster(&mut random, h);
            tally.compare(|| format!("seed {seed}, {h} hits"), |met| hold_by_hits(&mut random, &task, h, met));
        }
    }
}

pub fn random(tally: &mut Tally) {
    hold(tally, 360_000..360_030, cluster);
    tally.end_lists("sessions of near copies: 64 to 1,000 hits, several blocks of rows", &LEAST);
    hold(tally, 361_000..361_030, jaccard_cluster);
    tally.end_lists("sessions of near copies under Jaccard: 64 to 1,000 hits, several blocks of rows", &JACCARD_LEAST);
}
