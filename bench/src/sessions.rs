//! The sessions of the speed tables, made from fixed seeds: hits that stand at random, clusters of near copies of one gene, and hits of one
//! code, that give all cells one score or scores that rise or fall.

use host::random::Random;
use host::reference::score::Scoring;

use crate::jobs::spread;
use crate::runs::{U, V};

pub const PATTERN: usize = 4_096;
pub const HITS: usize = 2_048;

/// The codes of a text and of a pattern, and how they are scored.
#[derive(Clone)]
pub struct Session {
    pub text: Vec<u32>,
    pub pattern: Vec<u32>,
    pub scoring: Scoring,
}

impl Session {
    /// The same with the threshold at a third of the perfect score, u·|p|. Panics where the score is not linear.
    pub fn with_third(self) -> Session {
        let Scoring::Linear { u, v, .. } = self.scoring else { panic!("a linear score") };
        let threshold = (u as usize * self.pattern.len() / 3) as i32;
        Session { scoring: Scoring::Linear { u, v, threshold }, ..self }
    }

    /// The same codes under Jaccard, with the threshold f/g.
    pub fn under_jaccard(&self, f: u32, g: u32) -> Session {
        Session { scoring: Scoring::Jaccard { f, g }, ..self.clone() }
    }
}

/// The weights 1 and 1, with the threshold 0.
const ONES: Scoring = Scoring::Linear { u: 1, v: 1, threshold: 0 };

/// A code that no pattern has.
fn foreign(random: &mut Random) -> u32 {
    spread(1_000_000 + random.below(1 << 28))
}

/// Codes of a text and of a pattern with exactly so many hits at random. Codes of hits are few enough to repeat in both.
pub fn random_hits(entries: usize, size: usize, hits: usize, threshold: i32) -> Session {
    let mut random = Random::new(3);
    let kinds = (hits * 3 / 4).min(size);
    let pattern: Vec<u32> = (0..size)
        .map(|n| if n < kinds { spread(n) } else { spread(if random.once_in(4) { random.below(kinds) } else { 100_000 + n }) })
        .collect();
    let mut text: Vec<u32> = (0..entries).map(|_| foreign(&mut random)).collect();
    let mut placed = 0;
    let mut is_hit = vec![false; entries];
    while placed < hits {
        let at = random.below(entries);
        if !is_hit[at] {
            is_hit[at] = true;
            text[at] = spread(random.below(kinds));
            placed += 1;
        }
    }
    Session { text, pattern, scoring: Scoring::Linear { u: U, v: V, threshold } }
}

/// Near copies of a gene with repeats, as entries: so many copies that each keep so many of a hundred entries, and between them gaps
/// about as long in which one entry in 50 is a stray hit. The text ends with its 2,048th hit. Weights are 1, and the threshold is a third
/// of the perfect score.
pub fn cluster(copies: usize, kept: usize) -> Session {
    let mut random = Random::new(5);
    // a little less than fills the text: stray hits make up the rest
    let size = HITS * 100 / (copies * (kept + 4));
    let pattern: Vec<u32> = (0..size).map(|n| spread(if random.once_in(10) { random.below(n + 1) } else { n })).collect();
    let mut text = Vec::new();
    for _ in 0..copies {
        for _ in 0..random.between(size / 2, size * 3 / 2) {
            text.push(if random.once_in(50) { random.one_of(&pattern) } else { foreign(&mut random) });
        }
        text.extend(pattern.iter().map(|&code| if random.below(100) < kept { code } else { foreign(&mut random) }));
    }
    for _ in 0..HITS {
        text.push(random.one_of(&pattern));
        text.extend((0..20).map(|_| foreign(&mut random)));
    }
    let last =
        (0..text.len()).filter(|&at| pattern.contains(&text[at])).nth(HITS - 1).expect("a stray hit for each that is missing");
    text.truncate(last + 1);
    Session { text, pattern, scoring: ONES }.with_third()
}

/// The score of every cell of a flat session with so many hits.
pub fn flat_score(hits: usize) -> i32 {
    2 - hits as i32
}

/// So many hits of one code, which the pattern has as often, at every third entry: a cell gains by each hit what it loses by the two
/// entries behind it, and both ends are always reasonable. Weights are 1.
pub fn flat(hits: usize, threshold: i32) -> Session {
    let text = (0..hits * 3 - 2).map(|at| if at % 3 == 0 { spread(0) } else { spread(1) }).collect();
    Session { text, pattern: vec![spread(0); hits], scoring: Scoring::Linear { u: 1, v: 1, threshold } }
}

/// The threshold under Jaccard that no cell of a rising session reaches, though nearly every block of rows could.
pub const ABOVE_RISING: (u32, u32) = (4, 125);

/// So many hits of one code, which the pattern has as often, at every 32nd entry: under Jaccard a cell of n hits scores n / (31·n + c) with
/// c at least 0, less than 4/125 with up to 2,048 hits, and all ends are reasonable. The first row of a block of 64 with the length of the
/// last scores more than that.
pub fn rising(hits: usize) -> Session {
    let text = (0..hits * 32 - 31).map(|at| if at % 32 == 0 { spread(0) } else { spread(1) }).collect();
    Session { text, pattern: vec![spread(0); hits], scoring: ONES }
}

/// So many hits of one code, which the pattern has once, side by side: every cell's score is greater than all before it in rows up to its
/// own, and its ends are reasonable only where they are one.
pub fn all_records(hits: usize) -> Session {
    Session { text: vec![spread(0); hits], pattern: vec![spread(0)], scoring: ONES }
}
