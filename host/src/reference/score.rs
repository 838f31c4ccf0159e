//! The two scores of an interval of the struck text: ESKEMAP's with whole weights, and the weighted Jaccard.

use std::cmp::Ordering;
use std::collections::BTreeSet;

/// How a session scores, and the threshold: linear with the weights u and v, or the weighted Jaccard with the threshold f/g.
#[derive(Clone, Copy, Debug, PartialEq, Eq)]
pub enum Scoring {
    Linear { u: u32, v: u32, threshold: i32 },
    Jaccard { f: u32, g: u32 },
}

/// A score. A fraction has the numbers that it comes with: 1/2 and 2/4 are equal scores, and not the same.
#[derive(Clone, Copy, Debug, PartialEq, Eq)]
pub enum Score {
    Number(i64),
    Fraction { m: u32, divisor: u32 },
}

impl Score {
    /// "Scores are compared by cross products, with no rounding." Both are of one session.
    pub fn compare(self, other: Score) -> Ordering {
        let product = |one: u32, other: u32| u64::from(one) * u64::from(other);
        match (self, other) {
            (Score::Number(one), Score::Number(other)) => one.cmp(&other),
            (Score::Fraction { m, divisor }, Score::Fraction { m: other_m, divisor: other_divisor }) => {
                product(m, other_divisor).cmp(&product(other_m, divisor))
            }
            _ => panic!("scores of two kinds: {self:?} and {other:?}"),
        }
    }

    /// The number of a linear score. Panics where it is a fraction.
    pub fn number(self) -> i64 {
        match self {
            Score::Number(number) => number,
            Score::Fraction { .. } => panic!("a linear score, and not {self:?}"),
        }
    }

    pub fn is_below(self, other: Score) -> bool {
        self.compare(other) == Ordering::Less
    }

    /// The greater of two scores, the first of equal ones.
    pub fn or_greater(self, other: Score) -> Score {
        if self.is_below(other) { other } else { self }
    }
}

impl Scoring {
    /// The least score that is enough.
    pub fn threshold(self) -> Score {
        match self {
            Scoring::Linear { threshold, .. } => Score::Number(i64::from(threshold)),
            Scoring::Jaccard { f, g } => Score::Fraction { m: f, divisor: g },
        }
    }

    /// A score that is at most every other.
    pub fn lowest(self) -> Score {
        match self {
            Scoring::Linear { .. } => Score::Number(i64::MIN),
            Scoring::Jaccard { .. } => Score::Fraction { m: 0, divisor: 1 },
        }
    }

    /// The same with a threshold that every score reaches.
    pub fn open(self) -> Scoring {
        match self {
            Scoring::Linear { u, v, .. } => Scoring::Linear { u, v, threshold: i32::MIN },
            Scoring::Jaccard { .. } => Scoring::Jaccard { f: 0, g: 1 },
        }
    }
}

/// What a session maps: the codes of the struck text t and of the pattern p, and how it scores.
#[derive(Clone, Debug)]
pub struct Task {
    pub text: Vec<u32>,
    pub pattern: Vec<u32>,
    pub scoring: Scoring,
}

/// How often the code occurs among these.
pub fn times(code: u32, codes: &[u32]) -> usize {
    codes.iter().filter(|&&other| other == code).count()
}

/// "m is the sum over all codes of the smaller of its counts in p and in [a, b]". A code that p lacks adds nothing.
pub fn shared(pattern: &[u32], interval: &[u32]) -> usize {
    let codes: BTreeSet<u32> = pattern.iter().copied().collect();
    codes.into_iter().map(|code| times(code, pattern).min(times(code, interval))).sum()
}

/// "d = len + |p| − 2m. The score is u·m − v·d"
fn linear(u: u32, v: u32, size: usize, m: usize, len: usize) -> i64 {
    let d = len as i64 + size as i64 - 2 * m as i64;
    i64::from(u) * m as i64 - i64::from(v) * d
}

/// "the weighted Jaccard of source document 003, m / (len + |p| − m)"
fn jaccard(size: usize, m: usize, len: usize) -> Score {
    Score::Fraction { m: m as u32, divisor: (len + size - m) as u32 }
}

/// The score of an interval with this m and len, given |p|.
pub fn score(scoring: Scoring, size: usize, m: usize, len: usize) -> Score {
    match scoring {
        Scoring::Linear { u, v, .. } => Score::Number(linear(u, v, size, m, len)),
        Scoring::Jaccard { .. } => jaccard(size, m, len),
    }
}

/// The score of an interval of this task's text.
pub fn score_of(task: &Task, m: usize, len: usize) -> Score {
    score(task.scoring, task.pattern.len(), m, len)
}
