//! The linear score of a cell: as a word that orders as the scores do, and as the signed number that decides at a candidate.

use host::calls::Stepped;

use super::scored::Scored;
use super::work::{BACK, BIAS, INDEX, SIZE, THRESHOLD, U, V, Words};

/// The numbers of a session that its cells share.
#[derive(Clone, Copy)]
pub struct Terms {
    pub u: u32,
    pub v: u32,
    pub size: u32,
    /// the threshold with the bias
    pub threshold: u32,
}

/// What the cells of a column share: its number, the index of its hit, what their score words have in common, and the row from which
/// the hit is reasonable as a right end.
#[derive(Clone, Copy)]
pub struct Line {
    pub column: u32,
    pub index: u32,
    pub base: u32,
    pub back: u32,
    pub terms: Terms,
}

impl Line {
    /// What a score grows by with m.
    #[inline(always)]
    pub fn gain(&self) -> u32 {
        self.terms.u + 2 * self.terms.v
    }

    /// m of the cell that has this score word and the left end at this index.
    pub fn shared(&self, word: u32, index: u32) -> u32 {
        word.wrapping_sub(self.base).wrapping_sub(self.terms.v.wrapping_mul(index)) / self.gain()
    }
}

/// A score is its word.
impl Scored for Line {
    type Score = u32;

    #[inline(always)]
    fn new(words: &Words, column: usize) -> Line {
        let terms = Terms { u: words[U], v: words[V], size: words[SIZE], threshold: words[THRESHOLD] };
        let (index, back) = (words[INDEX + column], words[BACK + column]);
        let base = BIAS.wrapping_sub(terms.v.wrapping_mul(index.wrapping_add(1).wrapping_add(terms.size)));
        Line { column: column as u32, index, base, back, terms }
    }

    #[inline(always)]
    fn column(&self) -> u32 {
        self.column
    }

    #[inline(always)]
    fn back(&self) -> u32 {
        self.back
    }

    #[inline(always)]
    fn threshold(&self) -> u32 {
        self.terms.threshold
    }

    /// A score plus the bias: u·m − v·(len + |p| − 2m), with what the column's cells share summed up beforehand.
    #[inline(always)]
    fn score(&self, m: u32, index: u32) -> u32 {
        self.gain().wrapping_mul(m).wrapping_add(self.terms.v.wrapping_mul(index)).wrapping_add(self.base)
    }

    /// The score itself.
    fn enough(&self, m: u32, index: u32) -> Option<i32> {
        let Terms { u, v, size, threshold } = self.terms;
        let [u, v, size, m] = [u, v, size, m].map(|number| number as i32);
        let len = self.index as i32 - index as i32 + 1;
        let score = u * m - v * (len + size - 2 * m);
        Some(score).filter(|&score| score >= threshold.wrapping_sub(BIAS) as i32)
    }

    #[inline(always)]
    fn found(a: u32, b: u32, score: i32, m: u32, cells: u32) -> Stepped {
        Stepped::Found { a, b, score, m, cells }
    }

    #[inline(always)]
    fn of_word(word: u32) -> u32 {
        word
    }

    #[inline(always)]
    fn word_of(score: u32) -> u32 {
        score
    }

    #[inline(always)]
    fn is_below(one: u32, other: u32) -> bool {
        one < other
    }

    #[inline(always)]
    fn or_greater(score: u32, word: u32) -> u32 {
        score.max(word)
    }
}
