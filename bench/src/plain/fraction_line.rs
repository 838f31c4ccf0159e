//! The score of a cell under the weighted Jaccard: a fraction, which is compared by cross products.

use host::calls::Stepped;

use super::scored::Scored;
use super::work::{BACK, INDEX, SIZE, THRESHOLD, U, V, Words};

/// m and the divisor.
#[derive(Clone, Copy)]
pub struct Fraction {
    m: u32,
    divisor: u32,
}

/// A word has m − 1 in its upper 11 bits, and what is left from its divisor up to 2^21 − 1 in the others.
const DIVISOR_BITS: u32 = 21;
const GREATEST_DIVISOR: u32 = (1 << DIVISOR_BITS) - 1;

/// What the cells of a column share: its number, what the length of an interval that begins at the text's first entry and |p| add up to,
/// the row from which its hit is reasonable as a right end, and the threshold's word and numbers.
#[derive(Clone, Copy)]
pub struct FractionLine {
    column: u32,
    total: u32,
    back: u32,
    threshold: u32,
    f: u32,
    g: u32,
}

impl FractionLine {
    /// len + |p| − m
    #[inline(always)]
    fn divisor(&self, m: u32, index: u32) -> u32 {
        self.total.wrapping_sub(index).wrapping_sub(m)
    }
}

/// The word of a fraction with this m and divisor.
#[inline(always)]
pub fn fraction_word(m: u32, divisor: u32) -> u32 {
    (m.wrapping_sub(1) << DIVISOR_BITS) | (GREATEST_DIVISOR.wrapping_sub(divisor) & GREATEST_DIVISOR)
}

#[inline(always)]
fn product(one: u32, other: u32) -> u64 {
    u64::from(one) * u64::from(other)
}

impl Scored for FractionLine {
    type Score = Fraction;

    #[inline(always)]
    fn new(words: &Words, column: usize) -> FractionLine {
        let total = words[INDEX + column].wrapping_add(1).wrapping_add(words[SIZE]);
        let (column, back) = (column as u32, words[BACK + column]);
        FractionLine { column, total, back, threshold: words[THRESHOLD], f: words[U], g: words[V] }
    }

    #[inline(always)]
    fn column(&self) -> u32 {
        self.column
    }

    #[inline(always)]
    fn back(&self) -> u32 {
        self.back
    }

    #[inline(always)]
    fn threshold(&self) -> Fraction {
        Self::of_word(self.threshold)
    }

    #[inline(always)]
    fn score(&self, m: u32, index: u32) -> Fraction {
        Fraction { m, divisor: self.divisor(m, index) }
    }

    /// The divisor.
    fn enough(&self, m: u32, index: u32) -> Option<i32> {
        let divisor = self.divisor(m, index);
        Some(divisor as i32).filter(|_| product(self.f, divisor) <= product(m, self.g))
    }

    #[inline(always)]
    fn found(a: u32, b: u32, score: i32, m: u32, cells: u32) -> Stepped {
        Stepped::FoundJaccard { a, b, m, divisor: score as u32, cells }
    }

    #[inline(always)]
    fn of_word(word: u32) -> Fraction {
        Fraction { m: (word >> DIVISOR_BITS) + 1, divisor: GREATEST_DIVISOR - (word & GREATEST_DIVISOR) }
    }

    #[inline(always)]
    fn word_of(score: Fraction) -> u32 {
        fraction_word(score.m, score.divisor)
    }

    #[inline(always)]
    fn is_below(one: Fraction, other: Fraction) -> bool {
        product(one.m, other.divisor) < product(other.m, one.divisor)
    }

    /// Most words hold no record, and are not taken apart.
    #[inline(always)]
    fn or_greater(score: Fraction, word: u32) -> Fraction {
        if word == 0 {
            return score;
        }
        let other = Self::of_word(word);
        if Self::is_below(score, other) { other } else { score }
    }
}
