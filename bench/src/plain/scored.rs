//! What passing cells needs of a score, and of the cells of a column under it: both scores are passed by the same functions.

use host::calls::Stepped;

use super::work::Words;

/// What the cells of a column share under one of the scores. A score stands in the work words as one word; 0 is below all scores.
pub trait Scored {
    /// A score as it is held outside of the words.
    type Score: Copy;

    fn new(words: &Words, column: usize) -> Self;

    /// The number of the column.
    fn column(&self) -> u32;

    /// The row from which the column's hit is reasonable as a right end.
    fn back(&self) -> u32;

    fn threshold(&self) -> Self::Score;

    /// The score of the cell with this m and the left end at this index.
    fn score(&self, m: u32, index: u32) -> Self::Score;

    /// What is answered of the score of the cell with this m and the left end at this index, if it reaches the threshold.
    fn enough(&self, m: u32, index: u32) -> Option<i32>;

    /// The answer for a final cell of which this is answered.
    fn found(a: u32, b: u32, score: i32, m: u32, cells: u32) -> Stepped;

    fn of_word(word: u32) -> Self::Score;

    fn word_of(score: Self::Score) -> u32;

    fn is_below(one: Self::Score, other: Self::Score) -> bool;

    /// The greater of a score and of that of a word, the first of equal ones.
    fn or_greater(score: Self::Score, word: u32) -> Self::Score;

    /// Whether a cell of this row, whose left end is reasonable up to this reach, is so at both ends.
    #[inline(always)]
    fn is_reasonable(&self, row: usize, reach: u32) -> bool {
        self.column() < reach && self.back() as usize <= row
    }
}
