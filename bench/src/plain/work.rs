//! The work words as docs/WORK_WORDS.md lays them out: which word holds what.

pub const WORK_WORDS: usize = 16_384;
pub const MAX_HITS: usize = 2_048;

pub const HITS: usize = 0;
/// u and v, or f and g, by the kind of score: 0 for linear, 1 for Jaccard.
pub const U: usize = 1;
pub const V: usize = 2;
pub const PASSED: usize = 3;
pub const KIND: usize = 4;
/// |p|, and the threshold's score word.
pub const SIZE: usize = 5;
pub const THRESHOLD: usize = 6;
/// The columns left, the row and the m of the next cell, and the greatest score word of the rows before it.
pub const COLUMNS: usize = 7;
pub const ROW: usize = 8;
pub const SHARED: usize = 9;
pub const HIGHEST: usize = 10;

/// Tables with a word for each hit.
pub const BACK: usize = 2_048;
pub const INDEX: usize = 4_096;
pub const REACH: usize = 6_144;
pub const BEST: usize = 8_192;

/// The rows of a column come in blocks of so many.
pub const BLOCK_ROWS: usize = 64;
pub const MAX_BLOCKS: usize = MAX_HITS / BLOCK_ROWS;

/// Tables with a word for each block, and one word more in the second.
pub const TOPS: usize = 10_240;
pub const STARTS: usize = 10_272;

/// Linear scores are kept with this bias, so that unsigned numbers are in their order.
pub const BIAS: u32 = 1 << 31;

/// The words of a session.
pub type Words = [u32; WORK_WORDS];

/// A word for each hit.
pub type Table = [u32; MAX_HITS];

/// The tables that a column's update is lent.
pub struct Part<'a> {
    pub index: &'a Table,
    pub reach: &'a Table,
    pub best: &'a mut Table,
    pub tops: &'a mut [u32; MAX_BLOCKS],
    pub starts: &'a [u32; MAX_BLOCKS + 1],
}

pub fn part(words: &mut Words) -> Part<'_> {
    let (index, behind) = words[INDEX..].split_first_chunk_mut().expect("a table");
    let (reach, behind) = behind.split_first_chunk_mut().expect("a table");
    let (best, behind) = behind.split_first_chunk_mut().expect("a table");
    let (tops, behind) = behind.split_first_chunk_mut().expect("a table");
    Part { index, reach, best, tops, starts: behind.first_chunk().expect("a table") }
}
