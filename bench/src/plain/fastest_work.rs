//! The work words of the fastest session: single words, the tables of hits and the records are those of docs/WORK_WORDS.md. In place of
//! tops and starts it has words of its own, and m of the next cell is not kept.

use super::start::put_starts;
use super::work::{BLOCK_ROWS, HITS, MAX_HITS, TOPS, WORK_WORDS};

/// The rows of a small block and of a large one.
pub const SMALL: usize = 32;
pub const LARGE: usize = 256;

/// A table with a word for each hit, the lifted score of its row in the column in hand, 0 in the rows behind that column: v·index, and
/// (u + 2v)·(m − m of the small block's first row + 32), which is never negative.
pub const LIFTED: usize = 12_288;

/// Tables with a word for each small block: (u + 2v)·(m of its first row − 32), which turns a lifted score into a score but for what the
/// column's cells share; the greatest lifted score; and the greatest record.
pub const GROUNDS: usize = 14_336;
pub const PEAKS: usize = 14_400;
pub const SMALL_TOPS: usize = 14_464;
/// The greatest record of each large block.
pub const LARGE_TOPS: usize = 14_528;
const OWN_END: usize = LARGE_TOPS + MAX_HITS / LARGE;

/// The words as docs/WORK_WORDS.md has them right after start, given what they held before it.
pub fn shared_after_start(work: &[u32], before: &[u32]) -> Vec<u32> {
    let mut shared = work[..WORK_WORDS].to_vec();
    let h = work[HITS] as usize;
    shared[LIFTED..OWN_END].copy_from_slice(&before[LIFTED..OWN_END]);
    shared[TOPS..TOPS + h.div_ceil(BLOCK_ROWS)].fill(0);
    put_starts(h, &mut shared);
    shared
}
