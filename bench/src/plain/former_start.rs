//! Start for the former step, which needs one more table.

use host::reference::score::Scoring;

use super::start;
use super::work::{BACK, WORK_WORDS};

/// A table with a word for each hit: m of the hits up to it. It stands where the words of blocks stand now.
pub const WHOLE: usize = 10_240;

/// Answers h, or the refusal number negated.
pub fn start(text: &[u32], pattern: &[u32], scoring: Scoring, work: &mut [u32]) -> i32 {
    let h = start::start(text, pattern, scoring, work);
    if h > 0 {
        let words = work.first_chunk_mut::<WORK_WORDS>().expect("16,384 words");
        let mut m = 0;
        for j in 0..h as usize {
            m += u32::from(words[BACK + j] == 0);
            words[WHOLE + j] = m;
        }
    }
    h
}
