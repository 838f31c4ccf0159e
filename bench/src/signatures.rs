//! The shapes that plain and proved functions share, so that one job runs both.

use host::calls::Stepped;
use host::reference::score::Scoring;

/// A read, and an output; the number of bytes, or the refusal number negated.
pub type Complement = fn(&[u8], &mut [u8]) -> i32;

/// Letters, k and w; the number of entries, or the refusal number negated.
pub type Count = fn(&[u8], u32, u32) -> i32;

/// Letters, k, w, codes and positions; the number of entries, or the refusal number negated.
pub type Sketch = fn(&[u8], u32, u32, &mut [u32], &mut [u32]) -> i32;

/// Codes, positions, c, and codes and positions that stay; their number, or the refusal number negated.
pub type Strike = fn(&[u32], &[u32], u32, &mut [u32], &mut [u32]) -> i32;

/// Codes of the text, codes and positions of the read, c, and codes and positions that stay; their number, or the refusal number negated.
pub type StrikeRead = fn(&[u32], &[u32], &[u32], u32, &mut [u32], &mut [u32]) -> i32;

/// Codes of the text and of the pattern, how to score, and work words; h, or the refusal number negated.
pub type Start = fn(&[u32], &[u32], Scoring, &mut [u32]) -> i32;

/// Work words behind start and those before it; the words as docs/WORK_WORDS.md lays them out.
pub type Shared = fn(&[u32], &[u32]) -> Vec<u32>;

/// Work words and budget.
pub type Step = fn(&mut [u32], u32) -> Stepped;
