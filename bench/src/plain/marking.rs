//! Marking of rare words by the algorithm of the proved strikes: the words that occur too often are listed, in order, and each word is
//! looked up among them.
//! Assumes that at most 65,535 words decide.

use super::radix::sort_through;
use super::search::lower_bound;
use super::slots::{SLOTS, slot, suspects};

pub const MAX_TEXT: usize = 65_535;

/// Lists the words that occur more than `limit` times among words in order, each once: such a word stands `limit` places before itself.
fn list_runs(sorted: &[u32], limit: u32, list: &mut [u32]) -> usize {
    let mut n = 0;
    for (&word, &before) in sorted.iter().skip(limit as usize).zip(sorted) {
        if word == before && (n == 0 || list[n - 1] != word) {
            list[n] = word;
            n += 1;
        }
    }
    n
}

/// The same of any words. Those that come in order, as equal ones do, need neither filter nor sort.
fn list_frequent(words: &[u32], limit: u32, list: &mut [u32; MAX_TEXT]) -> usize {
    if words.is_sorted() {
        return list_runs(words, limit, list);
    }
    let n = suspects(words, limit, list);
    let mut sorted = [0; MAX_TEXT];
    sort_through(&mut list[..n], &mut sorted[..n]);
    list_runs(&sorted[..n], limit, list)
}

/// 0 for a word of the list, else 1. `heads` has for each slot the place, from 1, of one of its words in the list, and 0 where it has none.
#[inline(always)]
fn mark(list: &[u32], heads: &[u16; SLOTS], word: u32) -> u8 {
    let head = usize::from(heads[slot(word)]);
    if head == 0 {
        return 1;
    }
    if list[head - 1] == word {
        return 0;
    }
    u8::from(list.get(lower_bound(list, word)) != Some(&word))
}

/// Marks each word by 1 where it occurs at most `limit` times among those that decide, else by 0.
pub fn mark_rare(deciding: &[u32], words: &[u32], limit: u32, marks: &mut [u8]) {
    let mut list = [0; MAX_TEXT];
    let n = list_frequent(deciding, limit, &mut list);
    if n == 0 {
        marks.fill(1);
        return;
    }
    let list = &list[..n];
    let mut heads = [0; SLOTS];
    for (at, &word) in list.iter().enumerate() {
        heads[slot(word)] = at as u16 + 1;
    }
    for (mark_of, &word) in marks.iter_mut().zip(words) {
        *mark_of = mark(list, &heads, word);
    }
}
