//! Start by the algorithm of the proved function: a sorted copy of p, a search for each text entry, and one pass over the hits in
//! which the places of a code in the sorted copy are the ring of its last hits.

use host::reference::score::Scoring;

use super::fraction_line::fraction_word;
use super::radix::{sort_keys, word_of};
use super::search::{MAX_PATTERN, lower_bound};
use super::work::{
    BACK, BEST, BIAS, BLOCK_ROWS, COLUMNS, HIGHEST, HITS, INDEX, KIND, MAX_HITS, PASSED, REACH, ROW, SHARED, SIZE, STARTS,
    THRESHOLD, TOPS, U, V, WORK_WORDS,
};

/// The hits, as many as there is room for: their indices in t, and the slot of each, the first place of its code in the sorted copy.
pub struct Hits {
    pub index: [u32; MAX_HITS],
    pub slots: [u32; MAX_HITS],
    pub number: usize,
}

/// What a scoring puts into words: its two numbers, its kind, and the threshold's word.
struct Heading {
    first: u32,
    second: u32,
    kind: u32,
    threshold: u32,
}

fn heading(scoring: Scoring) -> Heading {
    match scoring {
        Scoring::Linear { u, v, threshold } => {
            Heading { first: u, second: v, kind: 0, threshold: (threshold as u32).wrapping_add(BIAS) }
        }
        Scoring::Jaccard { f, g } => {
            Heading { first: f, second: g, kind: 1, threshold: if f == 0 { 0 } else { fraction_word(f, g) } }
        }
    }
}

/// Whether two numbers are refused under a score of this kind.
pub fn refused_numbers(kind: u32, first: u32, second: u32) -> bool {
    match kind {
        0 => !(1..=1_000).contains(&first) || !(1..=1_000).contains(&second),
        1 => !(1..=1_000).contains(&second) || first > second,
        _ => true,
    }
}

/// The number that refuses these arguments before the hits are known, or 0.
pub fn refusal(text: &[u32], pattern: &[u32], scoring: Scoring, work: &[u32]) -> i32 {
    let Heading { first, second, kind, .. } = heading(scoring);
    if refused_numbers(kind, first, second) {
        return if kind == 0 { 7 } else { 17 };
    }
    if text.len() > 65_535 {
        return 8;
    }
    if pattern.is_empty() || pattern.len() > MAX_PATTERN {
        return 9;
    }
    if work.len() < WORK_WORDS {
        return 10;
    }
    0
}

fn sort_words(words: &[u32], sorted: &mut [u32]) {
    let (mut keys, mut by_word) = ([0; MAX_PATTERN], [0; MAX_PATTERN]);
    let (keys, by_word) = (&mut keys[..words.len()], &mut by_word[..words.len()]);
    sort_keys(words, keys, by_word);
    for (word, &key) in sorted.iter_mut().zip(by_word.iter()) {
        *word = word_of(key);
    }
}

/// All hits are counted. An entry that is no hit is noted too, where the next hit then goes.
fn collect(text: &[u32], sorted: &[u32]) -> Hits {
    let mut hits = Hits { index: [0; MAX_HITS], slots: [0; MAX_HITS], number: 0 };
    for (index, &code) in text.iter().enumerate() {
        let slot = lower_bound(sorted, code);
        if hits.number < MAX_HITS {
            hits.index[hits.number] = index as u32;
            hits.slots[hits.number] = slot as u32;
        }
        hits.number += usize::from(sorted.get(slot) == Some(&code));
    }
    hits
}

/// Back of each hit. The slots of a code, as many as it occurs in p, are a ring of the last hits with that code, each by its number + 1.
fn backs(sorted: &[u32], slots: &[u32]) -> [u32; MAX_HITS] {
    let (mut turns, mut ring) = ([0; MAX_PATTERN], [0; MAX_PATTERN]);
    let mut backs = [0; MAX_HITS];
    for (j, &slot) in slots.iter().enumerate() {
        let slot = slot as usize;
        let place = slot + turns[slot] as usize;
        backs[j] = std::mem::replace(&mut ring[place], j as u32 + 1);
        turns[slot] = if sorted.get(place + 1) == Some(&sorted[slot]) { turns[slot] + 1 } else { 0 };
    }
    backs
}

/// Writes the tables of these hits.
fn put_tables(index: &[u32], backs: &[u32], work: &mut [u32]) {
    let h = index.len();
    work[BACK..BACK + h].copy_from_slice(backs);
    work[INDEX..INDEX + h].copy_from_slice(index);
    let reach = &mut work[REACH..REACH + h];
    reach.fill(h as u32);
    for (j, &back) in backs.iter().enumerate() {
        if back > 0 {
            reach[back as usize - 1] = j as u32;
        }
    }
    work[BEST..BEST + h].fill(0);
    work[TOPS..TOPS + h.div_ceil(BLOCK_ROWS)].fill(0);
}

/// Writes m at the first row of each block in the last column, and returns that of row 0. From the last row up, m grows by one with
/// each that is reasonable as a left end there.
pub fn put_starts(h: usize, work: &mut [u32]) -> u32 {
    work[STARTS + h.div_ceil(BLOCK_ROWS)] = 0;
    let mut m = 0;
    for row in (0..h).rev() {
        m += u32::from(work[REACH + row] == h as u32);
        work[STARTS + row / BLOCK_ROWS] = m;
    }
    m
}

/// Writes the single words of a fresh session.
pub fn put_heading(work: &mut [u32], h: usize, scoring: Scoring, size: usize, shared: u32) {
    let Heading { first, second, kind, threshold } = heading(scoring);
    work[HITS] = h as u32;
    work[U] = first;
    work[V] = second;
    work[PASSED] = 0;
    work[KIND] = kind;
    work[SIZE] = size as u32;
    work[THRESHOLD] = threshold;
    work[COLUMNS] = h as u32;
    work[ROW] = 0;
    work[SHARED] = shared;
    work[HIGHEST] = threshold;
}

/// Answers h, or the refusal number negated.
pub fn start(text: &[u32], pattern: &[u32], scoring: Scoring, work: &mut [u32]) -> i32 {
    let number = refusal(text, pattern, scoring, work);
    if number != 0 {
        return -number;
    }
    let mut sorted = [0; MAX_PATTERN];
    let sorted = &mut sorted[..pattern.len()];
    sort_words(pattern, sorted);
    let hits = collect(text, sorted);
    let h = hits.number;
    if h > MAX_HITS {
        return -11;
    }
    let backs = backs(sorted, &hits.slots[..h]);
    put_tables(&hits.index[..h], &backs[..h], work);
    let shared = put_starts(h, work);
    put_heading(work, h, scoring, pattern.len(), shared);
    h as i32
}
