//! Start with an open-addressing table of the pattern's codes in place of the search, for the fastest step.

use host::reference::score::Scoring;

use super::fastest_column::put_peak;
use super::fastest_work::{GROUNDS, LARGE, LARGE_TOPS, LIFTED, SMALL, SMALL_TOPS};
use super::search::MAX_PATTERN;
use super::start::{Hits, put_heading, refusal};
use super::work::{BACK, BEST, INDEX, MAX_HITS, REACH, Words};

const SLOTS: usize = 1 << 14;

/// A slot: a code and the first of its places, plus 1; 0 is a free slot.
#[derive(Clone, Copy)]
struct Slot {
    code: u32,
    place: u32,
}

fn hash(code: u32) -> usize {
    (code.wrapping_mul(2_654_435_761) >> 18) as usize
}

/// The slot that holds the code, or the free one where it would go.
#[inline(always)]
fn find(table: &[Slot; SLOTS], code: u32) -> usize {
    let mut at = hash(code);
    while table[at].place != 0 && table[at].code != code {
        at = (at + 1) % SLOTS;
    }
    at
}

/// The table of the pattern's codes. The places of a code follow each other, in the order of the slots, and the first of them has how
/// often it occurs.
fn tabled(pattern: &[u32]) -> ([Slot; SLOTS], [u32; MAX_PATTERN]) {
    let mut table = [Slot { code: 0, place: 0 }; SLOTS];
    let mut counts = [0u32; SLOTS];
    for &code in pattern {
        let at = find(&table, code);
        table[at] = Slot { code, place: 1 };
        counts[at] += 1;
    }
    let mut times = [0u32; MAX_PATTERN];
    let mut place = 0;
    for (slot, &count) in table.iter_mut().zip(&counts) {
        if count > 0 {
            slot.place = place + 1;
            times[place as usize] = count;
            place += count;
        }
    }
    (table, times)
}

/// The hits, with the first place of each one's code as its slot.
fn collect(text: &[u32], table: &[Slot; SLOTS]) -> Hits {
    let mut hits = Hits { index: [0; MAX_HITS], slots: [0; MAX_HITS], number: 0 };
    for (index, &code) in text.iter().enumerate() {
        let slot = table[find(table, code)];
        if slot.place != 0 {
            if hits.number < MAX_HITS {
                hits.index[hits.number] = index as u32;
                hits.slots[hits.number] = slot.place - 1;
            }
            hits.number += 1;
        }
    }
    hits
}

/// Writes the tables of these hits in one pass over them. `times` has how often the code at each first place occurs in p.
fn put_tables(hits: &Hits, times: &[u32; MAX_PATTERN], work: &mut Words) {
    let h = hits.number;
    let (mut ring, mut met) = ([0u32; MAX_PATTERN], [0u32; MAX_PATTERN]);
    for j in 0..h {
        let first = hits.slots[j] as usize;
        let slot = &mut ring[first + (met[first] % times[first]) as usize];
        let full = met[first] >= times[first];
        if full {
            work[REACH + *slot as usize] = j as u32;
        }
        work[BACK + j] = if full { *slot + 1 } else { 0 };
        work[REACH + j] = h as u32;
        work[INDEX + j] = hits.index[j];
        work[BEST + j] = 0;
        *slot = j as u32;
        met[first] += 1;
    }
}

/// Writes each row's lifted score in the last column, block by block from the last one up, and returns m of row 0.
fn lift(work: &mut Words, h: usize, gain: u32, v: u32) -> u32 {
    let mut m = 0;
    for block in (0..h.div_ceil(SMALL)).rev() {
        let rows = block * SMALL..h.min((block + 1) * SMALL);
        work[LIFTED + rows.end..LIFTED + (block + 1) * SMALL].fill(0);
        let behind = m;
        for i in rows.clone().rev() {
            m += u32::from(work[REACH + i] == h as u32);
            work[LIFTED + i] = gain * (m - behind) + v * work[INDEX + i];
        }
        let rise = gain * (SMALL as u32 + behind - m);
        for lifted in &mut work[LIFTED + rows.start..LIFTED + rows.end] {
            *lifted += rise;
        }
        work[GROUNDS + block] = (gain * m).wrapping_sub(gain * SMALL as u32);
        put_peak(work, block);
    }
    m
}

/// Answers h, or the refusal number negated. Panics where the score is not linear.
pub fn start(text: &[u32], pattern: &[u32], scoring: Scoring, work: &mut [u32]) -> i32 {
    let Scoring::Linear { u, v, .. } = scoring else { panic!("the fastest session scores linearly") };
    let number = refusal(text, pattern, scoring, work);
    if number != 0 {
        return -number;
    }
    let (table, times) = tabled(pattern);
    let hits = collect(text, &table);
    if hits.number > MAX_HITS {
        return -11;
    }
    let (h, work) = (hits.number, work.first_chunk_mut().expect("16,384 words"));
    put_tables(&hits, &times, work);
    let shared = lift(work, h, u + 2 * v, v);
    work[SMALL_TOPS..SMALL_TOPS + h.div_ceil(SMALL)].fill(0);
    work[LARGE_TOPS..LARGE_TOPS + h.div_ceil(LARGE)].fill(0);
    put_heading(work, h, scoring, pattern.len(), shared);
    h as i32
}
