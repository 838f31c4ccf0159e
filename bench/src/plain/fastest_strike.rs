//! Both strikes by the fastest ways known to us, of which one is chosen by a look at the words:
//! - A text in order has each frequent word c places before itself, and many places are compared at a time.
//! - Where the first words of a text hardly repeat, all are counted in few slots, which mostly shows that no word is frequent.
//! - Else an open-addressing table counts them; a table of the read's words, in which the text is counted, is no faster.

use super::counts::Counts;
use super::kept::Kept;
use super::strike::refusal;

/// How many places of a text in order are compared at a time.
const PLACES: usize = 64;

/// How many words are looked at to tell whether words repeat.
const FIRST: usize = 4_096;

/// So few slots that they stay in the nearest cache.
const SLOTS: usize = 1 << 14;

/// The words that occur more than c times among these, which are in order, each once.
fn frequent(sorted: &[u32], c: usize) -> Vec<u32> {
    let mut list: Vec<u32> = Vec::new();
    let late = sorted.get(c..).unwrap_or(&[]);
    for (late, early) in late.chunks(PLACES).zip(sorted.chunks(PLACES)) {
        let known = list.last().copied();
        let equal = late.iter().zip(early).fold(false, |any, (word, before)| any | (word == before));
        let other = known.is_none_or(|known| late.iter().fold(false, |any, &word| any | (word != known)));
        if equal && other {
            for (word, _) in late.iter().zip(early).filter(|(word, before)| word == before) {
                if list.last() != Some(word) {
                    list.push(*word);
                }
            }
        }
    }
    list
}

fn by_order(text: &[u32], c: u32, mut read: Kept) -> i32 {
    match frequent(text, c as usize).as_slice() {
        [] => read.all(),
        &[one] => read.those(|word| word != one),
        list => by_list(list, read),
    }
}

/// The entries stay that have no word of the list.
#[inline(never)]
fn by_list(list: &[u32], mut read: Kept) -> i32 {
    let mut listed = Counts::<{ 1 << 16 }>::none();
    for &word in list {
        listed.meet(word);
    }
    read.those(|word| listed.times(word) == 0)
}

#[inline(always)]
fn slot(word: u32) -> usize {
    (word.wrapping_mul(2_246_822_519) >> (32 - SLOTS.trailing_zeros())) as usize
}

/// Whether the words are seen to occur at most c times each: where they hardly repeat, and no slot holds more than c of them.
#[inline(never)]
fn all_rare(text: &[u32], c: u32) -> bool {
    let mut slots = [0u16; SLOTS];
    let (first, rest) = text.split_at(text.len().min(FIRST));
    let mut new = 0;
    for &word in first {
        let count = &mut slots[slot(word)];
        new += usize::from(*count == 0);
        *count += 1;
    }
    if new < first.len() / 4 * 3 {
        return false;
    }
    for &word in rest {
        slots[slot(word)] += 1;
    }
    u32::from(slots.into_iter().max().unwrap_or(0)) <= c
}

/// The words of the text are counted in a table. None where they are too many for one of so many slots.
#[inline(never)]
fn by_text<const SLOTS: usize>(text: &[u32], c: u32, read: &mut Kept) -> Option<i32> {
    let mut counts = Counts::<SLOTS>::none();
    let mut new = 0;
    for &word in text {
        new += usize::from(counts.meet(word));
        if new > SLOTS / 2 {
            return None;
        }
    }
    Some(read.those(|word| counts.times(word) <= c))
}

/// Writes the entries of the read that stay and returns their number, or the refusal number negated.
pub fn strike_read(
    text: &[u32],
    codes: &[u32],
    positions: &[u32],
    c: u32,
    out_codes: &mut [u32],
    out_positions: &mut [u32],
) -> i32 {
    let number = refusal(text, codes, positions, c);
    if number != 0 {
        return -number;
    }
    let mut read = Kept { codes, positions, out_codes, out_positions };
    if text.is_sorted() {
        return by_order(text, c, read);
    }
    if all_rare(text, c) {
        return read.all();
    }
    let few = by_text::<{ 1 << 15 }>(text, c, &mut read);
    few.or_else(|| by_text::<{ 1 << 17 }>(text, c, &mut read)).expect("at most 65,535 words")
}

/// The same of a text, which decides on its own entries.
pub fn strike(codes: &[u32], positions: &[u32], c: u32, out_codes: &mut [u32], out_positions: &mut [u32]) -> i32 {
    strike_read(codes, codes, positions, c, out_codes, out_positions)
}
