//! Sketch and count by the fastest plain Rust known to us: values, codes and ranks of many letters at a time, and then by w what was
//! fastest of several.

use super::chunks::{Chunks, ROOM, Windows};
use super::events::Events;
use super::keys::{code_of, last_of};
use super::parts::pass;
use super::refusal::refusal;
use super::singles::{Counted, Written};

/// A sketch goes by events from this w on: below it lowest k-mers change so often that a branch for each costs more than the chunks'
/// passes.
const EVENTS_FROM: usize = 20;

/// Room for the new picks of a chunk, a power of two, so that an index is kept within it for little.
const PICKS: usize = ROOM.next_power_of_two();

/// How many picks are new: where the last rank of a window is its least, or where the least one is above that of the window before,
/// whose pick has left. It needs no positions.
fn new_picks(windows: Windows<f32>) -> usize {
    let Windows { lasts, lows } = windows;
    let mut number = 0;
    for ((low, last), before) in lows[1..].iter().zip(lasts).zip(lows) {
        number += u32::from((last == low) | (low > before));
    }
    number as usize
}

/// Gathers the keys of the picks that are new, each of which differs from the one before; returns how many. They go as words, since
/// the machine compares these sooner than floats.
fn gather(lows: &[f64], picks: &mut [u64; PICKS]) -> usize {
    let (mut number, mut before) = (0, lows[0].to_bits());
    for &low in &lows[1..] {
        let key = low.to_bits();
        picks[number % PICKS] = key;
        number += usize::from(key != before);
        before = key;
    }
    number
}

/// The number of entries of letters that are not refused.
fn counted(letters: &[u8], k: usize, w: usize) -> usize {
    if w == 1 {
        let mut kmers = Counted::default();
        pass(letters, k, &mut kmers);
        return kmers.number;
    }
    let mut number = 0;
    pass(letters, k, &mut Chunks::new(k, w, |windows| number += new_picks(windows)));
    number
}

/// Writes the entries by chunks, for which there is room; returns their number.
fn write_chunks(letters: &[u8], k: usize, w: usize, codes: &mut [u32], positions: &mut [u32]) -> usize {
    let mut picks = [0; PICKS];
    let mut number = 0;
    let take = |windows: Windows<f64>| {
        let end = number + gather(windows.lows, &mut picks);
        for ((&key, code), position) in picks.iter().zip(&mut codes[number..end]).zip(&mut positions[number..end]) {
            *code = code_of(f64::from_bits(key));
            *position = last_of(f64::from_bits(key)) + 1 - k as u32;
        }
        number = end;
    };
    pass(letters, k, &mut Chunks::new(k, w, take));
    number
}

/// Writes the entries by events, for which there is room; returns their number.
fn write_events(letters: &[u8], k: usize, w: usize, codes: &mut [u32], positions: &mut [u32]) -> usize {
    let mut number = 0;
    let take = |code, position| {
        codes[number] = code;
        positions[number] = position as u32;
        number += 1;
    };
    pass(letters, k, &mut Events::new(k, w, take));
    number
}

/// The number of entries, or the refusal number negated.
pub fn count(letters: &[u8], k: u32, w: u32) -> i32 {
    match refusal(letters, k, w) {
        0 => counted(letters, k as usize, w as usize) as i32,
        number => -number,
    }
}

/// Writes the entries and returns their number, or the refusal number negated.
pub fn sketch(letters: &[u8], k: u32, w: u32, codes: &mut [u32], positions: &mut [u32]) -> i32 {
    let number = refusal(letters, k, w);
    if number != 0 {
        return -number;
    }
    let (k, w) = (k as usize, w as usize);
    let room = codes.len().min(positions.len());
    if room < letters.len() && room < counted(letters, k, w) {
        return -4;
    }
    let number = match w {
        1 => {
            let mut kmers = Written::new(k, codes, positions);
            pass(letters, k, &mut kmers);
            kmers.number
        }
        2..EVENTS_FROM => write_chunks(letters, k, w, codes, positions),
        _ => write_events(letters, k, w, codes, positions),
    };
    number as i32
}
