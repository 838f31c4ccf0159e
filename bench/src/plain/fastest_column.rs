//! Passing the cells of one column with the score of each row carried from column to column, so that the greatest score of a block is
//! known: a small block is passed cell by cell only where one of its scores reaches what has been seen.
//! Where a column is left, m falls by one from its hit's back on. That changes the scores of blocks as a whole, but for the block in
//! which back stands.

use super::column::{At, Passed};
use super::fastest_work::{GROUNDS, LARGE, LARGE_TOPS, LIFTED, PEAKS, SMALL, SMALL_TOPS};
use super::line::Line;
use super::scored::Scored;
use super::work::{BACK, BEST, INDEX, MAX_HITS, REACH, Words};

/// Where the block of this row ends, if it has so many rows: there, or with the column.
#[inline(always)]
fn block_end(line: &Line, row: usize, rows: usize) -> usize {
    ((row / rows + 1) * rows).min(line.column as usize + 1)
}

/// Behind the block of this place, if that ends at row `to` at the latest and none of its scores reaches what has been seen. A large block
/// is judged at its first row alone, and by m of that row with the length of the last.
#[inline(always)]
fn skipped(words: &Words, line: &Line, at: At, to: usize) -> Option<At> {
    let ground = line.base.wrapping_add(words[GROUNDS + at.row / SMALL]);
    let behind = |row, top| Some(At { row, highest: at.highest.max(top), ..at });
    let end = block_end(line, at.row, LARGE);
    if at.row.is_multiple_of(LARGE) && end <= to {
        let most = line.gain().wrapping_mul(SMALL as u32).wrapping_add(line.terms.v.wrapping_mul(words[INDEX + end - 1]));
        if ground.wrapping_add(most) < at.highest {
            return behind(end, words[LARGE_TOPS + at.row / LARGE]);
        }
    }
    let end = block_end(line, at.row, SMALL);
    if end <= to && ground.wrapping_add(words[PEAKS + at.row / SMALL]) < at.highest {
        return behind(end, words[SMALL_TOPS + at.row / SMALL]);
    }
    None
}

#[inline(always)]
fn record(words: &mut Words, row: usize, word: u32) {
    words[BEST + row] = word;
    for top in [SMALL_TOPS + row / SMALL, LARGE_TOPS + row / LARGE] {
        words[top] = words[top].max(word);
    }
}

/// Passes the cells up to row `to`, which are of one small block, or up to the first final one.
#[inline(always)]
fn pass_rows(words: &mut Words, line: &Line, from: At, to: usize) -> Passed {
    let At { mut row, m, mut highest } = from;
    let ground = line.base.wrapping_add(words[GROUNDS + row / SMALL]);
    while row < to {
        let word = ground.wrapping_add(words[LIFTED + row]);
        highest = highest.max(words[BEST + row]);
        row += 1;
        if word < highest {
            continue;
        }
        if word > highest {
            highest = word;
            record(words, row - 1, word);
        }
        if line.is_reasonable(row - 1, words[REACH + row - 1]) {
            let index = words[INDEX + row - 1];
            let cell_m = line.shared(word, index);
            return Passed { at: At { row, m: cell_m.wrapping_sub(1), highest }, found: line.enough(cell_m, index) };
        }
    }
    Passed { at: At { row, m, highest }, found: None }
}

/// Passes the cells up to row `to`, or up to the first final one. m is right behind a final cell alone.
#[inline(always)]
pub fn pass(words: &mut Words, line: &Line, from: At, to: usize) -> Passed {
    assert!(to <= MAX_HITS && to <= line.column as usize + 1, "rows of the column");
    let mut at = from;
    while at.row < to {
        if let Some(behind) = skipped(words, line, at, to) {
            at = behind;
            continue;
        }
        let passed = pass_rows(words, line, at, block_end(line, at.row, SMALL).min(to));
        if passed.found.is_some() {
            return passed;
        }
        at = passed.at;
    }
    Passed { at, found: None }
}

/// Notes the greatest lifted score of a small block anew.
#[inline(always)]
pub fn put_peak(words: &mut Words, block: usize) {
    let rows: &[u32; SMALL] = words[LIFTED + block * SMALL..].first_chunk().expect("a block");
    // signed, since the machine compares many of these at a time
    words[PEAKS + block] = rows.iter().fold(0, |peak: i32, &lifted| peak.max(lifted as i32)) as u32;
}

/// Leaves a column. `gain` is what a score falls by where m does.
#[inline(always)]
pub fn leave(words: &mut Words, column: usize, gain: u32) {
    let back = words[BACK + column] as usize;
    let (first, last) = (back.div_ceil(SMALL), column / SMALL);
    if !back.is_multiple_of(SMALL) {
        for lifted in &mut words[LIFTED + back..LIFTED + column.min(first * SMALL)] {
            *lifted -= gain;
        }
        put_peak(words, first - 1);
    }
    words[LIFTED + column] = 0;
    put_peak(words, last);
    for ground in &mut words[GROUNDS + first.min(last + 1)..GROUNDS + last + 1] {
        *ground = ground.wrapping_sub(gain);
    }
}
