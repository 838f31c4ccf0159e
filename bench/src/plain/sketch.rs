//! Sketch and count by the algorithm of the proved functions: the values of a block of letters are computed ahead of the scan, ranks
//! stand in a buffer in their order, and the lowest of a window is kept and searched anew when it leaves the window. Its code is had
//! back from its rank.
//! Assumes k 1 to 15, w 1 to 64 and at most 1,048,576 letters where it does not test them.

use super::blocks::{BLOCK, NO_RANKS, NO_VALUES, Ranks, Values, carry, covering, read_block, slot};
use super::entries::Entries;
use super::letters::{FOREIGN, value};
use super::reading::{Reached, first_letters, first_window};
use super::refusal::refusal;
use super::windows::{Measures, Passed, pass_kmers, pass_windows, put_lowest};

/// The letters, the block at hand, and where it begins.
struct Scan<'a> {
    letters: &'a [u8],
    of: Measures,
    values: Values,
    ranks: Ranks,
    base: usize,
}

impl Scan<'_> {
    /// Passes the windows of a run to its end, the first of which has its lowest put; returns the index behind the run.
    fn all_windows(&mut self, from: Passed, entries: &mut Entries) -> usize {
        let last = self.of.last;
        let mut passed = pass_windows(&self.values, self.base, &mut self.ranks, self.of, from, entries);
        while self.base + BLOCK <= passed.reached.at + last {
            self.base = passed.reached.at + last;
            read_block(self.letters, &mut self.values, self.base);
            carry(&mut self.ranks);
            passed = pass_windows(&self.values, self.base, &mut self.ranks, self.of, passed, entries);
        }
        passed.reached.at + last
    }

    /// Passes the k-mers of a run to its end, where a window has one; returns the index behind the run.
    fn all_kmers(&mut self, from: Reached, entries: &mut Entries) -> usize {
        let last = self.of.last;
        let mut reached = pass_kmers(&self.values, self.base, self.of, from, entries);
        while self.base + BLOCK <= reached.at + last {
            self.base = reached.at + last;
            read_block(self.letters, &mut self.values, self.base);
            reached = pass_kmers(&self.values, self.base, self.of, reached, entries);
        }
        reached.at + last
    }

    /// Passes a run of which the letters in front of the first k-mer's last one are read, and puts its sketch.
    fn run_windows(&mut self, begun: Reached, entries: &mut Entries) -> usize {
        let Measures { last, w } = self.of;
        let reached = first_window(&self.values, self.base, &mut self.ranks, begun, last, w);
        if reached.at <= begun.at {
            return reached.at + last;
        }
        let to = slot(reached.at, last, self.base);
        let (low_at, low) = put_lowest(&self.ranks, to - (reached.at - begun.at), to, reached.at, entries);
        // a run with fewer k-mers than w has one window
        if reached.at < begun.at + w {
            return reached.at + last;
        }
        self.all_windows(Passed { reached, low_at, low }, entries)
    }

    /// Passes the run that begins at `from`, and puts its sketch; returns the index behind the run.
    fn run(&mut self, from: usize, entries: &mut Entries) -> usize {
        let Measures { last, w } = self.of;
        self.base = covering(self.letters, &mut self.values, self.base, from, from + last + w);
        let begun = first_letters(&self.values, self.base, from, last);
        if begun.at < from + last {
            return begun.at;
        }
        let start = Reached { at: from, code: begun.code };
        if w == 1 { self.all_kmers(start, entries) } else { self.run_windows(start, entries) }
    }
}

/// The next index whose letter is one of the eight, from this one on, or the end of the letters.
fn next_run(letters: &[u8], from: usize) -> usize {
    let mut at = from;
    while at < letters.len() && value(letters[at]) == FOREIGN {
        at += 1;
    }
    at
}

/// Passes all runs; returns the number of entries. Those that fit into the buffers are written.
fn winnow(letters: &[u8], k: u32, w: u32, codes: &mut [u32], positions: &mut [u32]) -> usize {
    let of = Measures { last: k as usize - 1, w: w as usize };
    let mut scan = Scan { letters, of, values: NO_VALUES, ranks: NO_RANKS, base: 0 };
    let mut entries = Entries { codes, positions, number: 0 };
    read_block(letters, &mut scan.values, 0);
    let mut at = next_run(letters, 0);
    while at < letters.len() {
        at = next_run(letters, scan.run(at, &mut entries) + 1);
    }
    entries.number
}

/// The number of entries, or the refusal number negated: winnowing with no room to write.
pub fn count(letters: &[u8], k: u32, w: u32) -> i32 {
    match refusal(letters, k, w) {
        0 => winnow(letters, k, w, &mut [], &mut []) as i32,
        number => -number,
    }
}

/// Writes the entries and returns their number, or the refusal number negated. Only a buffer with less than a place for each
/// letter makes a counting pass necessary.
pub fn sketch(letters: &[u8], k: u32, w: u32, codes: &mut [u32], positions: &mut [u32]) -> i32 {
    let number = refusal(letters, k, w);
    if number != 0 {
        return -number;
    }
    let room = codes.len().min(positions.len());
    if room < letters.len() && room < count(letters, k, w) as usize {
        return -4;
    }
    winnow(letters, k, w, codes, positions) as i32
}
