//! Sketch and count by the former algorithm of the proved functions: each letter's value is had as the letter is read, the ranks of
//! the last 64 k-mers stand in a ring, the lowest of a window is kept and searched anew when it leaves the window, and its code is had
//! back from its rank. It stays for the letter decision's table, with the value by a table and by a match.
//! Assumes k 1 to 15, w 1 to 64 and at most 1,048,576 letters where it does not test them.

use super::entries::Entries;
use super::letters::{FOREIGN, matched, table};
use super::ranks::{next_code, rank, unrank};
use super::refusal::refusal;

const RING: usize = 64;

/// How the value of a letter is had.
trait Decision {
    /// What is made once a call.
    fn made() -> Self;

    fn value(&self, letter: u8) -> u8;
}

/// By a look into a table that a match has filled.
struct Table([u8; 256]);

impl Decision for Table {
    fn made() -> Table {
        Table(table())
    }

    #[inline(always)]
    fn value(&self, letter: u8) -> u8 {
        self.0[usize::from(letter)]
    }
}

/// By a match at each letter.
struct Match;

impl Decision for Match {
    fn made() -> Match {
        Match
    }

    #[inline(always)]
    fn value(&self, letter: u8) -> u8 {
        matched(letter)
    }
}

/// The letters with the decision of their values, and what a k-mer of them is.
struct Scan<'a, D> {
    letters: &'a [u8],
    decision: &'a D,
    k: usize,
    w: usize,
}

impl<D: Decision> Scan<'_, D> {
    /// The value of the letter at an index; the end of the letters ends a run too.
    #[inline(always)]
    fn value_at(&self, at: usize) -> u8 {
        self.letters.get(at).map_or(FOREIGN, |&letter| self.decision.value(letter))
    }

    /// Reads the letters before the last one of a run's first k-mer: the index behind them, and their code.
    #[inline(always)]
    fn prime(&self, start: usize) -> (usize, u32) {
        let (mut at, mut code) = (start, 0);
        while at + 1 < start + self.k {
            let value = self.value_at(at);
            if value == FOREIGN {
                break;
            }
            code = code << 2 | u32::from(value);
            at += 1;
        }
        (at, code)
    }

    /// The code of the k-mer at this position, given that of the one before it; none where the run has ended.
    #[inline(always)]
    fn next_code(&self, code: u32, position: usize) -> Option<u32> {
        let value = self.value_at(position + self.k - 1);
        (value != FOREIGN).then(|| next_code(code, value, self.k - 1))
    }

    /// Puts the entries of the run that begins at `start`; returns the index behind the run.
    fn run(&self, start: usize, ring: &mut [u32; RING], entries: &mut Entries) -> usize {
        let (at, mut code) = self.prime(start);
        if at + 1 < start + self.k {
            return at;
        }
        let mut position = start;
        while position < start + self.w {
            let Some(next) = self.next_code(code, position) else {
                // a run with fewer k-mers than w has one window
                if position > start {
                    let low_at = lowest(ring, start, position);
                    entries.put(unrank(ring[low_at % RING]), low_at);
                }
                return position + self.k - 1;
            };
            code = next;
            ring[position % RING] = rank(code);
            position += 1;
        }
        self.windows(position, code, ring, entries)
    }

    /// Puts the picks of a run's windows, of which the first stands in the ring; returns the index behind the run.
    fn windows(&self, behind: usize, code: u32, ring: &mut [u32; RING], entries: &mut Entries) -> usize {
        let (mut position, mut code) = (behind, code);
        'windows: loop {
            let mut low_at = lowest(ring, position - self.w, position);
            let mut low = ring[low_at % RING];
            entries.put(unrank(low), low_at);
            loop {
                let Some(next) = self.next_code(code, position) else { break 'windows };
                code = next;
                let (here, rank) = (position, rank(code));
                ring[here % RING] = rank;
                position += 1;
                // asked first, since this is foreseen more often than how the ranks compare
                if low_at + self.w <= here {
                    continue 'windows;
                }
                if rank <= low {
                    (low_at, low) = (here, rank);
                    entries.put(code, here);
                }
            }
        }
        position + self.k - 1
    }
}

/// The position of the lowest rank, rightmost among equals.
fn lowest(ring: &[u32; RING], from: usize, to: usize) -> usize {
    let (mut low_at, mut low) = (from, ring[from % RING]);
    for at in from + 1..to {
        if ring[at % RING] <= low {
            (low_at, low) = (at, ring[at % RING]);
        }
    }
    low_at
}

/// Passes all runs; returns the number of entries. Those that fit into the buffers are written.
fn winnow<D: Decision>(letters: &[u8], k: u32, w: u32, codes: &mut [u32], positions: &mut [u32]) -> usize {
    let scan = Scan { letters, decision: &D::made(), k: k as usize, w: w as usize };
    let mut ring = [0; RING];
    let mut entries = Entries { codes, positions, number: 0 };
    let mut start = 0;
    while start < letters.len() {
        start = scan.run(start, &mut ring, &mut entries) + 1;
    }
    entries.number
}

/// The number of entries, or the refusal number negated: winnowing with no room to write.
fn count<D: Decision>(letters: &[u8], k: u32, w: u32) -> i32 {
    match refusal(letters, k, w) {
        0 => winnow::<D>(letters, k, w, &mut [], &mut []) as i32,
        number => -number,
    }
}

/// Writes the entries and returns their number, or the refusal number negated. Only a buffer with less than a place for each
/// letter makes a counting pass necessary.
fn sketch<D: Decision>(letters: &[u8], k: u32, w: u32, codes: &mut [u32], positions: &mut [u32]) -> i32 {
    let number = refusal(letters, k, w);
    if number != 0 {
        return -number;
    }
    let room = codes.len().min(positions.len());
    if room < letters.len() && room < count::<D>(letters, k, w) as usize {
        return -4;
    }
    winnow::<D>(letters, k, w, codes, positions) as i32
}

/// Each value by the table.
pub mod by_table {
    use super::Table;
    use crate::signatures::{Count, Sketch};

    pub const COUNT: Count = super::count::<Table>;
    pub const SKETCH: Sketch = super::sketch::<Table>;
}

/// Each value by the match.
pub mod by_match {
    use super::Match;
    use crate::signatures::{Count, Sketch};

    pub const COUNT: Count = super::count::<Match>;
    pub const SKETCH: Sketch = super::sketch::<Match>;
}
