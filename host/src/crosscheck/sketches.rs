//! Sketch and count: random letters with every k and w, the limits of k, w, letters and buffers, and the ends of blocks of letters.

use super::tally::Tally;
use crate::cases::letters;
use crate::held::sketch::{hold_count, sketch};
use crate::random::Random;
use crate::reference::sketch::{MAX_LETTERS, count};

const CASES: u64 = 6_000;
/// How many letters the proved scan reads at a time.
const BLOCK: usize = 512;
const ALPHABETS: [&[u8]; 6] = [b"ACGT", b"ACGTacgt", b"AC", b"AAAAAAAC", b"ACGTACGTACGTN", b"ACGTacgtNn\0\xff-"];

/// Room for all entries, more, or one word short in either buffer.
fn rooms(random: &mut Random, n: usize) -> (usize, usize) {
    match random.below(6) {
        0 => (n.saturating_sub(1), n),
        1 => (n, n.saturating_sub(1)),
        2 => (random.below(n + 1), random.below(n + 1)),
        3 => (n + random.below(9), n + random.below(9)),
        _ => (n, n),
    }
}

/// Compares sketch and count on these letters.
fn compare(tally: &mut Tally, random: &mut Random, letters: &[u8], k: u32, w: u32, rooms: (usize, usize)) {
    let case = || format!("{} letters, k {k}, w {w}, rooms {rooms:?}", letters.len());
    tally.call("sketch", case, sketch(random, letters, k, w, rooms));
    tally.call("count", case, hold_count(letters, k, w));
}

pub fn random(tally: &mut Tally) {
    for seed in 200_000..200_000 + CASES {
        let mut random = Random::new(seed);
        let longest = random.one_of(&[10, 40, 200, 1_500]);
        let (length, alphabet) = (random.below(longest), random.one_of(&ALPHABETS));
        let text = letters(&mut random, length, alphabet);
        let (k, w) = ((seed % 17) as u32, (seed / 17 % 66) as u32);
        let n = usize::try_from(count(&text, k, w)).unwrap_or(4);
        let rooms = rooms(&mut random, n);
        compare(tally, &mut random, &text, k, w, rooms);
    }
    tally.end_part("sketches and counts of random letters");
}

/// Buffers that hold all entries exactly, and one word short in each and in both.
fn compare_short_buffers(tally: &mut Tally, random: &mut Random, letters: &[u8], k: u32, w: u32) {
    let n = usize::try_from(count(letters, k, w)).expect("letters that are accepted");
    for rooms in [(n, n), (n - 1, n), (n, n - 1), (n - 1, n - 1), (0, n), (n, 0)] {
        compare(tally, random, letters, k, w, rooms);
    }
}

/// Sketches of letters with an N near an end of a block, which the proved scan reads 512 letters at a time: in front of it, in a first
/// k-mer or a first window that the block's end cuts, and behind it; of runs that end there; and of all bytes.
pub fn block_ends(tally: &mut Tally) {
    let mut random = Random::new(220_000);
    let text = letters(&mut random, 3 * BLOCK, b"ACGTacgt");
    for (k, w) in [(1, 1), (1, 64), (4, 5), (15, 1), (15, 10), (15, 64)] {
        for end in [BLOCK, 2 * BLOCK] {
            for at in end - 80..end + 3 {
                let mut cut = text.clone();
                cut[at] = b'N';
                compare(tally, &mut random, &cut, k, w, (cut.len(), cut.len()));
                compare(tally, &mut random, &cut[at..], k, w, (cut.len(), cut.len()));
                compare(tally, &mut random, &text[..at], k, w, (at, at));
            }
        }
        let bytes: Vec<u8> = (0..=255).flat_map(|byte| [b'A', b'c', byte, b'G', b't']).collect();
        compare(tally, &mut random, &bytes, k, w, (bytes.len(), bytes.len()));
    }
    tally.end_part("an N at each of 83 positions near the ends of two blocks, texts that end there, all bytes");
}

pub fn limits(tally: &mut Tally) {
    let mut random = Random::new(210_000);
    let long = letters(&mut random, MAX_LETTERS + 1, b"ACGT");
    let most = &long[..MAX_LETTERS];
    for k in [0, 1, 15, 16, u32::MAX] {
        for w in [0, 1, 64, 65, u32::MAX] {
            for text in [&long[..0], &long[..1], &long[..14], &long[..15], &long[..78], &long[..79], &long] {
                compare(tally, &mut random, text, k, w, (text.len(), text.len()));
            }
        }
    }
    for (k, w) in [(1, 1), (1, 64), (15, 1), (15, 64)] {
        compare(tally, &mut random, most, k, w, (MAX_LETTERS, MAX_LETTERS));
    }
    compare_short_buffers(tally, &mut random, most, 15, 10);
    compare_short_buffers(tally, &mut random, &long[..500], 1, 64);
    compare_short_buffers(tally, &mut random, &long[..1], 1, 1);
    compare(tally, &mut random, &vec![b'T'; MAX_LETTERS], 15, 64, (MAX_LETTERS, MAX_LETTERS));
    tally.end_part("k 0, 1, 15, 16; w 0, 1, 64, 65; 1,048,576 letters and one more; buffers one word short");
}
