//! Both strikes beside the reference.

use bench::jobs;
use bench::ours;
use bench::plain::{fastest_strike, hash_strike, strike};
use bench::signatures::{Strike, StrikeRead};
use host::random::Random;
use host::reference::refusal::{Refusal, refused_with};
use host::reference::sketch::{Entry, codes, positions};
use host::reference::strike::{strike_call, strike_read_call};
use host::words::{arranged, drawn, kinds, slot_mate, texts};

use crate::on_small_stack;

const STRIKES: [(&str, Strike, StrikeRead); 4] = [
    ("the same algorithm", strike::strike, strike::strike_read),
    ("a hash map", hash_strike::strike, hash_strike::strike_read),
    ("the fastest", fastest_strike::strike, fastest_strike::strike_read),
    ("the proved one", ours::strike, ours::strike_read),
];

type Expected = Result<Vec<Entry>, Refusal>;

/// Holds a call with buffers of these lengths: its answer, what it wrote, and the words behind.
fn agree(case: &str, expected: &Expected, rooms: (usize, usize), call: impl FnOnce(&mut [u32], &mut [u32]) -> i32) {
    let (mut out_codes, mut out_positions) = (vec![7; rooms.0], vec![9; rooms.1]);
    let given = call(&mut out_codes, &mut out_positions);
    let (answer, rest) = match expected {
        Err(refusal) => (-(refusal.number as i32), &[][..]),
        Ok(rest) => (rest.len() as i32, rest.as_slice()),
    };
    assert_eq!(given, answer, "{case}");
    assert!(out_codes[..rest.len()] == codes(rest), "codes, {case}");
    assert!(out_positions[..rest.len()] == positions(rest), "positions, {case}");
    assert!(out_codes[rest.len()..].iter().all(|&word| word == 7), "codes behind, {case}");
    assert!(out_positions[rest.len()..].iter().all(|&word| word == 9), "positions behind, {case}");
}

/// Holds each strike of a text.
fn hold(case: &str, text: &[u32], places: &[u32], c: u32, rooms: (usize, usize)) {
    let expected = strike_call(text, places, c, rooms.0, rooms.1);
    for (name, strike, _) in STRIKES {
        agree(&format!("{name}, {case}"), &expected, rooms, |codes, positions| strike(text, places, c, codes, positions));
    }
}

/// Holds each strike of a read, with room for all, for those that stay, and for one fewer in either buffer.
fn hold_read(case: &str, text: &[u32], read: &[u32], places: &[u32], c: u32) {
    let all = read.len();
    let rest = strike_read_call(text, read, places, c, all, all);
    let kept = rest.as_ref().map_or(0, Vec::len);
    let short = kept.saturating_sub(1);
    for rooms in [(all, all), (kept, kept), (short, all), (kept, short), (all + 1, kept)] {
        let enough = kept <= rooms.0.min(rooms.1);
        let expected = if enough { rest.clone() } else { Err(refused_with(4, kept)) };
        for (name, _, strike_read) in STRIKES {
            agree(&format!("{name}, {case}, c {c}, rooms {rooms:?}"), &expected, rooms, |codes, positions| {
                strike_read(text, read, places, c, codes, positions)
            });
        }
    }
}

#[test]
fn strikes() {
    on_small_stack(|| {
        for seed in 0..900 {
            let mut random = Random::new(seed);
            let kinds = kinds(&mut random);
            let longest = random.one_of(&[3, 50, 1000, 1000, 1000]);
            let n = random.below(longest);
            let text = drawn(&mut random, &kinds, n);
            let text = arranged(&mut random, text);
            let places: Vec<u32> = (0..n).map(|_| random.word() as u32).collect();
            let c = random.one_of(&[1, 2, 3, 50, 65_535]);
            for rooms in [(n, n), (n + 1, n), (n / 2, n / 2)] {
                hold(&format!("seed {seed}"), &text, &places, c, rooms);
            }
        }
    });
}

#[test]
fn long_texts_and_refusals() {
    on_small_stack(|| {
        let text: Vec<u32> = (0..65_536u32).map(|n| n.wrapping_mul(2_654_435_761) >> 17).collect();
        let places: Vec<u32> = (0..65_536).collect();
        for n in [65_535, 65_536] {
            for c in [0, 1, 2, 3, 65_535, 65_536] {
                hold("a long text", &text[..n], &places[..n], c, (n, n));
                hold("positions too few", &text[..n], &places[1..n], c, (n, n));
            }
        }
        for (name, text) in texts() {
            for c in [1, 2, 16] {
                hold(name, &text[1..], &places[1..], c, (65_535, 65_535));
            }
        }
    });
}

#[test]
fn strikes_of_reads() {
    on_small_stack(|| {
        for seed in 1_000..1_900 {
            let mut random = Random::new(seed);
            let kinds = kinds(&mut random);
            let (text_n, n) = (random.below(800), random.below(800));
            let text = drawn(&mut random, &kinds, text_n);
            let text = arranged(&mut random, text);
            let mut read = drawn(&mut random, &kinds, n);
            for word in read.iter_mut().step_by(7) {
                *word = slot_mate(&mut random, *word);
            }
            let places: Vec<u32> = (0..n).map(|_| random.word() as u32).collect();
            let c = random.one_of(&[1, 2, 3, 16, 50, 65_535]);
            hold_read(&format!("seed {seed}"), &text, &read, &places, c);
        }
    });
}

/// Reads of a few entries, of more than the fastest counts by the read's words, and of more than a block.
#[test]
fn long_reads() {
    on_small_stack(|| {
        let mut random = Random::new(2_000);
        let places: Vec<u32> = (0..140_000).map(|_| random.word() as u32).collect();
        for (name, text) in texts() {
            let text = &text[1..];
            for n in [3_000, 9_000, 140_000] {
                let mut read = drawn(&mut random, text, n);
                for word in read.iter_mut().step_by(5) {
                    *word = slot_mate(&mut random, *word);
                }
                for c in [1, 2, 16] {
                    hold_read(&format!("{n} entries, {name}"), text, &read, &places[..n], c);
                }
            }
        }
    });
}

#[test]
fn refused_reads() {
    on_small_stack(|| {
        let text = vec![5; 65_536];
        for text in [&text[..2], &text] {
            for c in [0, 1, 65_535, 65_536] {
                for places in [&[1, 2, 3][..], &[1, 2], &[1, 2, 3, 4]] {
                    hold_read("a refused read", text, &[5, 6, 5], places, c);
                }
            }
        }
    });
}

/// The rows of the table, whose ways through the fastest are those that are timed.
#[test]
fn rows_of_the_table() {
    on_small_stack(|| {
        let places: Vec<u32> = (0..jobs::TEXT as u32).collect();
        let texts = [jobs::all_different(jobs::TEXT), jobs::all_the_same(jobs::TEXT), jobs::repeats(jobs::TEXT)];
        for text in &texts {
            hold("a row", text, &places, 16, (jobs::TEXT, jobs::TEXT));
            hold_read("a row", text, &jobs::stretch(text, jobs::READ), &places[..jobs::READ], 16);
        }
        hold_read("a row", &texts[2], &jobs::read_of_repeats(jobs::TEXT), &places, 16);
    });
}
