//! Sketch and count beside the reference.

use bench::ours::{self, COUNT};
use bench::plain::former_sketch::{by_match, by_table};
use bench::plain::{fastest_sketch, sketch};
use bench::signatures::{Count, Sketch};
use host::cases::letters;
use host::random::Random;
use host::reference::sketch as reference;

use crate::on_small_stack;

const SKETCHES: [(&str, Sketch); 5] = [
    ("the same algorithm", sketch::sketch),
    ("the fastest", fastest_sketch::sketch),
    ("the former one by a table", by_table::SKETCH),
    ("the former one by a match", by_match::SKETCH),
    ("the proved one", ours::sketch),
];

const COUNTS: [(&str, Count); 5] = [
    ("the same algorithm", sketch::count),
    ("the fastest", fastest_sketch::count),
    ("the former one by a table", by_table::COUNT),
    ("the former one by a match", by_match::COUNT),
    ("the proved one", COUNT),
];

/// Letters that a block, and so a chunk, has.
const BLOCK: usize = 512;

/// Each way that a plain function goes by k and w.
const MEASURES: [(u32, u32); 7] = [(1, 1), (3, 2), (15, 1), (15, 10), (9, 19), (7, 20), (15, 64)];

/// Holds every sketch and count to the reference, with more room than needed, just enough, and too little.
fn hold(case: &str, letters: &[u8], k: u32, w: u32) {
    let expected = reference::sketch(letters, k, w);
    for (name, count) in COUNTS {
        assert_eq!(count(letters, k, w), expected.len() as i32, "{name}, {case}");
    }
    for (name, sketch) in SKETCHES {
        for room in [letters.len(), letters.len() + 3, expected.len(), expected.len().saturating_sub(1)] {
            let (mut codes, mut positions) = (vec![7; room], vec![9; room]);
            let given = sketch(letters, k, w, &mut codes, &mut positions);
            let n = if room < expected.len() { 0 } else { expected.len() };
            assert_eq!(given, if room < expected.len() { -4 } else { n as i32 }, "{name}, {case}");
            assert_eq!(codes[..n], reference::codes(&expected)[..n], "{name}, {case}");
            assert_eq!(positions[..n], reference::positions(&expected)[..n], "{name}, {case}");
            assert!(codes[n..].iter().all(|&word| word == 7) && positions[n..].iter().all(|&word| word == 9), "{name}, {case}");
        }
    }
}

#[test]
fn sketches_and_counts() {
    on_small_stack(|| {
        for seed in 0..4000 {
            let mut random = Random::new(seed);
            let length = random.one_of(&[5, 40, 300, 2000]);
            let length = random.below(length);
            let alphabet = random.one_of(&[b"ACGT".as_slice(), b"AC", b"ACGTacgtACGTacgtACGTacgtN", b"AAAAAAAAAAAAT"]);
            let letters = letters(&mut random, length, alphabet);
            let (k, w) = (random.between(1, 15) as u32, random.one_of(&[1, 2, 3, 5, 10, 16, 19, 20, 31, 63, 64]));
            hold(&format!("seed {seed}, k {k}, w {w}"), &letters, k, w);
        }
    });
}

#[test]
fn runs_about_as_long_as_a_block() {
    on_small_stack(|| {
        let mut random = Random::new(5000);
        for number in [BLOCK - 1, BLOCK, BLOCK + 1, 2 * BLOCK - 1, 2 * BLOCK, 2 * BLOCK + 1] {
            for (k, w) in MEASURES {
                // so many letters, and so many k-mers
                for length in [number, number + k as usize - 1] {
                    let text = letters(&mut random, length, b"ACGT");
                    for letters in [text.clone(), [&text, b"N".as_slice(), &text].concat()] {
                        hold(&format!("a run of {length} letters, k {k}, w {w}"), &letters, k, w);
                    }
                }
            }
        }
    });
}

/// A run ends, and the next one begins, at each place before and behind the end of a block from where a first window reaches it.
#[test]
fn blocks_that_end_in_a_first_window() {
    on_small_stack(|| {
        let mut random = Random::new(6000);
        for (k, w) in MEASURES {
            for at in BLOCK - (k + w) as usize - 1..=BLOCK + 1 {
                // the second run is cut off too, before it has k letters, a window, or a whole block
                for behind in [k as usize - 1, (k + w) as usize - 2, (k + w) as usize + 1, BLOCK + 70] {
                    let mut letters = letters(&mut random, at + 1 + behind, b"ACGT");
                    letters[at] = b'N';
                    hold(&format!("an N at {at}, {behind} letters behind it, k {k}, w {w}"), &letters, k, w);
                }
            }
        }
    });
}

#[test]
fn all_bytes_as_letters() {
    on_small_stack(|| {
        let mut random = Random::new(7000);
        let all: Vec<u8> = (0..=255).collect();
        for (k, w) in [(1, 1), (1, 2), (2, 3), (3, 64), (15, 10)] {
            hold(&format!("all bytes in their order, k {k}, w {w}"), &all, k, w);
            let mixed = letters(&mut random, 3000, &all);
            hold(&format!("all bytes at random, k {k}, w {w}"), &mixed, k, w);
            for byte in 0..=255 {
                let mut text = letters(&mut random, 90, b"ACGTacgt");
                text[40] = byte;
                hold(&format!("byte {byte} in a run, k {k}, w {w}"), &text, k, w);
            }
        }
    });
}

#[test]
fn texts_of_foreign_letters() {
    on_small_stack(|| {
        for length in [0, 1, 15, BLOCK - 1, BLOCK, BLOCK + 1, 2 * BLOCK - 1, 2 * BLOCK, 2 * BLOCK + 1, 5000] {
            let foreign = vec![b'N'; length];
            for (k, w) in MEASURES {
                let run = letters(&mut Random::new(8000), (k + w) as usize, b"ACGT");
                // a run of less than a window that ends where a block does
                let mut block = vec![b'N'; BLOCK];
                let short = (k + w) as usize - 2;
                block[BLOCK - short..].copy_from_slice(&run[..short]);
                for (kind, text) in [
                    ("alone", foreign.clone()),
                    ("behind a run", [run.clone(), foreign.clone()].concat()),
                    ("before a run", [foreign.clone(), run.clone()].concat()),
                    ("between runs", [run.clone(), foreign.clone(), run.clone()].concat()),
                    ("behind a short run", [block, foreign.clone()].concat()),
                ] {
                    hold(&format!("{length} letters N {kind}, k {k}, w {w}"), &text, k, w);
                }
            }
        }
    });
}

#[test]
fn refusals() {
    on_small_stack(|| {
        let cases = [(0, 0, 1_048_577, -1), (16, 1, 3, -1), (1, 0, 3, -2), (15, 65, 1_048_577, -2), (15, 64, 1_048_577, -3)];
        for (k, w, length, number) in cases {
            let letters = vec![b'A'; length];
            for (name, sketch) in SKETCHES {
                let (mut codes, mut positions) = ([7; 9], [9; 9]);
                assert_eq!(sketch(&letters, k, w, &mut codes, &mut positions), number, "{name}");
                assert_eq!((codes, positions), ([7; 9], [9; 9]), "{name}");
            }
            for (name, count) in COUNTS {
                assert_eq!(count(&letters, k, w), number, "{name}");
            }
        }
    });
}
