//! The exported count beside the reference.

use host::cases::{cluster, letters};
use host::count;
use host::random::Random;
use host::reference::sketch::{self, MAX_K, MAX_LETTERS, MAX_W};

/// Holds the exported count to the reference's.
fn hold(case: &str, letters: &[u8], k: u32, w: u32) {
    let (ours, expected) = (count(letters, k, w), sketch::count(letters, k, w));
    let shown = letters[..letters.len().min(500)].escape_ascii();
    assert_eq!(ours, expected, "{case}, k {k}, w {w}, {} letters: {shown}", letters.len());
}

/// Holds it for every k and w.
fn hold_for_all(case: &str, letters: &[u8]) {
    for k in 1..=MAX_K {
        for w in 1..=MAX_W {
            hold(case, letters, k, w);
        }
    }
}

#[test]
fn every_k_and_w_on_random_letters() {
    for seed in 0..40 {
        let mut random = Random::new(seed);
        let length = random.below(300);
        let text = letters(&mut random, length, if seed % 2 == 0 { b"ACGTacgt" } else { b"ACGTacgtACGTacgtACGTacgtACGTacgtN" });
        hold_for_all(&format!("seed {seed}"), &text);
    }
}

#[test]
fn every_k_and_w_on_repeats() {
    for seed in 100..130 {
        let mut random = Random::new(seed);
        let size = random.between(1, 20);
        let unit = letters(&mut random, size, b"ACGT");
        let mut text = unit.repeat(1 + 250 / size);
        for _ in 0..random.below(4) {
            let at = random.below(text.len());
            text[at] = random.one_of(b"ACGTN");
        }
        hold_for_all(&format!("seed {seed}"), &text);
    }
}

#[test]
fn some_thousand_letters() {
    for seed in 200..320 {
        let mut random = Random::new(seed);
        let longest = random.between(500, 6000);
        let (text, read) = cluster(&mut random, longest);
        for _ in 0..10 {
            let (k, w) = (random.between(1, 15) as u32, random.between(1, 64) as u32);
            hold(&format!("seed {seed}, text"), &text, k, w);
            hold(&format!("seed {seed}, read"), &read, k, w);
        }
    }
}

#[test]
fn every_short_length() {
    let mut random = Random::new(400);
    let text = letters(&mut random, 160, b"ACGT");
    for length in 0..=text.len() {
        for k in [1, 2, 7, 14, 15] {
            for w in [1, 2, 3, 10, 63, 64] {
                hold("a first part", &text[..length], k, w);
            }
        }
    }
}

#[test]
fn every_short_string() {
    let alphabet = b"ACTN";
    for length in 0..=6 {
        for number in 0..alphabet.len().pow(length) {
            let text: Vec<u8> = (0..length).map(|at| alphabet[number / alphabet.len().pow(at) % alphabet.len()]).collect();
            for k in 1..=3 {
                for w in 1..=4 {
                    hold("a short string", &text, k, w);
                }
            }
        }
    }
}

#[test]
fn runs_about_as_long_as_k_and_as_a_window() {
    let mut random = Random::new(500);
    for k in 1..=MAX_K {
        for w in [1, 2, 5, 31, 63, 64] {
            let mut text = Vec::new();
            for near in [0, 1, k, k + 1, k + w - 1, k + w, k + 2 * w, k, 64, 65, 1] {
                let length = (near + random.below(3) as u32).saturating_sub(2) as usize;
                text.extend(letters(&mut random, length, b"ACGTacgt"));
                text.push(random.one_of(b"NnX\n\0\xff@"));
            }
            hold("short runs", &text, k, w);
            hold("short runs, the last one open", &text[..text.len() - 1], k, w);
        }
    }
}

#[test]
fn every_byte_value() {
    for byte in 0..=255 {
        for (k, w) in [(1, 1), (1, 3), (3, 1), (3, 4), (15, 2)] {
            let side = b"ACGTTGCAACGGTTACAGATTACA";
            hold("one byte among letters", &[side.as_slice(), &[byte], side].concat(), k, w);
            hold("one byte alone", &[byte], k, w);
        }
    }
    for seed in 600..700 {
        let mut random = Random::new(seed);
        let length = random.below(2000);
        let text: Vec<u8> = (0..length).map(|_| random.below(256) as u8).collect();
        hold(&format!("seed {seed}"), &text, random.between(1, 3) as u32, random.between(1, 5) as u32);
    }
}

#[test]
fn lower_case_counts_as_upper_case() {
    for seed in 700..720 {
        let mut random = Random::new(seed);
        let text = letters(&mut random, 400, b"ACGTacgtN");
        let (k, w) = (random.between(1, 15) as u32, random.between(1, 64) as u32);
        assert_eq!(count(&text, k, w), count(&text.to_ascii_uppercase(), k, w), "seed {seed}");
        assert_eq!(count(&text, k, w), count(&text.to_ascii_lowercase(), k, w), "seed {seed}");
    }
}

#[test]
fn as_many_letters_as_are_allowed() {
    let mut random = Random::new(800);
    let text = letters(&mut random, MAX_LETTERS, b"ACGT");
    for (k, w) in [(1, 1), (15, 1), (15, 10), (15, 64), (2, 64), (8, 33)] {
        hold("random letters", &text, k, w);
    }
    let runs = letters(&mut random, MAX_LETTERS, b"ACGTACGTACGTACGTACGTACGTACGTACGTN");
    hold("runs", &runs, 9, 10);
    hold("one letter", &vec![b'A'; MAX_LETTERS], 15, 64);
    hold("no letter of the eight", &vec![b'N'; MAX_LETTERS], 1, 1);
    hold("one fewer", &text[1..], 15, 10);
}

#[test]
fn refusals_in_their_order() {
    let text = vec![b'A'; MAX_LETTERS + 2];
    let outside_k = [0, 16, 17, 31, 32, 255, 256, 257, 65_537, 1 << 31, (1 << 31) + 1, u32::MAX];
    let outside_w = [0, 65, 66, 127, 128, 255, 256, 257, 65_537, 1 << 31, (1 << 31) + 1, u32::MAX];
    for length in [0, 1, MAX_LETTERS, MAX_LETTERS + 1, MAX_LETTERS + 2] {
        let letters = &text[..length];
        for k in outside_k {
            for w in outside_w.into_iter().chain([1, 10, 64]) {
                assert_eq!(count(letters, k, w), -1, "k {k}, w {w}, {length} letters");
            }
        }
        for k in [1, 2, 15] {
            for w in outside_w {
                assert_eq!(count(letters, k, w), -2, "k {k}, w {w}, {length} letters");
            }
        }
        if length > MAX_LETTERS {
            for (k, w) in [(1, 1), (15, 64), (1, 64), (15, 1)] {
                assert_eq!(count(letters, k, w), -3, "k {k}, w {w}, {length} letters");
            }
        }
    }
}
