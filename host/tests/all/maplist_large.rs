//! The program at the limits of hits and pattern, beside the reference.
//! Assumes that the program has been built.

use host::cases::{cluster, gene, letters, near_copy};
use host::program::{expect, run_on};
use host::random::Random;
use host::reference::output::output;

fn hold(case: &str, first: &str, text: &[u8], read: &[u8]) -> Vec<u8> {
    let input = [first.as_bytes(), b"\n", text, b"\n", read, b"\n"].concat();
    let expected = output(&input);
    expect(case, &input, &run_on(&input), &expected);
    expected
}

/// Text of this many A's, and C's up to a full line.
fn with_hits(hits: usize) -> Vec<u8> {
    [vec![b'A'; hits], vec![b'C'; 4096 - hits]].concat()
}

#[test]
fn as_many_hits_as_are_allowed() {
    for read in [1, 2, 100, 4096] {
        let read = vec![b'A'; read];
        for threshold in [i32::MIN, -100, 1] {
            let first = format!("1 1 65535 1 1 {threshold}");
            let accepted = hold("2,048 hits", &first, &with_hits(2048), &read);
            assert!(accepted.ends_with(b" cells 2098176\n"), "{}", accepted.escape_ascii());
            assert_eq!(hold("2,049 hits", &first, &with_hits(2049), &read), b"refused 11\n");
        }
    }
    assert_eq!(hold("4,096 hits", "1 1 65535 1 1 0", &with_hits(4096), b"A"), b"refused 11\n");
}

/// A pattern that is struck has no hits to be too many: what is left of it decides.
#[test]
fn hits_that_are_struck() {
    let nothing = b"first last score shared permille strand\nfound 0 cells 0\n";
    for hits in [2049, 4096] {
        let text = with_hits(hits);
        let (all, fewer) = (format!("1 1 {hits} 1 1 0"), format!("1 1 {} 1 1 0", hits - 1));
        assert_eq!(hold("not struck", &all, &text, b"A"), b"refused 11\n");
        assert_eq!(hold("struck", &fewer, &text, b"A"), b"refused 9\n");
        assert_eq!(hold("struck, a full read", &fewer, &text, &[b'A'; 4096]), b"refused 9\n");
        assert_eq!(hold("struck but for one letter", &fewer, &text, b"AAT"), nothing);
    }
}

/// Reads of 4,096 entries that lose some of them on either strand: A is struck, and C, G and T are 1,996 hits.
#[test]
fn full_patterns_that_are_struck() {
    let mut random = Random::new(2200);
    for letter in [b'A', b'c', b'G', b'T'] {
        let mut text = [[b'A'; 2100].as_slice(), &[b'C'; 900], &[b'G'; 96], &[b'T'; 1000]].concat();
        for at in 0..text.len() {
            text.swap(at, random.between(at, 4095));
        }
        let mut read = letters(&mut random, 4096, b"ACGT");
        read[..2000].fill(letter);
        for (c, threshold) in [(2099, i32::MIN), (1500, -500), (1000, 0)] {
            let printed = hold("a full read", &format!("1 1 {c} 1 1 {threshold}"), &text, &read);
            assert!(printed.ends_with(b" cells 3986012\n"), "{}", printed.escape_ascii());
        }
        assert_eq!(hold("a full read", "1 1 2100 1 1 0", &text, &read), b"refused 11\n");
    }
}

#[test]
fn full_lines() {
    for seed in 2000..2012 {
        let mut random = Random::new(seed);
        let gene = gene(&mut random, 900, b"ACGT");
        let mut text = Vec::new();
        while text.len() < 4096 {
            let gap = random.below(300);
            text.extend(letters(&mut random, gap, b"ACGT"));
            text.extend(near_copy(&mut random, &gene, 40, b"ACGT"));
        }
        text.truncate(4096);
        let read = near_copy(&mut random, &gene, 40, b"ACGT");
        let (k, w) = random.one_of(&[(15, 10), (11, 5), (7, 3), (9, 2), (13, 20), (5, 4)]);
        let threshold = random.one_of(&[i32::MIN, -200, 0, 20]);
        hold(&format!("seed {seed}"), &format!("{k} {w} 50 2 1 {threshold}"), &text, &read);
    }
}

#[test]
fn great_weights() {
    for seed in 2100..2110 {
        let mut random = Random::new(seed);
        let (text, _) = cluster(&mut random, 4096);
        let read = letters(&mut random, 4096, b"ACGT");
        for (u, v) in [(1000, 1000), (1, 1000), (1000, 1)] {
            hold(&format!("seed {seed}"), &format!("6 5 65535 {u} {v} -2147483648"), &text, &read);
        }
    }
}
