//! The reverse complement beside the reference.

use bench::jobs::{self, LONG_READ, READ};
use bench::ours;
use bench::plain::{complement, fastest_complement};
use bench::signatures::Complement;
use host::cases::letters;
use host::random::Random;
use host::reference::complement::reverse_complement;

use crate::on_small_stack;

const COMPLEMENTS: [(&str, Complement); 3] = [
    ("the same algorithm", complement::reverse_complement),
    ("the fastest", fastest_complement::reverse_complement),
    ("the proved one", ours::reverse_complement),
];

/// Holds each with an output that is exact, longer, and too short: its answer, the bytes written, and those that stay.
fn hold(case: &str, read: &[u8]) {
    let (n, expected) = (read.len(), reverse_complement(read));
    for (name, complement) in COMPLEMENTS {
        for room in [n, n + 1, n + 70, n.saturating_sub(1), n / 2, 0] {
            let mut out = vec![7; room];
            let written = if room < n { 0 } else { n };
            let given = complement(read, &mut out);
            assert_eq!(given, if room < n { -4 } else { n as i32 }, "{name}, {case}, {n} letters, room {room}");
            assert!(out[..written] == expected[..written], "{name}, {case}, {n} letters, room {room}");
            assert!(out[written..].iter().all(|&byte| byte == 7), "{name}, {case}, {n} letters, room {room}");
        }
    }
}

/// Each length about some blocks of the fastest.
#[test]
fn every_short_length() {
    on_small_stack(|| {
        let mut random = Random::new(9000);
        for length in 0..=330 {
            for alphabet in [b"ACGT".as_slice(), b"ACGTacgtNn\0\xff", b"@ABCDEFGHSTUV`abcdefghstuv"] {
                hold("a length", &letters(&mut random, length, alphabet));
            }
        }
    });
}

/// Each byte at each place of a block, and in what a block leaves over.
#[test]
fn all_bytes_as_letters() {
    on_small_stack(|| {
        let all: Vec<u8> = (0..=255).collect();
        hold("all bytes", &all);
        hold("all bytes but for some", &all[3..]);
        for byte in 0..=255 {
            hold("one byte", &[byte]);
            hold("one byte, often", &[byte; 99]);
            for at in 0..70 {
                let mut read = [b'A'; 70];
                read[at] = byte;
                hold("a byte at a place", &read);
            }
        }
    });
}

#[test]
fn long_reads() {
    on_small_stack(|| {
        let mut random = Random::new(9100);
        let all: Vec<u8> = (0..=255).collect();
        hold("any bytes", &letters(&mut random, 1_500_001, &all));
        // the rows of the table
        let read = jobs::random_letters(LONG_READ);
        hold("a row", &read);
        hold("a row", &read[..READ]);
    });
}
