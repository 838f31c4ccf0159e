//! The exported reverse complement beside the reference and beside what is written out here.

use host::calls;
use host::cases::{letters, palindrome};
use host::held::complement::reverse_complement as held;
use host::random::Random;
use host::reference::complement::{complement, reverse_complement};
use host::reference::letters::value;
use host::reference::refusal::refused_with;

/// The reverse complement by the proved call, in an output of its length.
fn proved(read: &[u8]) -> Vec<u8> {
    let mut out = vec![b'x'; read.len()];
    assert_eq!(calls::reverse_complement(read, &mut out), Ok(read.len()));
    out
}

/// Holds the call with an output that is short, exact and long: its answer, the bytes written, and those that stay.
fn hold(random: &mut Random, case: &str, read: &[u8]) {
    let n = read.len();
    for room in [0, n / 2, n.saturating_sub(1), n, n + 1, n + 100, 2 * n] {
        let expected = if room < n { Err(refused_with(4, n)) } else { Ok(n) };
        assert_eq!(held(random, read, room), Ok(expected), "{case}, {n} letters, room {room}");
    }
}

/// The eight letters in upper case, and other bytes as they are.
fn upper(read: &[u8]) -> Vec<u8> {
    read.iter().map(|&byte| if value(byte).is_some() { byte.to_ascii_uppercase() } else { byte }).collect()
}

#[test]
fn stated_values() {
    let cases: [(&[u8], &[u8]); 9] = [
        (b"", b""),
        (b"A", b"T"),
        (b"ACG", b"CGT"),
        (b"ACGT", b"ACGT"),
        (b"AACCGGTT", b"AACCGGTT"),
        (b"GATTACA", b"TGTAATC"),
        (b"acgtACGT", b"ACGTACGT"),
        (b"aNc-g\0t\xff", b"\xffA\0C-GNT"),
        (b"RYSWKMBDHVNUryswkmbdhvnu", b"unvhdbmkwsyrUNVHDBMKWSYR"),
    ];
    for (read, expected) in cases {
        assert_eq!(proved(read), expected, "{}", read.escape_ascii());
        assert_eq!(reverse_complement(read), expected, "{}", read.escape_ascii());
    }
}

#[test]
fn bytes_past_the_last_one_written_stay() {
    let mut out = *b"xyzxyz";
    assert_eq!(calls::reverse_complement(b"ACG", &mut out), Ok(3));
    assert_eq!(&out, b"CGTxyz");
    assert_eq!(calls::reverse_complement(b"", &mut out), Ok(0));
    assert_eq!(calls::reverse_complement(b"AAAAAAA", &mut out), Err(refused_with(4, 7)));
    assert_eq!(calls::reverse_complement(b"A", &mut out[..0]), Err(refused_with(4, 1)));
    assert_eq!(&out, b"CGTxyz");
    assert_eq!(calls::reverse_complement(b"", &mut []), Ok(0));
}

/// Each byte alone, among letters, and at each place of a short read.
#[test]
fn every_byte_value() {
    let mut random = Random::new(5000);
    let pairs = [b"AT", b"TA", b"CG", b"GC", b"aT", b"tA", b"cG", b"gC"];
    for byte in 0..=255 {
        let paired = pairs.iter().find(|pair| pair[0] == byte).map_or(byte, |pair| pair[1]);
        assert_eq!(proved(&[byte]), [paired]);
        assert_eq!(complement(byte), paired, "byte {byte}");
        for at in 0..33 {
            let mut read = letters(&mut random, 33, b"ACGTacgt");
            read[at] = byte;
            hold(&mut random, &format!("byte {byte} at {at}"), &read);
        }
    }
    let all: Vec<u8> = (0..=255).collect();
    hold(&mut random, "all bytes", &all);
    hold(&mut random, "all bytes, falling", &all.iter().rev().copied().collect::<Vec<u8>>());
}

#[test]
fn every_short_length() {
    let mut random = Random::new(5100);
    for length in 0..=300 {
        for alphabet in [b"ACGT".as_slice(), b"ACGTacgtN", b"\0\x01\x40\x60\x80\xc1\xe1\xff"] {
            let read = letters(&mut random, length, alphabet);
            hold(&mut random, "a length", &read);
        }
    }
}

/// There is no limit of letters: sketch refuses more than 1,048,576 of them, the reverse complement does not.
#[test]
fn long_reads() {
    let mut random = Random::new(5200);
    let all: Vec<u8> = (0..=255).collect();
    let read = letters(&mut random, 3_000_001, b"ACGTacgtACGTacgtACGTacgtN");
    for length in [65_535, 65_536, 1_000_000, 1_000_001, 1_048_576, 1_048_577, 3_000_000, 3_000_001] {
        hold(&mut random, "a long read", &read[..length]);
    }
    let bytes = letters(&mut random, 1_500_001, &all);
    hold(&mut random, "any bytes", &bytes);
}

/// "complementing twice gives the read back with those in upper case"
#[test]
fn complement_twice() {
    let all: Vec<u8> = (0..=255).collect();
    assert_eq!(proved(&proved(&all)), upper(&all));
    for seed in 5300..6300 {
        let mut random = Random::new(seed);
        let length = random.below(500);
        let alphabet = random.one_of(&[b"ACGT".as_slice(), b"acgt", b"ACGTacgtNnRy-", &all]);
        let read = letters(&mut random, length, alphabet);
        assert_eq!(proved(&proved(&read)), upper(&read), "seed {seed}");
    }
    let long = letters(&mut Random::new(6300), 1_000_001, &all);
    assert_eq!(proved(&proved(&long)), upper(&long));
}

/// A palindrome is its own reverse complement but for its case.
#[test]
fn palindromes() {
    for seed in 6400..6600 {
        let mut random = Random::new(seed);
        let half = random.below(60);
        let read = palindrome(&mut random, half);
        assert_eq!(proved(&read), upper(&read), "seed {seed}");
    }
}
