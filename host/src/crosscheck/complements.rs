//! The reverse complement: random bytes, every byte value at every place of a read, long reads, and outputs that are too short.

use super::tally::Tally;
use crate::cases::letters;
use crate::held::complement::reverse_complement;
use crate::random::Random;

const NAME: &str = "reverse complement";
const CASES: u64 = 20_000;
const ALPHABETS: [&[u8]; 5] = [b"ACGT", b"acgt", b"ACGTacgtN", b"ACGTUNRYacgtunry-*\0\xff", b"@ABCDEFGHSTU`abcdefghstu"];

/// A read with letters of an alphabet, or with any bytes.
fn read(random: &mut Random, length: usize) -> Vec<u8> {
    if random.once_in(4) {
        return (0..length).map(|_| random.word() as u8).collect();
    }
    let alphabet = random.one_of(&ALPHABETS);
    letters(random, length, alphabet)
}

/// Room for exactly the read, one byte short, more, or any.
fn room(random: &mut Random, length: usize) -> usize {
    match random.below(6) {
        0 => length.saturating_sub(1),
        1 => random.below(length + 1),
        2 => length + random.between(1, 40),
        _ => length,
    }
}

pub fn random(tally: &mut Tally) {
    for seed in 420_000..420_000 + CASES {
        let mut random = Random::new(seed);
        let longest = random.one_of(&[4, 40, 300, 2_000]);
        let length = random.below(longest);
        let read = read(&mut random, length);
        let room = room(&mut random, length);
        tally.call(NAME, || format!("seed {seed}"), reverse_complement(&mut random, &read, room));
    }
    tally.end_part("reverse complements of random bytes");
}

/// Compares the read with outputs that are too short, exact and longer.
fn compare(tally: &mut Tally, random: &mut Random, kind: &str, read: &[u8]) {
    let n = read.len();
    for room in [0, n.saturating_sub(1), n, n + 1, n + 77] {
        let held = reverse_complement(random, read, room);
        tally.call(NAME, || format!("{kind}, {n} letters, room {room}"), held);
    }
}

pub fn limits(tally: &mut Tally) {
    let mut random = Random::new(440_000);
    for byte in 0..=255 {
        for at in 0..40 {
            let mut read = letters(&mut random, 40, b"ACGTacgt");
            read[at] = byte;
            compare(tally, &mut random, &format!("byte {byte} at {at}"), &read);
        }
        compare(tally, &mut random, &format!("byte {byte} alone"), &[byte]);
    }
    let long: Vec<u8> = (0..3_000_001).map(|_| random.word() as u8).collect();
    for n in (0..=130).chain([4_095, 4_096, 4_097, 1_000_000, 1_000_001, 1_048_576, 1_048_577, 3_000_001]) {
        compare(tally, &mut random, "any bytes", &long[..n]);
    }
    tally.end_part("reverse complement: each byte at each of 40 places; 0 to 3,000,001 letters; outputs a byte short");
}
