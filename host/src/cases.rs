//! Made-up inputs: clusters of near copies of a gene with inner repeats, and settings to map a read with.

use crate::random::Random;
use crate::reference::complement::reverse_complement;
use crate::reference::input::Settings;
use crate::reference::score::{Score, Scoring};

/// The letters that a case draws from: all four, few of them (which makes ties), lower case, and some outside the eight.
const ALPHABETS: [&[u8]; 6] =
    [b"ACGT", b"ACGT", b"AC", b"ACGTacgt", b"ACGTACGTACGTACGTN", b"acgtACGTACGTACGTACGTACGTACGTACGTnR-*"];

/// Random letters of an alphabet.
pub fn letters(random: &mut Random, length: usize, alphabet: &[u8]) -> Vec<u8> {
    (0..length).map(|_| random.one_of(alphabet)).collect()
}

/// A copy with a change at one letter in `rate`: another letter, a letter too many or a letter too few.
pub fn near_copy(random: &mut Random, gene: &[u8], rate: usize, alphabet: &[u8]) -> Vec<u8> {
    let mut copy = Vec::new();
    for &letter in gene {
        if !random.once_in(rate) {
            copy.push(letter);
            continue;
        }
        match random.below(4) {
            0 => {}
            1 => copy.extend([letter, random.one_of(alphabet)]),
            _ => copy.push(random.one_of(alphabet)),
        }
    }
    copy
}

/// A gene of at least this length, some of whose pieces are repeated within it.
pub fn gene(random: &mut Random, length: usize, alphabet: &[u8]) -> Vec<u8> {
    let mut gene = Vec::new();
    while gene.len() < length {
        let size = random.between(1, 1 + length / 3);
        let piece = letters(random, size, alphabet);
        let times = if random.once_in(3) { random.between(2, 4) } else { 1 };
        for _ in 0..times {
            gene.extend(near_copy(random, &piece, 12, alphabet));
        }
    }
    gene.truncate(length);
    gene
}

/// A text with a cluster of near copies of one gene, and a read of one of them.
pub fn cluster(random: &mut Random, longest: usize) -> (Vec<u8>, Vec<u8>) {
    let alphabet = random.one_of(&ALPHABETS);
    let size = random.between(1 + longest / 20, 1 + longest / 4);
    let gene = gene(random, size, alphabet);
    let rate = random.one_of(&[4, 10, 30, 1000]);
    let mut text = Vec::new();
    for _ in 0..random.one_of(&[0, 1, 2, 2, 3, 3, 4]) {
        let gap = random.below(1 + longest / 8);
        text.extend(letters(random, gap, alphabet));
        text.extend(near_copy(random, &gene, rate, alphabet));
    }
    text.truncate(longest);
    let read = near_copy(random, &gene, rate, alphabet);
    (text, read)
}

/// A text with near copies of one gene, some of them on the other strand, and a read of the gene from either strand.
pub fn both_strands(random: &mut Random, longest: usize) -> (Vec<u8>, Vec<u8>) {
    let alphabet = random.one_of(&ALPHABETS);
    let size = random.between(1 + longest / 20, 1 + longest / 5);
    let gene = gene(random, size, alphabet);
    let rate = random.one_of(&[4, 10, 30, 1000]);
    let copy = |random: &mut Random| {
        let copy = near_copy(random, &gene, rate, alphabet);
        if random.once_in(2) { reverse_complement(&copy) } else { copy }
    };
    let mut text = Vec::new();
    for _ in 0..random.between(1, 4) {
        let gap = random.below(1 + longest / 8);
        text.extend(letters(random, gap, alphabet));
        text.extend(copy(random));
    }
    text.truncate(longest);
    let read = copy(random);
    (text, read)
}

/// Letters of twice this length that are their own reverse complement but for their case. Letters outside the eight may stand on either
/// side of the middle.
pub fn palindrome(random: &mut Random, half: usize) -> Vec<u8> {
    let alphabet = random.one_of(&ALPHABETS);
    let half = letters(random, half, alphabet);
    [half.as_slice(), &reverse_complement(&half)].concat()
}

/// A text in which a repeat stands alone some times and within each copy of a gene, and a read of such a copy, which crosses the repeat;
/// now and then the read is of the repeat alone.
pub fn through_a_repeat(random: &mut Random, longest: usize) -> (Vec<u8>, Vec<u8>) {
    let alphabet = random.one_of(&ALPHABETS);
    let part = |random: &mut Random| {
        let size = random.between(1 + longest / 40, 1 + longest / 12);
        letters(random, size, alphabet)
    };
    let (repeat, left, right) = (part(random), part(random), part(random));
    let gene = [left.as_slice(), &repeat.repeat(random.between(1, 2)), &right].concat();
    let rate = random.one_of(&[10, 30, 1000]);
    let mut text = Vec::new();
    for _ in 0..random.between(1, 8) {
        text.extend(part(random));
        let piece = if random.once_in(3) { &gene } else { &repeat };
        text.extend(near_copy(random, piece, rate, alphabet));
    }
    text.truncate(longest);
    let read = if random.once_in(8) { &repeat } else { &gene };
    (text, near_copy(random, read, rate, alphabet))
}

/// A k and w that mostly suit a text of this length.
fn measures(random: &mut Random, longest: usize) -> (u32, u32) {
    let k = if random.once_in(9) { random.between(1, 15) } else { random.between(1, (longest / 20).clamp(1, 7)) };
    let w = if random.once_in(9) { random.between(1, 64) } else { random.between(1, (longest / 12).clamp(1, 6)) };
    (k as u32, w as u32)
}

/// The limits of occurrences that a case draws from.
const LIMITS: [u32; 9] = [1, 2, 3, 5, 100, 100, 1000, 65_535, 65_535];

/// Settings that are mostly accepted, for a text of this length. The threshold is one of a few that stand out.
pub fn settings(random: &mut Random, longest: usize) -> Settings {
    let (u, v) = match random.below(10) {
        0 => (random.between(1, 1000) as u32, random.between(1, 1000) as u32),
        1 => (random.between(0, 1) as u32 * 1000, random.between(1000, 1001) as u32),
        _ => random.one_of(&[(1, 1), (1, 1), (2, 1), (1, 2), (3, 1), (1, 5), (7, 1), (1000, 1000), (1, 1000), (1000, 1)]),
    };
    let (k, w) = measures(random, longest);
    let c = random.one_of(&LIMITS);
    let threshold = random.one_of(&[i32::MIN, -1000, -30, -10, -3, -1, 0, 1, 2, 3, 6, 10, 30, 1000, i32::MAX]);
    Settings { k, w, c, scoring: Scoring::Linear { u, v, threshold } }
}

/// The same weights with a threshold that is so much above a linear score.
pub fn threshold_near(scoring: Scoring, score: Score, above: i32) -> Scoring {
    let Scoring::Linear { u, v, .. } = scoring else { panic!("a linear score, and not {scoring:?}") };
    Scoring::Linear { u, v, threshold: score.number() as i32 + above }
}

/// A threshold under Jaccard that is mostly accepted: one of a few that stand out, or any.
pub fn fraction(random: &mut Random) -> Scoring {
    let (f, g) = match random.below(10) {
        0 => random.one_of(&[
            (0, 0),
            (1, 0),
            (2, 1),
            (1000, 999),
            (0, 1001),
            (1, 1001),
            (1001, 1001),
            (u32::MAX, 1),
            (1, u32::MAX),
        ]),
        1..4 => {
            let g = random.between(1, 1000);
            (random.below(g + 1) as u32, g as u32)
        }
        _ => random.one_of(&[
            (0, 1),
            (0, 1000),
            (1, 1000),
            (1, 100),
            (1, 20),
            (1, 5),
            (1, 3),
            (2, 4),
            (2, 3),
            (999, 1000),
            (1, 1),
            (1000, 1000),
        ]),
    };
    Scoring::Jaccard { f, g }
}

/// Settings under Jaccard that are mostly accepted, for a text of this length.
pub fn jaccard_settings(random: &mut Random, longest: usize) -> Settings {
    let scoring = fraction(random);
    let (k, w) = measures(random, longest);
    Settings { k, w, c: random.one_of(&LIMITS), scoring }
}

/// A threshold at a score under Jaccard or beside it: the same fraction as it is or in other numbers, or one whose divisor is a little
/// smaller or greater. Any fraction where its numbers would be too great.
pub fn fraction_near(random: &mut Random, score: Score) -> Scoring {
    let Score::Fraction { m, divisor } = score else { panic!("a score under Jaccard: {score:?}") };
    let (f, g) = match random.below(6) {
        0 => (2 * m, 2 * divisor),
        1 => (m, divisor + 1),
        2 => (m, divisor - 1),
        3 => (m + 1, divisor),
        _ => (m, divisor),
    };
    if f <= g && (1..=1_000).contains(&g) { Scoring::Jaccard { f, g } } else { fraction(random) }
}

/// The first line of these settings, with its line feed.
pub fn first_line(s: &Settings) -> Vec<u8> {
    let scoring = match s.scoring {
        Scoring::Linear { u, v, threshold } => format!("{u} {v} {threshold}"),
        Scoring::Jaccard { f, g } => format!("{f} {g} jaccard"),
    };
    format!("{} {} {} {scoring}\n", s.k, s.w, s.c).into_bytes()
}

/// The three lines.
pub fn three_lines(settings: &Settings, text: &[u8], read: &[u8]) -> Vec<u8> {
    [&first_line(settings), text, b"\n", read, b"\n"].concat()
}
