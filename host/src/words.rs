//! Lists of words that are hard to count: few kinds of words, words that crowd one slot of a hash, and words nearly in order.

use crate::random::Random;
use crate::reference::strike::MAX_TEXT;

/// The proved strikes count words in 65,536 slots: a word's slot is the upper half of its product with this number.
const MULTIPLIER: u32 = 2_246_822_519;

/// The number that undoes the multiplier modulo 2^32.
const INVERSE: u32 = {
    let (mut inverse, mut round) = (1u32, 0);
    // each round doubles the bits that are right, of which there is one at first
    while round < 5 {
        inverse = inverse.wrapping_mul(2u32.wrapping_sub(MULTIPLIER.wrapping_mul(inverse)));
        round += 1;
    }
    assert!(MULTIPLIER.wrapping_mul(inverse) == 1);
    inverse
};

/// The words of a slot, by numbers below 65,536: unequal ones for unequal numbers.
pub fn in_slot(slot: u32, number: u32) -> u32 {
    (slot << 16 | number).wrapping_mul(INVERSE)
}

/// A word that stands in the same slot as this one.
pub fn slot_mate(random: &mut Random, word: u32) -> u32 {
    in_slot(word.wrapping_mul(MULTIPLIER) >> 16, random.below(1 << 16) as u32)
}

/// Some words to draw a list from: few or many of all 32 bits, of one slot or of some, ends of the 32 bits, or neighbours by one bit.
pub fn kinds(random: &mut Random) -> Vec<u32> {
    let any = random.word() as u32;
    let some = random.one_of(&[1, 2, 5, 30, 300]);
    match random.below(7) {
        0 => (0..600).map(|_| random.word() as u32).collect(),
        1 => (0..some).map(|n| in_slot(any >> 16, n)).collect(),
        2 => (0..some).map(|_| in_slot(any >> 16, random.below(1 << 16) as u32)).collect(),
        3 => (0..some).map(|n| in_slot((any >> 16) + n % 3, n)).collect(),
        4 => (0..32).map(|bit| any ^ 1 << bit).collect(),
        5 => vec![0, 1, 65_535, 65_536, 1 << 30, 1 << 31, u32::MAX - 1, u32::MAX],
        _ => (0..some).map(|n| n.wrapping_mul(0x9e37_79b1) ^ any).collect(),
    }
}

/// So many words of these kinds: each kind equally often, or the first ones more often than the others.
pub fn drawn(random: &mut Random, kinds: &[u32], number: usize) -> Vec<u32> {
    let skewed = random.once_in(2);
    (0..number)
        .map(|_| {
            let below = if skewed { 1 + random.below(kinds.len()) } else { kinds.len() };
            kinds[random.below(below)]
        })
        .collect()
}

/// Leaves the words as they are, or brings them into an order: rising, falling, rising but for the first word or but for the last.
pub fn arranged(random: &mut Random, mut words: Vec<u32>) -> Vec<u32> {
    let kind = random.below(8);
    if kind < 4 {
        words.sort_unstable();
    }
    match kind {
        1 => words.reverse(),
        2 if !words.is_empty() => words.rotate_right(1),
        3 if !words.is_empty() => words.rotate_left(1),
        _ => {}
    }
    words
}

/// Texts of 65,536 entries, one more than there may be.
pub fn texts() -> Vec<(&'static str, Vec<u32>)> {
    let words = || 0..=MAX_TEXT as u32;
    let spread: Vec<u32> = words().map(|n| n.wrapping_mul(2_654_435_761)).collect();
    let repeats: Vec<u32> = words().map(|n| (n / (1 + n % 4)).wrapping_mul(0x0100_0193)).collect();
    let mut rising = repeats.clone();
    rising.sort_unstable();
    let last_first = [&rising[MAX_TEXT - 1..], &rising[..MAX_TEXT - 1]].concat();
    vec![
        ("all different", spread),
        ("all the same", vec![u32::MAX; MAX_TEXT + 1]),
        ("repeats", repeats),
        ("repeats, rising but for the first two", last_first),
        ("repeats, falling", rising.iter().rev().copied().collect()),
        ("repeats, rising", rising),
        ("all different, one slot", words().rev().map(|n| in_slot(40_503, n)).collect()),
        ("each twice, one slot", words().map(|n| in_slot(7, n / 2)).collect()),
        ("once and twice, one slot", words().map(|n| in_slot(0, n % 40_000)).collect()),
        ("one word often and others once, one slot", words().map(|n| in_slot(65_535, n * (n % 2))).collect()),
    ]
}
