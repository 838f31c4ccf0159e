//! Strike: random words, words that are hard to count, and the limits of c, entries and buffers.

use super::tally::Tally;
use crate::held::strike::strike;
use crate::random::Random;
use crate::reference::score::times;
use crate::reference::strike::{MAX_TEXT, occurrences};
use crate::words::{arranged, drawn, kinds, texts};

const CASES: u64 = 8_000;

/// The limits that stand out, refused ones among them.
pub const LIMITS: [u32; 7] = [0, 1, 2, 65_534, 65_535, 65_536, u32::MAX];

/// A limit: how often some word occurs among these or one less, a small number, or one that stands out.
pub fn limit(random: &mut Random, words: &[u32]) -> u32 {
    match random.below(8) {
        0 => random.one_of(&LIMITS),
        1 | 2 => random.between(1, 4) as u32,
        _ if words.is_empty() => 1,
        _ => {
            let word = random.one_of(words);
            (times(word, words) - random.below(2)).max(1) as u32
        }
    }
}

/// Room for exactly the entries kept, one word short in either buffer or in both, more, or any.
pub fn rooms(random: &mut Random, kept: usize, all: usize) -> (usize, usize) {
    let short = kept.saturating_sub(1);
    match random.below(12) {
        0 => (short, kept),
        1 => (kept, short),
        2 => (short, short),
        3 => (random.below(all + 3), random.below(all + 3)),
        4 | 5 => (all, kept),
        6 | 7 => (kept, all + 1),
        8 | 9 => (all, all),
        _ => (kept, kept),
    }
}

/// Positions for so many codes; in one case of twenty one too many or too few.
pub fn places(random: &mut Random, codes: usize) -> Vec<u32> {
    let number = if random.once_in(20) { (codes + 2 * random.below(2)).saturating_sub(1) } else { codes };
    (0..number).map(|_| random.word() as u32).collect()
}

pub fn random(tally: &mut Tally) {
    let mut mixed = 0;
    for seed in 300_000..300_000 + CASES {
        let mut random = Random::new(seed);
        let longest = random.one_of(&[5, 40, 600]);
        let (kinds, n) = (kinds(&mut random), random.below(longest));
        let codes = drawn(&mut random, &kinds, n);
        let codes = arranged(&mut random, codes);
        let positions = places(&mut random, n);
        let c = limit(&mut random, &codes);
        let rest = kept(&codes, c);
        let rooms = rooms(&mut random, rest, n);
        let held = strike(&mut random, &codes, &positions, c, rooms);
        mixed += usize::from(matches!(held, Ok(Ok(1..))) && rest < n);
        tally.call("strike", || format!("seed {seed}"), held);
    }
    tally.ask("strikes that kept some entries and dropped some", mixed, 1_750);
    tally.end_part("strikes of random words: few kinds, one slot, in order, nearly in order");
}

/// How many entries stay with limit c.
fn kept(codes: &[u32], c: u32) -> usize {
    occurrences(codes.iter().copied()).into_values().filter(|&times| times <= c as usize).sum()
}

pub fn limits(tally: &mut Tally) {
    let mut random = Random::new(310_000);
    let positions: Vec<u32> = (0..=MAX_TEXT).map(|_| random.word() as u32).collect();
    for (name, text) in texts() {
        for n in [0, 1, MAX_TEXT, MAX_TEXT + 1] {
            for c in LIMITS {
                let rest = kept(&text[..n], c);
                let short = rest.saturating_sub(1);
                for rooms in [(rest, rest), (short, rest), (rest, short), (n, n + 2)] {
                    let held = strike(&mut random, &text[..n], &positions[..n], c, rooms);
                    tally.call("strike", || format!("{n} entries, {name}, c {c}, rooms {rooms:?}"), held);
                }
                if n > 0 {
                    let held = strike(&mut random, &text[..n], &positions[..n - 1], c, (0, 0));
                    tally.call("strike", || format!("{n} codes and one position fewer, c {c}"), held);
                }
            }
        }
    }
    tally.end_part("strike: 65,535 and 65,536 entries; c 0, 1, 65,535, 65,536; buffers one word short");
}
