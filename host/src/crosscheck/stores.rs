//! Save and load: random sketches, damaged stores, and the limits of k, w, codes, positions and buffers.

use super::tally::Tally;
use crate::cases::letters;
use crate::held::store::{load, save};
use crate::random::Random;
use crate::reference::sketch::{MAX_LETTERS, codes, positions, sketch};
use crate::reference::store::save as saved;

const CASES: u64 = 4_000;

/// The words of a random sketch.
fn store(random: &mut Random) -> Vec<u32> {
    let (k, w) = (random.between(1, 15) as u32, random.between(1, 64) as u32);
    let length = random.below(60);
    let entries = sketch(&letters(random, length, b"ACGT"), k, w);
    saved(k, w, &codes(&entries), &positions(&entries), 1_000).expect("room for the words")
}

/// Changes a few words: another word, a bit, a word too many or too few, two exchanged, an end cut off.
fn damage(random: &mut Random, words: &mut Vec<u32>) {
    for _ in 0..random.between(1, 3) {
        let (at, other) = (random.below(words.len().max(1)), random.below(words.len().max(1)));
        match random.below(6) {
            _ if words.is_empty() => words.push(random.word() as u32),
            0 => words[at] = random.word() as u32,
            1 => words[at] ^= 1 << random.below(32),
            2 => words.insert(at, words[other]),
            3 => drop(words.remove(at)),
            4 => words.truncate(at),
            _ => words.swap(at, other),
        }
    }
}

pub fn random(tally: &mut Tally) {
    for seed in 320_000..320_000 + CASES {
        let mut random = Random::new(seed);
        let mut words = store(&mut random);
        let case = || format!("seed {seed}");
        let n = words.len() / 2 - 1;
        let (k, w) = (random.below(17) as u32, random.below(66) as u32);
        let entries = words[1..words.len() - 1].chunks(2).map(|pair| (pair[0] - (1 << 30), pair[1] - (2 << 30)));
        let (mut codes, positions): (Vec<u32>, Vec<u32>) = entries.unzip();
        if random.once_in(4) && n > 0 {
            codes[random.below(n)] = random.word() as u32;
        }
        let room = if random.once_in(3) { random.below(words.len() + 3) } else { words.len() };
        tally.call("save", case, save(&mut random, &codes, &positions, k, w, room));
        let rooms = if random.once_in(3) { (random.below(n + 2), random.below(n + 2)) } else { (n, n) };
        tally.call("load", case, load(&mut random, &words, rooms));
        damage(&mut random, &mut words);
        tally.call("load", case, load(&mut random, &words, (n + 2, n + 2)));
    }
    tally.end_part("stores of random sketches, whole and damaged");
}

fn save_limits(tally: &mut Tally, random: &mut Random) {
    for k in [0, 1, 2, 15, 16, u32::MAX] {
        for w in [0, 1, 64, 65, u32::MAX] {
            let most = 4u64.checked_pow(k).map_or(u32::MAX, |power| power as u32);
            for code in [0, most.wrapping_sub(1), most, u32::MAX] {
                for (first, last) in [(0, 1), (0, 1_048_575), (0, 1_048_576), (5, 5), (6, 5), (0, u32::MAX)] {
                    for room in [5, 6, 7] {
                        let held = save(random, &[0, code], &[first, last], k, w, room);
                        tally.call(
                            "save",
                            || format!("k {k}, w {w}, code {code}, positions {first}, {last}, {room} words"),
                            held,
                        );
                    }
                }
            }
            tally.call("save", || "codes and positions differ in number".into(), save(random, &[0, 0], &[1], k, w, 9));
            tally.call("save", || "no entry".into(), save(random, &[], &[], k, w, 2));
            tally.call("save", || "no entry, no room".into(), save(random, &[], &[], k, w, 1));
        }
    }
}

fn load_limits(tally: &mut Tally, random: &mut Random) {
    let heads =
        [0, 1, 0x20, 0x21, 0x2f, 0x30, 0x821, 0x801, 0x1021, 0x2000_0021, 0x4000_0021, 0x8000_0021, 0xc000_0021, u32::MAX];
    for head in heads {
        for rest in [&[][..], &[3 << 30], &[1 << 30, 2 << 30, 3 << 30 | 1]] {
            let words = [&[head], rest].concat();
            tally.call("load", || format!("{words:x?}"), load(random, &words, (1, 1)));
        }
    }
    let good = [0x41, 1 << 30, 2 << 30 | 1, 1 << 30 | 3, 2 << 30 | 1_048_575, 3 << 30 | 2];
    for rooms in [(2, 2), (1, 2), (2, 1), (0, 0), (3, 3)] {
        tally.call("load", || format!("rooms {rooms:?}"), load(random, &good, rooms));
    }
    for end in 0..=good.len() {
        tally.call("load", || format!("the first {end} words"), load(random, &good[..end], (2, 2)));
        tally.call(
            "load",
            || format!("a word more at {end}"),
            load(random, &[&good[..end], &[0x41], &good[end..]].concat(), (2, 2)),
        );
    }
    for at in 0..good.len() {
        for word in [0, 0x41, 1 << 30, 1 << 30 | 4, 2 << 30, 2 << 30 | 1, 2 << 30 | 1_048_576, 3 << 30, 3 << 30 | 3, u32::MAX] {
            let mut words = good;
            words[at] = word;
            tally.call("load", || format!("{words:x?}"), load(random, &words, (2, 2)));
        }
    }
    tally.call("load", || "no words".into(), load(random, &[], (2, 2)));
}

/// A store with an entry at each position that there is.
fn longest(tally: &mut Tally, random: &mut Random) {
    let positions: Vec<u32> = (0..MAX_LETTERS as u32).collect();
    let codes: Vec<u32> = positions.iter().map(|position| position.wrapping_mul(2_654_435_761) % (1 << 30)).collect();
    let room = 2 * MAX_LETTERS + 2;
    let words = saved(15, 64, &codes, &positions, room).expect("room for the words");
    for room in [room, room - 1] {
        tally.call("save", || format!("{room} words"), save(random, &codes, &positions, 15, 64, room));
    }
    for rooms in [(MAX_LETTERS, MAX_LETTERS), (MAX_LETTERS - 1, MAX_LETTERS), (MAX_LETTERS, MAX_LETTERS - 1)] {
        tally.call("load", || format!("rooms {rooms:?}"), load(random, &words, rooms));
    }
}

pub fn limits(tally: &mut Tally) {
    let mut random = Random::new(330_000);
    save_limits(tally, &mut random);
    load_limits(tally, &mut random);
    longest(tally, &mut random);
    tally.end_part("stores: k, w, codes and positions at their limits; each word bad; 1,048,576 entries; buffers one word short");
}
