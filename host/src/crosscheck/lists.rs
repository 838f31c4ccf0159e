//! Tasks from letters to the list: sketch of text and read, strike of both, start and steps, beside all intervals of Definition 1.

use std::ops::Range;

use super::numbers::Least;
use super::tally::{Met, Tally};
use super::tasks::{Kind, hold_task, thresholded, weights};
use crate::calls;
use crate::cases::{cluster, letters};
use crate::held::{Difference, Held, agree};
use crate::random::Random;
use crate::reference::refusal::Refusal;
use crate::reference::score::Task;
use crate::reference::sketch::{Entry, codes, positions, sketch_call};
use crate::reference::strike::{strike_call, strike_read_call};

const CASES: u64 = 25_000;
const JACCARD_CASES: u64 = 12_000;
const LEAST: Least = Least { lists: 19_900, medium: 8_500, mappings: 75_000 };
const JACCARD_LEAST: Least = Least { lists: 9_000, medium: 3_900, mappings: 48_000 };

/// The fewest and the most entries that a random text is to have, and the most of its read. Half of the texts are to have 9 to 24.
const LENGTHS: [(usize, usize, usize); 4] = [(0, 8, 5), (9, 24, 8), (9, 24, 16), (25, 50, 20)];

/// What a task is made of, before its sketches.
pub struct Made {
    pub text: Vec<u8>,
    pub read: Vec<u8>,
    pub k: u32,
    pub w: u32,
    pub c: u32,
    pub weights: (u32, u32),
}

/// Text and read, random or a cluster, with about so many letters that they have the entries wanted.
fn letters_for(random: &mut Random, k: u32, w: u32) -> (Vec<u8>, Vec<u8>) {
    let (k, w) = (k.clamp(1, 15) as usize, w.clamp(1, 64) as usize);
    if random.once_in(2) {
        return cluster(random, 20 * (w + 1));
    }
    // about two k-mers of w + 1 are picked
    let wanted = |entries: usize| entries * (w + 1) / 2 + k - 1;
    let alphabet = random.one_of(&[b"A".as_slice(), b"AC", b"AC", b"ACG", b"ACGT", b"ACacN", b"ACGTacgtN"]);
    let (fewest, most, most_of_read) = random.one_of(&LENGTHS);
    let (text, read) = (wanted(random.between(fewest, most)), wanted(random.between(1, most_of_read)));
    (letters(random, text, alphabet), letters(random, read, alphabet))
}

/// Text and read that `letters` makes for a k and a w. Few letters and small k make few codes and many repeats.
pub fn made(random: &mut Random, letters: impl FnOnce(&mut Random, u32, u32) -> (Vec<u8>, Vec<u8>)) -> Made {
    let k = if random.once_in(10) { random.between(0, 16) } else { random.between(1, 3) } as u32;
    let w = if random.once_in(10) { random.between(0, 65) } else { random.between(1, 4) } as u32;
    let c = match random.below(20) {
        0 => random.one_of(&[0, 65_536]),
        1..10 => random.between(1, 12) as u32,
        _ => random.one_of(&[100, 65_535]),
    };
    let (text, read) = letters(random, k, w);
    Made { text, read, k, w, c, weights: weights(random) }
}

/// Codes and positions.
type Sketch = (Vec<u32>, Vec<u32>);

/// The codes of a text and of a pattern, and how many the read lost.
pub type Codes = (Vec<u32>, Vec<u32>, usize);

/// How many tasks there were whose read lost entries, but not all of them, and whose read lost all.
#[derive(Default)]
struct Struck {
    some: usize,
    all: usize,
}

/// Asks that what a proved call answered and wrote are the expected entries, and gives what it wrote.
fn agreed(
    call: &'static str,
    given: Result<usize, Refusal>,
    (mut codes_out, mut positions_out): Sketch,
    expected: Result<Vec<Entry>, Refusal>,
) -> Held<Sketch> {
    agree(call, given, expected.as_ref().map(Vec::len).map_err(|&refusal| refusal))?;
    let Ok(entries) = expected else {
        return Ok(Err(expected.expect_err("a refusal")));
    };
    codes_out.truncate(entries.len());
    positions_out.truncate(entries.len());
    agree(call, (&codes_out, &positions_out), (&codes(&entries), &positions(&entries)))?;
    Ok(Ok((codes_out, positions_out)))
}

fn proved_sketch(letters: &[u8], k: u32, w: u32) -> Held<Sketch> {
    let room = letters.len();
    let (mut codes_out, mut positions_out) = (vec![0; room], vec![0; room]);
    let given = calls::sketch(letters, k, w, &mut codes_out, &mut positions_out);
    agreed("sketch", given, (codes_out, positions_out), sketch_call(letters, k, w, room, room))
}

fn proved_strike((codes, positions): &Sketch, c: u32) -> Held<Sketch> {
    let room = codes.len();
    let (mut codes_out, mut positions_out) = (vec![0; room], vec![0; room]);
    let given = calls::strike(codes, positions, c, &mut codes_out, &mut positions_out);
    agreed("strike", given, (codes_out, positions_out), strike_call(codes, positions, c, room, room))
}

/// By the text's codes before they are struck.
fn proved_strike_read(text: &Sketch, (codes, positions): &Sketch, c: u32) -> Held<Sketch> {
    let room = codes.len();
    let (mut codes_out, mut positions_out) = (vec![0; room], vec![0; room]);
    let given = calls::strike_read(&text.0, codes, positions, c, &mut codes_out, &mut positions_out);
    let expected = strike_read_call(&text.0, codes, positions, c, room, room);
    agreed("strike of the read", given, (codes_out, positions_out), expected)
}

/// The codes of struck text and read, by the proved functions, each held to the reference; none where a call is refused.
pub fn proved_codes(made: &Made, met: &mut Met) -> Result<Option<Codes>, Difference> {
    let mut accepted = |call: &'static str, held: Held<Sketch>| -> Result<Option<Sketch>, Difference> {
        Ok(held?.map_err(|refusal| met.no_list(call, refusal)).ok())
    };
    let Some(text) = accepted("sketch", proved_sketch(&made.text, made.k, made.w))? else { return Ok(None) };
    let Some(read) = accepted("sketch", proved_sketch(&made.read, made.k, made.w))? else { return Ok(None) };
    let Some(struck) = accepted("strike", proved_strike(&text, made.c))? else { return Ok(None) };
    let Some(rest) = accepted("strike of the read", proved_strike_read(&text, &read, made.c))? else { return Ok(None) };
    let lost = read.0.len() - rest.0.len();
    Ok(Some((struck.0, rest.0, lost)))
}

fn hold(random: &mut Random, kind: Kind, met: &mut Met, struck: &mut Struck) -> Result<(), Difference> {
    let made = made(random, letters_for);
    let Some((text, pattern, lost)) = proved_codes(&made, met)? else {
        return Ok(());
    };
    struck.some += usize::from(lost > 0 && !pattern.is_empty());
    struck.all += usize::from(lost > 0 && pattern.is_empty());
    let task = Task { text, pattern, scoring: kind.scoring(made.weights) };
    let task = Task { scoring: thresholded(random, &task), ..task };
    hold_task(random, &task, met)
}

fn hold_all(tally: &mut Tally, seeds: Range<u64>, kind: Kind) -> Struck {
    let mut struck = Struck::default();
    for seed in seeds {
        tally.compare(|| format!("seed {seed}"), |met| hold(&mut Random::new(seed), kind, met, &mut struck));
    }
    struck
}

pub fn random(tally: &mut Tally) {
    let struck = hold_all(tally, 0..CASES, Kind::Linear);
    tally.ask("tasks whose read lost some entries", struck.some, 2_000);
    tally.ask("tasks whose read lost all entries", struck.all, 2_700);
    tally.end_lists("lists from letters, by sketch, strike of text and read, start and step", &LEAST);
    let struck = hold_all(tally, 500_000..500_000 + JACCARD_CASES, Kind::Jaccard);
    tally.ask("tasks under Jaccard whose read lost some entries", struck.some, 950);
    tally.end_lists("lists from letters under Jaccard, by sketch, strike of text and read, start and step", &JACCARD_LEAST);
}
