//! The strike of the read: random words, words that are hard to count, refusals that meet, and the limits of text, read, c and buffers.

use super::strikes::{LIMITS, limit, places, rooms};
use super::tally::Tally;
use crate::held::strike::strike_read;
use crate::random::Random;
use crate::reference::sketch::Entry;
use crate::reference::strike::{MAX_TEXT, strike_read as struck};
use crate::words::{arranged, drawn, in_slot, kinds, slot_mate, texts};

const NAME: &str = "strike of the read";
const CASES: u64 = 12_000;

/// The lengths of random texts and reads are below one of these.
const LONGEST: [usize; 6] = [1, 5, 40, 40, 600, 600];

/// How many codes of the read stay.
fn kept(text: &[u32], codes: &[u32], c: u32) -> usize {
    let entries: Vec<Entry> = codes.iter().map(|&code| Entry { code, position: 0 }).collect();
    struck(text, &entries, c).len()
}

/// A word of a read: mostly one of the text's kinds, else one that the text may lack, in the slot of one of them or anywhere.
fn word(random: &mut Random, kinds: &[u32]) -> u32 {
    let kind = random.one_of(kinds);
    match random.below(6) {
        0 => slot_mate(random, kind),
        1 => random.word() as u32,
        _ => kind,
    }
}

pub fn random(tally: &mut Tally) {
    let mut mixed = 0;
    for seed in 360_000..360_000 + CASES {
        let mut random = Random::new(seed);
        let kinds = kinds(&mut random);
        let (text_longest, longest) = (random.one_of(&LONGEST), random.one_of(&LONGEST));
        let (text_n, n) = (random.below(text_longest), random.below(longest));
        let text = drawn(&mut random, &kinds, text_n);
        let text = arranged(&mut random, text);
        let codes = (0..n).map(|_| word(&mut random, &kinds)).collect();
        let codes = arranged(&mut random, codes);
        let positions = places(&mut random, n);
        let c = limit(&mut random, &text);
        let rest = kept(&text, &codes, c);
        let rooms = rooms(&mut random, rest, n);
        let held = strike_read(&mut random, &text, &codes, &positions, c, rooms);
        mixed += usize::from(matches!(held, Ok(Ok(1..))) && rest < n);
        tally.call(NAME, || format!("seed {seed}"), held);
    }
    tally.ask("strikes of a read that kept some entries and dropped some", mixed, 2_050);
    tally.end_part("strikes of random reads by random texts: few kinds, one slot, in order, nearly in order");
}

/// All that is refused, alone and together with the rest: 5, 8, 6 and 4, of which the first that holds is answered.
fn refusals(tally: &mut Tally, random: &mut Random) {
    let text = vec![7; MAX_TEXT + 2];
    for text in [&text[..0], &text[..3], &text[..MAX_TEXT], &text[..MAX_TEXT + 1], &text] {
        for (codes, positions) in [(0, 0), (0, 1), (1, 0), (4, 4), (4, 3), (3, 4), (4, 9)] {
            for c in LIMITS {
                for rooms in [(4, 4), (3, 4), (4, 3), (0, 4), (4, 0), (0, 0), (2, 2), (2, 1), (9, 9)] {
                    let held = strike_read(random, text, &[7, 8, 7, 9][..codes], &vec![5; positions], c, rooms);
                    let case = || format!("text {}, read {codes} and {positions}, c {c}, rooms {rooms:?}", text.len());
                    tally.call(NAME, case, held);
                }
            }
        }
    }
    tally.end_part("strike of the read: every refusal together with the others; text of 65,535 and 65,536 entries");
}

/// Texts of all kinds and lengths, by which a read of some of their words and of others is struck.
fn long_texts(tally: &mut Tally, random: &mut Random) {
    for (name, text) in texts() {
        let mut codes: Vec<u32> = (0..400).map(|_| word(random, &text)).collect();
        codes.extend([0, u32::MAX, text[0], text[1], text[MAX_TEXT - 2], text[MAX_TEXT - 1], text[MAX_TEXT]]);
        let positions = codes.clone();
        for n in [0, 1, MAX_TEXT, MAX_TEXT + 1] {
            for c in LIMITS {
                let rest = kept(&text[..n], &codes, c);
                let short = rest.saturating_sub(1);
                for rooms in [(rest, rest), (short, rest), (rest, short), (codes.len(), codes.len() + 2)] {
                    let held = strike_read(random, &text[..n], &codes, &positions, c, rooms);
                    tally.call(NAME, || format!("text {n}, {name}, c {c}, rooms {rooms:?}"), held);
                }
            }
        }
    }
    tally.end_part("strike of the read: texts of 65,535 and 65,536 entries; c 0, 1, 65,535, 65,536; buffers one word short");
}

/// Words of one slot by their numbers: a text has those below the first 3 times each, those up to the second twice, and no others.
const TWICE_FROM: usize = 500;
const LACKED_FROM: usize = 1_000;

fn slot_word(number: usize) -> u32 {
    in_slot(30_000, number as u32)
}

fn one_slot_text() -> Vec<u32> {
    let thrice = (0..TWICE_FROM).flat_map(|number| [slot_word(number); 3]);
    thrice.chain((TWICE_FROM..LACKED_FROM).flat_map(|number| [slot_word(number); 2])).collect()
}

/// A code that this text with c = 2 keeps, whether it has it or not, or one that it strikes.
fn code(random: &mut Random, stays: bool) -> u32 {
    slot_word(if stays { random.between(TWICE_FROM, 65_535) } else { random.below(TWICE_FROM) })
}

/// Which entries of a long read stay. The proved strikes take a read in blocks of 65,535 entries, whose ends are met in the last two.
#[derive(Clone, Copy, Debug)]
enum Stays {
    All,
    None,
    Half,
    Few,
    Ends,
    ButEnds,
}

fn stays(random: &mut Random, kind: Stays, at: usize) -> bool {
    let end = [0, MAX_TEXT - 1].contains(&(at % MAX_TEXT));
    match kind {
        Stays::All => true,
        Stays::None => false,
        Stays::Half => random.once_in(2),
        Stays::Few => random.once_in(20_000),
        Stays::Ends => end,
        Stays::ButEnds => !end,
    }
}

/// Reads of more entries than a text may have, with room for all, for those that are kept, and for one fewer in either buffer.
fn long_reads(tally: &mut Tally, random: &mut Random) {
    let text = one_slot_text();
    for n in [65_534, 65_535, 65_536, 131_070, 131_071, 200_000] {
        for kind in [Stays::All, Stays::None, Stays::Half, Stays::Few, Stays::Ends, Stays::ButEnds] {
            let stay: Vec<bool> = (0..n).map(|at| stays(random, kind, at)).collect();
            let codes: Vec<u32> = stay.iter().map(|&stays| code(random, stays)).collect();
            let positions: Vec<u32> = (0..n).map(|_| random.word() as u32).collect();
            let rest = stay.iter().filter(|&&stays| stays).count();
            let short = rest.saturating_sub(1);
            for rooms in [(n, n), (rest, rest), (short, rest), (rest, short), (n, rest), (rest, n + 1), (n, short), (0, 0)] {
                let held = strike_read(random, &text, &codes, &positions, 2, rooms);
                tally.call(NAME, || format!("read of {n}, {kind:?}, rooms {rooms:?}"), held);
            }
            let held = strike_read(random, &text, &codes, &positions[1..], 2, (n, n));
            tally.call(NAME, || format!("read of {n} codes and one position fewer"), held);
        }
    }
    tally.end_part("strike of the read: reads of 65,534 to 200,000 entries; all, none and some kept; buffers one word short");
}

pub fn limits(tally: &mut Tally) {
    let mut random = Random::new(380_000);
    refusals(tally, &mut random);
    long_texts(tally, &mut random);
    long_reads(tally, &mut random);
}
