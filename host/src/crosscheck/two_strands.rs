//! Two-strand runs from letters to both lists: the reverse complement of the read by its call, and then, for each strand, sketch of
//! text and read, strike of both, start and steps, beside all intervals of Definition 1.

use std::ops::Range;

use super::lists::{Made, made, proved_codes};
use super::numbers::Least;
use super::tally::{Met, Tally};
use super::tasks::{Kind, hold_task, thresholded};
use crate::calls;
use crate::cases::{both_strands, palindrome};
use crate::held::{Difference, agree};
use crate::random::Random;
use crate::reference::complement::reverse_complement;
use crate::reference::list::list_of;
use crate::reference::score::Task;
use crate::reference::start::{WORK_WORDS, start_call};

const CASES: u64 = 10_000;
const JACCARD_CASES: u64 = 5_000;
const LEAST: Least = Least { lists: 16_000, medium: 7_500, mappings: 37_000 };
const JACCARD_LEAST: Least = Least { lists: 7_600, medium: 3_600, mappings: 21_500 };

/// How many runs there were with mappings on both strands, on one alone, with equal lists of which each has a mapping, and of which one
/// strand alone was refused.
#[derive(Default)]
struct Strands {
    both: usize,
    forward: usize,
    reverse: usize,
    equal: usize,
    one_refused: usize,
}

impl Strands {
    /// Asks that so many runs of each kind were met.
    fn ask(&self, tally: &mut Tally, score: &str, least: Strands) {
        let kinds = [
            ("with mappings on both strands", self.both, least.both),
            ("with mappings on the forward strand alone", self.forward, least.forward),
            ("with mappings on the reverse strand alone", self.reverse, least.reverse),
            ("with equal lists on both strands", self.equal, least.equal),
            ("of which one strand alone is refused", self.one_refused, least.one_refused),
        ];
        for (kind, met, least) in kinds {
            tally.ask(&format!("runs{score} {kind}"), met, least);
        }
    }
}

/// Copies of a gene on both strands and a read of one of them; in one case of eight a palindrome, as text and as read.
fn letters_for(random: &mut Random, _: u32, w: u32) -> (Vec<u8>, Vec<u8>) {
    let longest = 18 * (w.clamp(1, 64) as usize + 1);
    let (text, read) = both_strands(random, longest);
    if !random.once_in(8) {
        return (text, read);
    }
    let half = random.between(1, longest / 6);
    let palindrome = palindrome(random, half);
    (if random.once_in(2) { palindrome.clone() } else { [&text, palindrome.as_slice(), &text].concat() }, palindrome)
}

/// The reverse complement by the proved call, held to the reference.
fn complemented(read: &[u8]) -> Result<Vec<u8>, Difference> {
    let mut out = vec![0; read.len()];
    agree("reverse complement", calls::reverse_complement(read, &mut out), Ok(read.len()))?;
    agree("reverse complement", out.as_slice(), &reverse_complement(read))?;
    Ok(out)
}

/// The task of one strand's read, with a threshold that is chosen later. None where a call is refused before start.
fn task(made: &Made, kind: Kind, met: &mut Met) -> Result<Option<Task>, Difference> {
    let codes = proved_codes(made, met)?;
    Ok(codes.map(|(text, pattern, _)| Task { text, pattern, scoring: kind.scoring(made.weights) }))
}

/// Takes note of what a run has on its strands.
fn meet(strands: &mut Strands, run: &[Task; 2]) {
    match run.each_ref().map(|task| start_call(task, WORK_WORDS).is_ok()) {
        [true, true] => {}
        accepted => {
            strands.one_refused += usize::from(accepted[0] != accepted[1]);
            return;
        }
    }
    let [forward, reverse] = run.each_ref().map(list_of);
    match (forward.is_empty(), reverse.is_empty()) {
        (false, false) => strands.both += 1,
        (false, true) => strands.forward += 1,
        (true, false) => strands.reverse += 1,
        (true, true) => {}
    }
    strands.equal += usize::from(forward == reverse && !forward.is_empty());
}

fn hold(random: &mut Random, kind: Kind, met: &mut Met, strands: &mut Strands) -> Result<(), Difference> {
    let forward = made(random, letters_for);
    let reverse = Made { read: complemented(&forward.read)?, text: forward.text.clone(), ..forward };
    let (Some(forward), Some(reverse)) = (task(&forward, kind, met)?, task(&reverse, kind, met)?) else {
        return Ok(());
    };
    let judged = if random.once_in(2) { &forward } else { &reverse };
    let scoring = thresholded(random, judged);
    let run = [Task { scoring, ..forward }, Task { scoring, ..reverse }];
    for task in &run {
        hold_task(random, task, met)?;
    }
    meet(strands, &run);
    Ok(())
}

fn hold_all(tally: &mut Tally, seeds: Range<u64>, kind: Kind) -> Strands {
    let mut strands = Strands::default();
    for seed in seeds {
        tally.compare(|| format!("seed {seed}"), |met| hold(&mut Random::new(seed), kind, met, &mut strands));
    }
    strands
}

pub fn random(tally: &mut Tally) {
    let strands = hold_all(tally, 450_000..450_000 + CASES, Kind::Linear);
    let least = Strands { both: 3_600, forward: 800, reverse: 800, equal: 800, one_refused: 400 };
    strands.ask(tally, "", least);
    tally.end_lists("two-strand runs from letters, by reverse complement, sketch, strikes, start and step", &LEAST);
    let strands = hold_all(tally, 520_000..520_000 + JACCARD_CASES, Kind::Jaccard);
    let least = Strands { both: 2_300, forward: 500, reverse: 530, equal: 600, one_refused: 190 };
    strands.ask(tally, " under Jaccard", least);
    tally.end_lists(
        "two-strand runs from letters under Jaccard, by reverse complement, sketch, strikes, start and step",
        &JACCARD_LEAST,
    );
}
