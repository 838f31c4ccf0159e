//! The proved functions beside the vectors in data/vectors: each answer as the vector has it, and every word and byte of the lent
//! buffers beside the reference.
//! Assumes that the folder stands at its place in the repository.

use host::calls::{self, Loaded, Stepped};
use host::held::{self, Difference};
use host::random::Random;
use host::reference::list::list_of;
use host::reference::refusal::{Refusal, refused_with};
use host::reference::score::{Scoring, Task};
use host::reference::sketch::Entry;
use host::reference::start::WORK_WORDS;
use host::reference::steps::Step;

use crate::on_small_stack;
use crate::vector_files::{
    Vector, complemented, complements, entries, judged_words, lines, sessions, sketch_of, started, store, strikes, struck,
    written,
};

/// The first n entries of two buffers.
fn first(codes: &[u32], positions: &[u32], n: usize) -> Vec<Entry> {
    let pairs = codes.iter().zip(positions).take(n);
    pairs.map(|(&code, &position)| Entry { code, position }).collect()
}

/// The first n entries of two buffers, as the vectors write them.
fn shown(codes: &[u32], positions: &[u32], n: usize) -> String {
    entries(&first(codes, positions, n))
}

/// What was held. Panics where something differs.
fn same<T>(held: Result<T, Difference>, line: &[String]) -> T {
    held.unwrap_or_else(|wrong| panic!("{wrong}: {line:?}"))
}

#[test]
fn reverse_complements() {
    let mut random = Random::new(2950);
    for (read, room, expected) in complements() {
        let mut out = vec![7; room];
        let answer = calls::reverse_complement(&read, &mut out);
        assert_eq!(complemented(&answer.map(|n| out[..n].to_vec())), expected, "{read:?}, room {room}");
        for room in [room, read.len(), read.len() + 9, read.len().saturating_sub(1)] {
            let held = held::complement::reverse_complement(&mut random, &read, room);
            let needed = if room < read.len() { Err(refused_with(4, read.len())) } else { Ok(read.len()) };
            assert_eq!(held, Ok(needed), "{read:?}, room {room}");
        }
    }
}

#[test]
fn sketches() {
    let mut random = Random::new(3000);
    for line in lines("sketch.tsv", 200) {
        let (k, w, letters, expected) = sketch_of(&line);
        let (mut codes, mut positions) = (vec![7; letters.len()], vec![9; letters.len()]);
        let n = calls::sketch(&letters, k, w, &mut codes, &mut positions).expect("an accepted sketch");
        assert_eq!(shown(&codes, &positions, n), expected, "{line:?}");
        for rooms in [(n, n), (n + 3, n), (letters.len() + 2, letters.len())] {
            assert_eq!(same(held::sketch::sketch(&mut random, &letters, k, w, rooms), &line), Ok(n));
        }
        for rooms in [(n.wrapping_sub(1), n), (n, n.wrapping_sub(1))] {
            if n > 0 {
                assert_eq!(same(held::sketch::sketch(&mut random, &letters, k, w, rooms), &line), Err(refused_with(4, n)));
            }
        }
    }
}

#[test]
fn strikes_of_text_and_read() {
    on_small_stack(|| {
        let mut random = Random::new(3050);
        for (at, vector) in strikes().into_iter().enumerate() {
            let (codes, positions, c, rooms) = (&vector.codes, &vector.positions, vector.c, vector.rooms);
            let (mut codes_out, mut positions_out) = (vec![7; rooms.0], vec![9; rooms.1]);
            let (answer, held) = match &vector.text {
                Some(text) => (
                    calls::strike_read(text, codes, positions, c, &mut codes_out, &mut positions_out),
                    held::strike::strike_read(&mut random, text, codes, positions, c, rooms),
                ),
                None => (
                    calls::strike(codes, positions, c, &mut codes_out, &mut positions_out),
                    held::strike::strike(&mut random, codes, positions, c, rooms),
                ),
            };
            let given = struck(&answer.map(|n| first(&codes_out, &positions_out, n)));
            assert_eq!(given, vector.expected, "strike {at}, c {c}, rooms {rooms:?}");
            assert_eq!(held, Ok(answer), "strike {at}, c {c}, rooms {rooms:?}");
        }
    });
}

#[test]
fn stores() {
    let mut random = Random::new(3100);
    for line in lines("store.tsv", 200) {
        let (words, room, expected) = store(&line);
        let (mut codes, mut positions) = (vec![7; room], vec![9; room]);
        let answer = match calls::load(&words, &mut codes, &mut positions) {
            Ok(Loaded { k, w, entries }) => format!("loaded {k} {w} {}", shown(&codes, &positions, entries)),
            Err(Refusal { number, value }) => format!("refused {number} {}", value.expect("a second value")),
        };
        assert_eq!(answer.trim_end(), expected, "{line:?}");
        for rooms in [(room, room), (room, room + 1), (room + 8, room)] {
            let accepted = same(held::store::load(&mut random, &words, rooms), &line).is_ok();
            assert_eq!(accepted, expected.starts_with("loaded"), "{line:?}");
        }
        // what was loaded is saved as the same words
        if let Ok(Loaded { k, w, entries: n }) = calls::load(&words, &mut codes, &mut positions) {
            let mut saved = vec![5; words.len() + 1];
            assert_eq!(calls::save(&codes[..n], &positions[..n], k, w, &mut saved), Ok(words.len()), "{line:?}");
            assert_eq!((&saved[..words.len()], saved[words.len()]), (&words[..], 5), "{line:?}");
        }
    }
}

/// A step's answer as the vectors write it.
fn answered(work: &mut [u32], step: Step) -> String {
    match calls::step(&mut work[..step.lent], step.budget) {
        Stepped::Found { a, b, score, m, cells } => format!("found,{a},{b},{score},{m},{cells}"),
        Stepped::FoundJaccard { a, b, m, divisor, cells } => format!("found,{a},{b},{m},{divisor},{cells}"),
        Stepped::Finished(cells) => format!("finished,{cells}"),
        Stepped::Spent(cells) => format!("spent,{cells}"),
        Stepped::Refused(number) => format!("refused,{number}"),
    }
}

/// The start of the task's score.
fn start(task: &Task, work: &mut [u32]) -> Result<usize, Refusal> {
    match task.scoring {
        Scoring::Linear { u, v, threshold } => calls::start(&task.text, &task.pattern, u, v, threshold, work),
        Scoring::Jaccard { f, g } => calls::start_jaccard(&task.text, &task.pattern, f, g, work),
    }
}

/// Holds a session to the reference, as many words being lent as can be where start is accepted.
fn hold_session(random: &mut Random, at: usize, Vector { task, lent, steps, expected, .. }: &Vector) {
    let held = |lent: usize, random: &mut Random| {
        let held = held::session::start(random, task, lent, list_of);
        held.unwrap_or_else(|wrong| panic!("{wrong}: session {at}"))
    };
    if held(*lent, random).is_ok() {
        let mut session = held(20_000, random).expect("an accepted start");
        for (&step, expected) in steps.iter().zip(expected) {
            let answer = session.step(step).unwrap_or_else(|wrong| panic!("{wrong}: session {at}"));
            assert_eq!(&written(&answer), expected, "session {at}");
        }
    }
}

#[test]
fn sessions_of_both_scores() {
    on_small_stack(|| {
        let mut random = Random::new(3200);
        for (at, vector) in sessions().into_iter().enumerate() {
            let mut work = vec![3; 20_000];
            let answer = start(&vector.task, &mut work[..vector.lent]);
            assert_eq!(started(&answer), vector.started, "session {at}");
            if answer.is_ok() {
                let answers: Vec<String> = vector.steps.iter().map(|&step| answered(&mut work, step)).collect();
                assert_eq!(answers, vector.expected, "session {at}");
            }
            hold_session(&mut random, at, &vector);
        }
    });
}

/// The words behind the first five are zeros.
#[test]
fn words_that_step_refuses() {
    on_small_stack(|| {
        for (words, refused) in judged_words() {
            for budget in [0, 1, 1_000] {
                let mut work = vec![0; WORK_WORDS];
                work[..5].copy_from_slice(&words);
                let before = work.clone();
                let answer = calls::step(&mut work, budget);
                assert_eq!(answer == Stepped::Refused(15), refused, "{words:?}: {answer:?}");
                assert!(refused || !matches!(answer, Stepped::Refused(_)), "{words:?}: {answer:?}");
                assert!(!refused || work == before, "{words:?}");
            }
        }
    });
}
