//! Start and step beside the reference's rule, and their work words beside the reference's.

use bench::plain::work::WORK_WORDS;
use bench::signatures::Step as StepOf;
use host::calls::Stepped;
use host::random::Random;
use host::reference::score::{Scoring, Task};
use host::reference::start::start_call;
use host::reference::steps::{Answer, Step, answers, refused_words};
use host::reference::work_words::WorkWords;

use crate::on_small_stack;
use crate::tested::{Tested, as_reference, sessions};

fn linear(random: &mut Random) -> Scoring {
    let (u, v) = random.one_of(&[(1, 1), (2, 1), (1, 3), (1000, 1), (1, 1000), (1000, 1000)]);
    let threshold = random.one_of(&[i32::MIN, -5000, -100, -20, -5, 0, 1, 5, i32::MAX]);
    Scoring::Linear { u, v, threshold }
}

fn jaccard(random: &mut Random) -> Scoring {
    let (f, g) = random.one_of(&[(0, 1), (0, 1000), (1, 1000), (1, 50), (1, 10), (1, 5), (1, 3), (2, 4), (3, 4), (1, 1)]);
    Scoring::Jaccard { f, g }
}

fn task(random: &mut Random, scoring: fn(&mut Random) -> Scoring) -> Task {
    let kinds = random.one_of(&[2, 4, 10, 60]);
    let (n, size) = random.one_of(&[(12, 6), (40, 12), (150, 60)]);
    let code = |random: &mut Random| (random.below(kinds) as u32).wrapping_mul(0x5555_5555);
    let text = (0..random.below(n)).map(|_| code(random)).collect();
    let pattern = (0..random.between(1, size)).map(|_| code(random)).collect();
    Task { text, pattern, scoring: scoring(random) }
}

fn list(random: &mut Random) -> Vec<Step> {
    let greatest = random.one_of(&[2, 10, 1000]);
    let step = |random: &mut Random| Step {
        budget: if random.once_in(9) { u32::MAX } else { random.below(greatest) as u32 },
        lent: if random.once_in(9) { WORK_WORDS - 1 } else { WORK_WORDS + random.below(2) },
    };
    (0..random.below(60)).map(|_| step(random)).collect()
}

/// The answers of a list of steps. A refused step changes nothing.
fn given(step: StepOf, work: &mut [u32], list: &[Step]) -> Vec<Answer> {
    let one = |s: &Step| {
        let before = work.to_vec();
        let answer = as_reference(step(&mut work[..s.lent], s.budget));
        assert!(!matches!(answer, Answer::Refused(_)) || before == work);
        answer
    };
    list.iter().map(one).collect()
}

/// Holds lists of steps of tasks that score so.
fn hold_lists(seeds: std::ops::Range<u64>, scoring: fn(&mut Random) -> Scoring) {
    on_small_stack(move || {
        for seed in seeds {
            let mut random = Random::new(seed);
            let (task, list) = (task(&mut random, scoring), list(&mut random));
            let h = start_call(&task, WORK_WORDS).expect("a task that start accepts");
            let (expected, q) = answers(&task, &list);
            let before = vec![0xaaaa_aaaa; WORK_WORDS + 1];
            let mut words = WorkWords::new(&task, &before);
            let (fresh, after) = (words.after(0).to_vec(), words.after(q).to_vec());
            let case = format!("seed {seed}: {task:?}");
            for session in sessions(task.scoring) {
                let Tested { name, step, .. } = session;
                let mut work = session.start(&case, &task, &before, h, &fresh);
                // a session that is copied halfway goes on from there
                let half = list.len() / 2;
                let mut answers = given(step, &mut work, &list[..half]);
                let mut copy = work.clone();
                answers.extend(given(step, &mut work, &list[half..]));
                assert_eq!(answers, expected, "{name}, {case}");
                assert_eq!(given(step, &mut copy, &list[half..]), expected[half..], "{name}, {case}");
                session.hold_words(&case, &work, &after);
                assert_eq!(work[WORK_WORDS], 0xaaaa_aaaa);
            }
        }
    });
}

#[test]
fn lists_of_steps() {
    hold_lists(0..3000, linear);
}

#[test]
fn lists_of_steps_under_jaccard() {
    hold_lists(3000..6000, jaccard);
}

#[test]
fn refusals_of_start() {
    on_small_stack(|| {
        let long = vec![3; 70_000];
        let linear = |u, v| Scoring::Linear { u, v, threshold: 0 };
        let jaccard = |f, g| Scoring::Jaccard { f, g };
        let cases = [
            (9, 9, linear(0, 1), 0, 7),
            (9, 9, linear(1, 1001), 0, 7),
            (65_536, 0, jaccard(0, 0), 0, 17),
            (9, 9, jaccard(2, 1), 0, 17),
            (9, 9, jaccard(1001, 1001), 0, 17),
        ];
        let behind = [(65_536, 0, 0, 8), (9, 0, 0, 9), (9, 4097, 0, 9), (9, 9, 16_383, 10), (2049, 9, 16_384, 11)];
        let both = [linear(1, 1), linear(1000, 1000), jaccard(0, 1), jaccard(1000, 1000)];
        let behind = behind.map(|(text, pattern, lent, number)| both.map(|scoring| (text, pattern, scoring, lent, number)));
        for (text, pattern, scoring, lent, number) in cases.into_iter().chain(behind.into_iter().flatten()) {
            let task = Task { text: long[..text].to_vec(), pattern: long[..pattern].to_vec(), scoring };
            assert_eq!(start_call(&task, lent).expect_err("a refusal").number as i32, number);
            for Tested { name, start, .. } in sessions(scoring) {
                let mut work = vec![5; lent];
                assert_eq!(start(&task.text, &task.pattern, scoring, &mut work), -number, "{name}");
                assert!(work.iter().all(|&word| word == 5), "{name}");
            }
        }
    });
}

#[test]
fn refusals_of_step() {
    on_small_stack(|| {
        let linear = [
            [2049, 1, 1, 0, 0],
            [5, 0, 1, 0, 0],
            [5, 1, 0, 0, 0],
            [5, 1001, 1, 0, 0],
            [5, 1, 1001, 0, 0],
            [5, 1, 1, 16, 0],
            [u32::MAX; 5],
        ];
        let jaccard =
            [[2049, 0, 1, 0, 1], [5, 0, 0, 0, 1], [5, 2, 1, 0, 1], [5, 1, 1001, 0, 1], [5, 0, 1, 16, 1], [5, 1, 1, 0, 2]];
        for words in linear.into_iter().chain(jaccard) {
            assert!(refused_words(words), "{words:?}");
            let mut work = vec![0; WORK_WORDS];
            work[..5].copy_from_slice(&words);
            let before = work.clone();
            for Tested { name, step, .. } in sessions(Scoring::Linear { u: 1, v: 1, threshold: 0 }) {
                assert_eq!(step(&mut work, 1), Stepped::Refused(15), "{name}");
                assert_eq!(step(&mut work[..WORK_WORDS - 1], 1), Stepped::Refused(10), "{name}");
                assert_eq!(work, before, "{name}");
            }
        }
    });
}
