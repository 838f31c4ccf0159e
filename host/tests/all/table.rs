//! The nine cases of document 01's table, by the reference.

use host::reference::definition1::{Mapping, finals_by_definition};
use host::reference::score::{Score, Scoring, Task};
use host::reference::sketch::{codes, positions, sketch};
use host::reference::start::WORK_WORDS;
use host::reference::steps::{Answer, Step, answers};
use host::reference::store::save;
use host::reference::strike::{strike, strike_read};

/// The task of text and read letters with k 1, w 1, c 100 and u = v = 1.
fn task(text: &[u8], read: &[u8], threshold: i32) -> Task {
    let (text, read) = (sketch(text, 1, 1), sketch(read, 1, 1));
    let pattern = codes(&strike_read(&codes(&text), &read, 100));
    Task { text: codes(&strike(&text, 100)), pattern, scoring: Scoring::Linear { u: 1, v: 1, threshold } }
}

/// The ends and scores of the final mappings.
fn listed(task: &Task) -> Vec<(usize, usize, i64)> {
    finals_by_definition(task).iter().map(|mapping| (mapping.a, mapping.b, mapping.score.number())).collect()
}

fn answers_of(task: &Task, budgets: &[u32]) -> Vec<Answer> {
    let steps: Vec<Step> = budgets.iter().map(|&budget| Step { budget, lent: WORK_WORDS }).collect();
    answers(task, &steps).0
}

#[test]
fn sketches() {
    assert_eq!(positions(&sketch(b"AAAT", 1, 2)), [1, 2]);
    assert_eq!(positions(&sketch(b"GTC", 1, 2)), [1]);
    assert_eq!(positions(&sketch(b"CNA", 1, 2)), [0, 2]);
    assert_eq!(codes(&sketch(b"ACG", 3, 1)), [6]);
    assert_eq!(codes(&sketch(b"", 3, 1)), []);
}

#[test]
fn store() {
    let entries = sketch(b"AAAT", 1, 2);
    let words = save(1, 2, &codes(&entries), &positions(&entries), 6).expect("room for six words");
    assert_eq!(words, [0x00000041, 0x40000000, 0x80000001, 0x40000000, 0x80000002, 0xC0000002]);
}

#[test]
fn mappings() {
    assert_eq!(listed(&task(b"ATTC", b"AC", 0)), [(0, 3, 0), (3, 3, 0), (0, 0, 0)]);
    assert_eq!(listed(&task(b"ACAG", b"ACG", 1)), [(1, 3, 3)]);
    // 003's Figure 1, as codes of k 2
    let scoring = Scoring::Linear { u: 1, v: 1, threshold: 1 };
    let figure1 = Task { text: vec![1, 1, 4, 12, 4, 8, 6, 1, 10], pattern: vec![1, 6, 8, 1], scoring };
    assert_eq!(listed(&figure1), [(1, 7, 1), (5, 7, 2), (0, 6, 1)]);
}

#[test]
fn steps() {
    let found = Answer::Found(Mapping { a: 1, b: 3, score: Score::Number(3), m: 3 }, 1);
    let expected = [Answer::Spent(0), Answer::Spent(1), found, Answer::Finished(8)];
    assert_eq!(answers_of(&task(b"ACAG", b"ACG", 1), &[0, 1, 5, 8]), expected);
    assert_eq!(answers_of(&task(b"", b"A", 0), &[0]), [Answer::Finished(0)]);
}
