//! The samples in data/sample: what data/README.md says of them, by the reference and by the program; and the script that lists them.
//! Assumes that the folder and the script stand at their places in the repository, and that the program has been built.

use std::fs;
use std::path::Path;
use std::process::{Command, Stdio};

use host::program::{expect, run_on};
use host::reference::cells::{cells, hits};
use host::reference::definition1::{Mapping, mapping_of};
use host::reference::faster::finals;
use host::reference::input::{Input, input};
use host::reference::output::{Prepared, output, prepared};
use host::reference::score::{Scoring, Task, times};
use host::reference::sketch::{codes, sketch};
use host::reference::strand::Strand;

const SAMPLES: [&str; 4] = ["two_copies", "through_a_repeat", "both_strands", "as_a_fraction"];

fn file(name: &str) -> Vec<u8> {
    fs::read(Path::new(env!("CARGO_MANIFEST_DIR")).join("../data/sample").join(name)).expect("a file of the sample")
}

fn sample(name: &str) -> Input {
    input(&file(&format!("{name}.in"))).expect("three lines")
}

/// Calls the script on a file of data/, and gives its status, its list, and whether it went as far as the proofs.
fn listed(name: &str) -> (Option<i32>, Vec<u8>, bool) {
    let root = Path::new(env!("CARGO_MANIFEST_DIR")).join("..");
    let mut script = Command::new(root.join("sample"));
    script.arg(name).current_dir(root.join("data")).stdin(Stdio::null());
    let ended = script.output().expect("the script starts");
    (ended.status.code(), ended.stdout, String::from_utf8_lossy(&ended.stderr).contains("proving"))
}

/// What an accepted sample has mapped on a strand.
fn on(strand: Strand, input: &Input) -> Prepared {
    prepared(input, strand).expect("an accepted sample")
}

/// The first letter, the last letter and the score of each mapping of a task, by the definition's faster form.
fn mapped(task: &Task, positions: &[u32], k: u32) -> Vec<(u32, u32, i64)> {
    let letters = |mapping: &Mapping| (positions[mapping.a], positions[mapping.b] + k - 1, mapping.score.number());
    finals(task).iter().map(letters).collect()
}

/// The same task with this threshold and weights 1, which the samples have.
fn with_threshold(task: Task, threshold: i32) -> Task {
    assert!(matches!(task.scoring, Scoring::Linear { u: 1, v: 1, .. }));
    Task { scoring: Scoring::Linear { u: 1, v: 1, threshold }, ..task }
}

/// How many letters of two sequences of one length differ.
fn differences(one: &[u8], other: &[u8]) -> usize {
    assert_eq!(one.len(), other.len());
    one.iter().zip(other).filter(|(a, b)| a != b).count()
}

/// Where a sequence stands in another.
fn places(text: &[u8], part: &[u8]) -> Vec<usize> {
    (0..text.len()).filter(|&at| text[at..].starts_with(part)).collect()
}

#[test]
fn printed_lists() {
    for name in SAMPLES {
        let (bytes, expected) = (file(&format!("{name}.in")), file(&format!("{name}.out")));
        assert_eq!(output(&bytes), expected, "{name}");
        expect(name, &bytes, &run_on(&bytes), &expected);
    }
}

#[test]
fn copies_of_the_gene() {
    let input = sample("two_copies");
    let copy = |start: usize| &input.text[start..start + 80];
    assert_eq!(input.text.len(), 440);
    assert_eq!([41, 184, 322].map(|start| differences(copy(start), copy(41))), [0, 1, 3]);
    assert_eq!(differences(copy(41), &input.read), 1);
    assert_eq!(places(copy(41), b"TCAAAAGGAATTACTGCTTAT").len(), 2);
}

#[test]
fn each_copy_once() {
    let input = sample("two_copies");
    let Prepared { task, positions, h, .. } = on(Strand::Forward, &input);
    assert_eq!(mapped(&task, &positions, 7), [(186, 261, 22), (43, 118, 22)]);
    assert_eq!(h * (h + 1) / 2, 4278);
    assert_eq!(cells(&task).iter().filter(|&&(a, b)| mapping_of(&task, a, b).score.number() >= 10).count(), 58);
    assert_eq!(mapped(&with_threshold(task, 1), &positions, 7)[0], (329, 399, 1));
    let reverse = on(Strand::Reverse, &input);
    assert_eq!((reverse.h, finals(&reverse.task).len()), (2, 0));
}

#[test]
fn copies_through_a_repeat() {
    let input = sample("through_a_repeat");
    let copy = |start: usize| &input.text[start..start + 110];
    assert_eq!(input.text.len(), 512);
    assert_eq!(differences(copy(78), copy(323)), 1);
    assert_eq!(differences(copy(78), &input.read), 1);
    let repeat = b"agtccgaggagagggtgcttcagagtatgt";
    assert_eq!(places(&input.text, repeat), [25, 78 + 40, 215, 271, 323 + 40, 457]);
    assert_eq!(places(&input.read, repeat), [40]);
    // nothing else is in lower case
    assert_eq!(input.text.iter().filter(|letter| letter.is_ascii_lowercase()).count(), 6 * repeat.len());
}

/// With the read's sketch as it was before it was struck, the list at the same threshold lacks the second copy.
#[test]
fn copy_that_is_listed_since_the_read_is_struck() {
    let input = sample("through_a_repeat");
    let Prepared { task, positions, .. } = on(Strand::Forward, &input);
    let whole = Task { pattern: codes(&sketch(&input.read, input.settings.k, input.settings.w)), ..task.clone() };
    assert_eq!((whole.pattern.len(), task.pattern.len()), (49, 39));
    let text = codes(&sketch(&input.text, input.settings.k, input.settings.w));
    let lost = whole.pattern.iter().filter(|code| !task.pattern.contains(code));
    assert!(lost.map(|&code| times(code, &text)).eq([6; 10]), "each of the ten entries lost stands in the repeat");
    assert_eq!(mapped(&task, &positions, 9), [(324, 431, 14), (79, 186, 26)]);
    assert_eq!(mapped(&whole, &positions, 9), [(79, 186, 16)]);
    assert_eq!(mapped(&with_threshold(whole, 4), &positions, 9), [(324, 431, 4), (79, 186, 16)]);
}

#[test]
fn copy_on_the_other_strand() {
    let input = sample("both_strands");
    let (gene, copy) = (&input.text[60..150], &input.text[250..340]);
    assert_eq!(input.text.len(), 400);
    assert_eq!(differences(gene, &Strand::Reverse.letters(copy)), 2);
    assert_eq!(differences(gene, &input.read), 1);
    let upper: Vec<usize> = (0..400).filter(|&at| input.text[at].is_ascii_uppercase()).collect();
    assert_eq!(upper, (60..150).chain(250..340).collect::<Vec<usize>>(), "gene and copy alone are in upper case");
}

/// Each strand has the hits of one place, and lists that place from its first to its last letter.
#[test]
fn a_place_on_each_strand() {
    let input = sample("both_strands");
    for (strand, h, place) in [(Strand::Forward, 39, (60, 149, 30)), (Strand::Reverse, 34, (250, 339, 14))] {
        let of = on(strand, &input);
        assert_eq!(mapped(&of.task, &of.positions, 9), [place]);
        let letters = hits(&of.task).iter().map(|&hit| of.positions[hit]).collect::<Vec<u32>>();
        assert_eq!(letters.len(), h);
        assert!(letters.iter().all(|&first| place.0 <= first && first + 8 <= place.1), "{letters:?}");
    }
}

// One test, since two runs of the prover in one folder wait for each other.
#[test]
fn status_of_the_script() {
    for name in SAMPLES {
        assert_eq!(listed(&format!("sample/{name}.in")), (Some(0), file(&format!("{name}.out")), true));
    }
    assert_eq!(listed("README.md"), (Some(1), b"refused input\n".to_vec(), true));
    assert_eq!(listed("no such file"), (Some(1), Vec::new(), false));
}
