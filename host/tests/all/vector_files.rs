//! Reading of the vectors in data/vectors, and answers written as they are in them.
//! Assumes that the folder stands at its place in the repository.

use std::fs;
use std::iter::repeat_n;
use std::path::{Path, PathBuf};

use host::reference::definition1::Mapping;
use host::reference::refusal::Refusal;
use host::reference::score::{Score, Scoring, Task};
use host::reference::sketch::Entry;
use host::reference::start::WORK_WORDS;
use host::reference::steps::{Answer, Step};
use host::reference::strand::Strand;

fn folder() -> PathBuf {
    Path::new(env!("CARGO_MANIFEST_DIR")).join("../data/vectors")
}

/// The lines of a file of so many vectors, without the first, which names the columns.
pub fn lines(name: &str, number: usize) -> Vec<Vec<String>> {
    let text = fs::read_to_string(folder().join(name)).expect("a file of vectors");
    let lines: Vec<Vec<String>> = text.lines().skip(1).map(|line| line.split('\t').map(String::from).collect()).collect();
    assert_eq!(lines.len(), number, "{name}");
    lines
}

/// The inputs in maplist/ by their names, each with what is to be printed.
pub fn lists() -> Vec<(String, Vec<u8>, Vec<u8>)> {
    let paths = fs::read_dir(folder().join("maplist")).expect("a folder of inputs").map(|entry| entry.expect("an entry").path());
    let inputs = paths.filter(|path| path.extension().is_some_and(|extension| extension == "in"));
    let read = |path: &Path| fs::read(path).expect("a file of a vector");
    let lists: Vec<_> = inputs.map(|path| (path.display().to_string(), read(&path), read(&path.with_extension("out")))).collect();
    assert_eq!(lists.len(), 150, "maplist");
    lists
}

/// The items of a list, of which `-` is the empty one.
fn items(list: &str, between: char) -> impl Iterator<Item = &str> {
    list.split(between).filter(|item| !item.is_empty() && *item != "-")
}

/// The words of a list, in which `7*65536` is 65,536 times 7.
fn numbers(list: &str) -> Vec<u32> {
    let words = |item: &str| {
        let (word, times) = item.split_once('*').unwrap_or((item, "1"));
        repeat_n(word.parse().expect("a word"), times.parse().expect("a number of times"))
    };
    items(list, ',').flat_map(words).collect()
}

fn bytes(hexadecimal: &str) -> Vec<u8> {
    let digits: Vec<u8> = items(hexadecimal, ' ').flat_map(str::bytes).collect();
    let pairs = digits.chunks(2).map(|pair| std::str::from_utf8(pair).expect("two digits"));
    pairs.map(|pair| u8::from_str_radix(pair, 16).expect("a byte")).collect()
}

pub fn entries(list: &[Entry]) -> String {
    let entries: Vec<String> = list.iter().map(|entry| format!("{}:{}", entry.code, entry.position)).collect();
    entries.join(" ")
}

/// A refusal as the vectors write it.
fn refused(refusal: &Refusal) -> String {
    match refusal {
        Refusal { number, value: None } => format!("refused {number}"),
        Refusal { number, value: Some(value) } => format!("refused {number} {value}"),
    }
}

/// The lines of permille.tsv: m, len, |p|, and the answer. The last column holds once texts may be longer.
pub fn per_milles() -> Vec<(u32, u32, u32, i32)> {
    let vector = |line: Vec<String>| {
        let [m, len, size, expected, _] = line.as_slice() else { panic!("five columns: {line:?}") };
        let number = |text: &String| text.parse().expect("a number");
        (number(m), number(len), number(size), expected.parse().expect("an answer"))
    };
    lines("permille.tsv", 150).into_iter().map(vector).collect()
}

/// The lines of revcomp.tsv: the read, the room, and the answer as text.
pub fn complements() -> Vec<(Vec<u8>, usize, String)> {
    let vector = |line: Vec<String>| {
        let [read, room, expected] = line.as_slice() else { panic!("three columns: {line:?}") };
        (bytes(read), room.parse().expect("room"), expected.clone())
    };
    lines("revcomp.tsv", 150).into_iter().map(vector).collect()
}

/// What the reverse complement answered, as the vectors write it: the bytes or the refusal.
pub fn complemented(answer: &Result<Vec<u8>, Refusal>) -> String {
    match answer {
        Ok(bytes) if bytes.is_empty() => "-".to_string(),
        Ok(bytes) => bytes.iter().map(|byte| format!("{byte:02x}")).collect(),
        Err(refusal) => refused(refusal),
    }
}

/// A line to be written, the room for it, and the part that is written.
#[derive(Debug)]
pub struct Written {
    pub first: u32,
    pub last: u32,
    pub score: Score,
    pub m: u32,
    pub per_mille: u32,
    pub strand: Strand,
    pub room: usize,
    pub expected: Vec<u8>,
}

/// A score, from a number or from m, a slash and the divisor.
fn score(text: &str) -> Score {
    match text.split_once('/') {
        None => Score::Number(text.parse().expect("a score")),
        Some((m, divisor)) => Score::Fraction { m: m.parse().expect("m"), divisor: divisor.parse().expect("a divisor") },
    }
}

/// A line of lines.tsv.
fn written_line(line: &[String]) -> Written {
    let [first, last, score_text, m, per_mille, strand, room, expected] = line else { panic!("eight columns: {line:?}") };
    let number = |text: &String| text.parse().expect("a number");
    let strand = Strand::BOTH.into_iter().find(|known| strand.as_bytes() == [known.sign()]).expect("a strand");
    Written {
        first: number(first),
        last: number(last),
        score: score(score_text),
        m: number(m),
        per_mille: number(per_mille),
        strand,
        room: room.parse().expect("room"),
        expected: bytes(expected),
    }
}

/// The lines of lines.tsv, of which 83 have a linear score.
pub fn written_lines() -> Vec<Written> {
    let all: Vec<Written> = lines("lines.tsv", 150).iter().map(|line| written_line(line)).collect();
    assert_eq!(all.iter().filter(|line| matches!(line.score, Score::Number(_))).count(), 83, "lines with a linear score");
    all
}

/// A call of a strike: of a read where there is a text, and else of a text.
#[derive(Debug)]
pub struct Strike {
    pub text: Option<Vec<u32>>,
    pub codes: Vec<u32>,
    pub positions: Vec<u32>,
    pub c: u32,
    pub rooms: (usize, usize),
    pub expected: String,
}

/// A line of strike_read.tsv.
fn read_strike(line: Vec<String>) -> Strike {
    let [text, codes, positions, c, codes_room, positions_room, expected] = line.as_slice() else {
        panic!("seven columns: {line:?}")
    };
    Strike {
        text: Some(numbers(text)),
        codes: numbers(codes),
        positions: numbers(positions),
        c: c.parse().expect("c"),
        rooms: (codes_room.parse().expect("room"), positions_room.parse().expect("room")),
        expected: expected.clone(),
    }
}

/// A line of limits.tsv about a strike, with the answer that holds before texts may be longer. Where it names no c, any will do.
fn limit_of_strike(line: &[String]) -> Option<Strike> {
    let [call, expected, _] = line else { panic!("three columns: {line:?}") };
    let said: Vec<u32> = call.split(|c: char| !c.is_ascii_digit()).filter_map(|number| number.parse().ok()).collect();
    let (text, codes, positions, c) = match (call.split(" of ").collect::<Vec<_>>().as_slice(), said.as_slice()) {
        (["strike", rest], &[code, position, c]) if rest.starts_with("entry ") => (None, vec![code], vec![position], c),
        (["strike", _], &[times, code, c]) => (None, vec![code; times as usize], vec![0; times as usize], c),
        (["strike", _], &[code, position, times, word]) => (Some(vec![word; times as usize]), vec![code], vec![position], 1),
        _ => return None,
    };
    let rooms = (codes.len(), codes.len());
    Some(Strike { text, codes, positions, c, rooms, expected: expected.clone() })
}

/// The strikes of strike_read.tsv and of limits.tsv.
pub fn strikes() -> Vec<Strike> {
    let limits: Vec<Strike> = lines("limits.tsv", 31).iter().filter_map(|line| limit_of_strike(line)).collect();
    assert_eq!(limits.len(), 12, "lines of limits.tsv about strikes");
    assert_eq!(limits.iter().filter(|strike| strike.text.is_some()).count(), 4, "of these, lines about the strike of a read");
    lines("strike_read.tsv", 150).into_iter().map(read_strike).chain(limits).collect()
}

/// What a strike answered, as the vectors write it: the entries kept or the refusal.
pub fn struck(answer: &Result<Vec<Entry>, Refusal>) -> String {
    match answer {
        Ok(rest) if rest.is_empty() => "-".to_string(),
        Ok(rest) => entries(rest),
        Err(refusal) => refused(refusal),
    }
}

/// A line of sketch.tsv: k, w, the letters, and the entries as text.
pub fn sketch_of(line: &[String]) -> (u32, u32, Vec<u8>, String) {
    let [k, w, letters, expected] = line else { panic!("four columns: {line:?}") };
    let expected: Vec<&str> = items(expected, ' ').collect();
    (k.parse().expect("k"), w.parse().expect("w"), bytes(letters), expected.join(" "))
}

/// A line of store.tsv: the words to load, the room for entries, and the answer as text.
pub fn store(line: &[String]) -> (Vec<u32>, usize, String) {
    let [words, room, expected] = line else { panic!("three columns: {line:?}") };
    let words = items(words, ' ').map(|word| u32::from_str_radix(word, 16).expect("a word")).collect();
    (words, room.parse().expect("room"), expected.trim_end_matches(" -").to_string())
}

/// A session of the vectors: how many words start is lent, what it answers, and the steps with their answers.
pub struct Vector {
    pub task: Task,
    pub lent: usize,
    pub started: String,
    pub steps: Vec<Step>,
    pub expected: Vec<String>,
}

/// A step and its answer, from `budget/words lent:answer`.
fn step(text: &str) -> (Step, String) {
    let (step, answer) = text.split_once(':').expect("a step and its answer");
    let (budget, lent) = step.split_once('/').expect("a budget and words lent");
    (Step { budget: budget.parse().expect("a budget"), lent: lent.parse().expect("words") }, answer.to_string())
}

/// A line of sessions.tsv, whose starts are lent enough words and are all accepted.
fn linear_session(line: &[String]) -> Vector {
    let [t, p, u, v, threshold, h, steps] = line else { panic!("seven columns: {line:?}") };
    let number = |text: &String| text.parse().expect("a number");
    let scoring = Scoring::Linear { u: number(u), v: number(v), threshold: threshold.parse().expect("a threshold") };
    let (steps, expected) = items(steps, ' ').map(step).unzip();
    let task = Task { text: numbers(t), pattern: numbers(p), scoring };
    Vector { task, lent: WORK_WORDS, started: format!("h {h}"), steps, expected }
}

/// A line of sessions4.tsv: "kind is 0 for linear (x, y are u, v), 1 for Jaccard (x, y are f, g; the threshold is not used)".
fn session_of_both(line: &[String]) -> Vector {
    let [t, p, kind, x, y, threshold, lent, started, steps] = line else { panic!("nine columns: {line:?}") };
    let [x, y] = [x, y].map(|text| text.parse().expect("a number"));
    let scoring = match kind.as_str() {
        "0" => Scoring::Linear { u: x, v: y, threshold: threshold.parse().expect("a threshold") },
        "1" => Scoring::Jaccard { f: x, g: y },
        _ => panic!("a kind: {kind}"),
    };
    let (steps, expected) = items(steps, ' ').map(step).unzip();
    let task = Task { text: numbers(t), pattern: numbers(p), scoring };
    Vector { task, lent: lent.parse().expect("words"), started: started.clone(), steps, expected }
}

/// The sessions of sessions.tsv and of sessions4.tsv.
pub fn sessions() -> Vec<Vector> {
    let both: Vec<Vector> = lines("sessions4.tsv", 150).iter().map(|line| session_of_both(line)).collect();
    let is_jaccard = |vector: &&Vector| matches!(vector.task.scoring, Scoring::Jaccard { .. });
    assert_eq!(both.iter().filter(is_jaccard).count(), 71, "sessions under Jaccard");
    lines("sessions.tsv", 200).iter().map(|line| linear_session(line)).chain(both).collect()
}

/// What start answered, as the vectors write it.
pub fn started(answer: &Result<usize, Refusal>) -> String {
    match answer {
        Ok(h) => format!("h {h}"),
        Err(refusal) => refused(refusal),
    }
}

/// The lines of judge15.tsv: work words 0 to 4, and whether step refuses them with 15.
pub fn judged_words() -> Vec<([u32; 5], bool)> {
    let vector = |line: Vec<String>| {
        let [words, answer] = line.as_slice() else { panic!("two columns: {line:?}") };
        let words = numbers(words).try_into().expect("five words");
        match answer.as_str() {
            "refused 15" => (words, true),
            "not 15" => (words, false),
            _ => panic!("an answer: {line:?}"),
        }
    };
    lines("judge15.tsv", 150).into_iter().map(vector).collect()
}

/// An answer as the vectors write it.
pub fn written(answer: &Answer) -> String {
    match answer {
        Answer::Found(Mapping { a, b, score: Score::Number(score), m }, cells) => format!("found,{a},{b},{score},{m},{cells}"),
        Answer::Found(Mapping { a, b, score: Score::Fraction { m, divisor }, .. }, cells) => {
            format!("found,{a},{b},{m},{divisor},{cells}")
        }
        Answer::Finished(cells) => format!("finished,{cells}"),
        Answer::Spent(cells) => format!("spent,{cells}"),
        Answer::Refused(number) => format!("refused,{number}"),
    }
}
