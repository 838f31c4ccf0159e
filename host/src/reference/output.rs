//! The whole of `maplist`: from the bytes of its standard input to the bytes that it prints.

use super::cells::cell_count;
use super::definition1::Mapping;
use super::input::{Input, MAX_LINE, Settings, input};
use super::line::{decimal, line};
use super::list::list_of;
use super::permille::per_mille;
use super::refusal::Refusal;
use super::score::Task;
use super::sketch::{Entry, codes, positions, sketch_call};
use super::start::{WORK_WORDS, start_call};
use super::strand::Strand;
use super::strike::{strike_call, strike_read_call};

/// What is mapped on one strand: the task, the struck text's positions, and h.
#[derive(Clone, Debug)]
pub struct Prepared {
    pub strand: Strand,
    pub task: Task,
    pub positions: Vec<u32>,
    pub h: usize,
}

/// What an input has mapped on one strand, by the calls in their order: sketch of the text, sketch of the read, strike, strike of the
/// read by the text's codes before they are struck, start. Each buffer has a place for every letter.
pub fn prepared(input: &Input, strand: Strand) -> Result<Prepared, Refusal> {
    let Settings { k, w, c, scoring } = input.settings;
    let text: Vec<Entry> = sketch_call(&input.text, k, w, MAX_LINE, MAX_LINE)?;
    let read: Vec<Entry> = sketch_call(&strand.letters(&input.read), k, w, MAX_LINE, MAX_LINE)?;
    let struck = strike_call(&codes(&text), &positions(&text), c, MAX_LINE, MAX_LINE)?;
    let pattern = strike_read_call(&codes(&text), &codes(&read), &positions(&read), c, MAX_LINE, MAX_LINE)?;
    let task = Task { text: codes(&struck), pattern: codes(&pattern), scoring };
    let h = start_call(&task, WORK_WORDS)?;
    Ok(Prepared { strand, task, positions: positions(&struck), h })
}

/// Both strands of a run: "If either strand is refused, so is the run, with the forward read's number if both are".
pub fn prepared_run(input: &Input) -> Result<[Prepared; 2], Refusal> {
    match Strand::BOTH.map(|strand| prepared(input, strand)) {
        [Ok(forward), Ok(reverse)] => Ok([forward, reverse]),
        [Err(refusal), _] | [Ok(_), Err(refusal)] => Err(refusal),
    }
}

/// The line of a mapping: the last letter is "position of entry b, + k − 1".
fn line_of(of: &Prepared, k: u32, mapping: &Mapping) -> Vec<u8> {
    let len = (mapping.b - mapping.a + 1) as u32;
    let m = mapping.m as u32;
    let per_mille = per_mille(m, len, of.task.pattern.len() as u32);
    let (first, last) = (of.positions[mapping.a], of.positions[mapping.b] + k - 1);
    line(first, last, mapping.score, m, per_mille as u32, of.strand)
}

/// Header, a line for each mapping of either strand, and last the number of mappings and of all cells: "the last line sums both".
fn listed(run: &[Prepared; 2], k: u32) -> Vec<u8> {
    let (mut found, mut cells) = (0, 0);
    let mut printed = b"first last score shared permille strand\n".to_vec();
    for of in run {
        for mapping in list_of(&of.task) {
            printed.extend(line_of(of, k, &mapping));
            found += 1;
        }
        cells += cell_count(of.h);
    }
    printed.extend(b"found ");
    printed.extend(decimal(found));
    printed.extend(b" cells ");
    printed.extend(decimal(cells as u64));
    printed.push(b'\n');
    printed
}

/// What `maplist` prints for these bytes.
pub fn output(bytes: &[u8]) -> Vec<u8> {
    let Some(input) = input(bytes) else {
        return b"refused input\n".to_vec();
    };
    match prepared_run(&input) {
        Ok(run) => listed(&run, input.settings.k),
        Err(refusal) => [b"refused ".as_slice(), &decimal(u64::from(refusal.number)), b"\n"].concat(),
    }
}
