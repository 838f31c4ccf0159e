//! How the cost of the proved functions grows: the same job at two sizes. What they make is held to plain Rust, and a store to the
//! reference.

use host::calls;
use host::reference::store;

use crate::jobs::{self, K, LETTERS, READ, TEXT};
use crate::made::Made;
use crate::ours;
use crate::plain::{complement, sketch, start, step, strike};
use crate::runs::{BEFORE, as_they_are, complement_run, count_run, sketch_run, start_run, strike_read_run, strike_run};
use crate::sessions::{ABOVE_RISING, HITS, PATTERN, Session, flat, flat_score, random_hits, rising};
use crate::steps::{Layout, step_run};
use crate::table::{each, milliseconds, ratio};
use crate::timing::{Run, best_times, timed};

const ROUNDS: usize = 20;

/// The window of the stores.
const W: u32 = 10;

/// A job at one size: what its cost is counted in, the proved function's run, and what it must make.
struct Job<'a> {
    items: usize,
    run: Run<'a>,
    expected: Made,
}

/// A job that plain Rust does too.
fn beside_plain<'a>(items: usize, [run, mut plain]: [Run<'a>; 2]) -> Job<'a> {
    Job { items, run, expected: plain().1 }
}

/// Prints the head of the table.
fn print_head() {
    println!("| job | from | to | ms | ms | grows by | ns each | ns each |");
    println!("|---|---|---|---|---|---|---|---|");
}

/// Prints a job at two sizes, which take turns. Panics where one makes something else than it must.
fn print(job: &str, small: Job, large: Job) {
    let best = best_times(&mut [small.run, large.run], ROUNDS);
    for (timed, expected) in best.iter().zip([small.expected, large.expected]) {
        assert!(timed.made.agrees(&expected), "{job}: made {:?} in place of {expected:?}", timed.made);
    }
    let (from, to, few, many) = (small.items, large.items, best[0], best[1]);
    let grows = format!("{:.1} for {:.1}", ratio(many, few), to as f64 / from as f64);
    let (few_ms, many_ms) = (milliseconds(few), milliseconds(many));
    println!("| {job} | {from} | {to} | {few_ms} | {many_ms} | {grows} | {} | {} |", each(few, from), each(many, to));
}

fn complements(letters: &[u8]) -> Job<'_> {
    let both = [ours::reverse_complement, complement::reverse_complement];
    beside_plain(letters.len(), both.map(|complement| complement_run(complement, letters, 1)))
}

fn complement_row() {
    let letters = jobs::random_letters(LETTERS);
    print("reverse complement", complements(&letters[..LETTERS / 10]), complements(&letters));
}

fn sketches(letters: &[u8], w: u32) -> Job<'_> {
    beside_plain(letters.len(), [ours::sketch, sketch::sketch].map(|sketch| sketch_run(sketch, letters, K, w)))
}

fn counts(letters: &[u8], w: u32) -> Job<'_> {
    beside_plain(letters.len(), [ours::COUNT, sketch::count].map(|count| count_run(count, letters, K, w)))
}

fn letters_rows() {
    for (kind, letters) in [("random", jobs::random_letters(LETTERS)), ("climbing", jobs::climbing_letters(LETTERS))] {
        let few = &letters[..LETTERS / 10];
        for w in [10, 64] {
            print(&format!("sketch, w {w}, {kind} letters"), sketches(few, w), sketches(&letters, w));
        }
        print(&format!("count, w 10, {kind} letters"), counts(few, 10), counts(&letters, 10));
    }
}

fn strikes<'a>(codes: &'a [u32], positions: &'a [u32]) -> Job<'a> {
    let positions = &positions[..codes.len()];
    beside_plain(codes.len(), [ours::strike, strike::strike].map(|strike| strike_run(strike, codes, positions)))
}

fn strike_rows() {
    let positions: Vec<u32> = (0..TEXT as u32).collect();
    for (kind, few, many) in [
        ("all different", jobs::all_different(TEXT / 10), jobs::all_different(TEXT)),
        ("all the same", jobs::all_the_same(TEXT / 10), jobs::all_the_same(TEXT)),
        ("repeats", jobs::repeats(TEXT / 10), jobs::repeats(TEXT)),
    ] {
        print(&format!("strike, {kind}"), strikes(&few, &positions), strikes(&many, &positions));
    }
}

/// A strike of the read whose cost is counted in these items.
fn read_strikes<'a>(items: usize, text: &'a [u32], read: &'a [u32], positions: &'a [u32]) -> Job<'a> {
    let positions = &positions[..read.len()];
    let both = [ours::strike_read, strike::strike_read];
    beside_plain(items, both.map(|strike_read| strike_read_run(strike_read, text, read, positions)))
}

/// Ten times the text entries, and ten times a read that is as long as a text may be: it is then taken in ten blocks.
fn read_strike_rows() {
    let long = 10 * TEXT;
    let positions: Vec<u32> = (0..long as u32).collect();
    let (few, text) = (jobs::repeats(TEXT / 10), jobs::repeats(TEXT));
    let (short_read, read, long_read) = (jobs::stretch(&few, READ), jobs::stretch(&text, READ), jobs::read_of_repeats(long));
    let (few_text, many_text) =
        (read_strikes(few.len(), &few, &short_read, &positions), read_strikes(text.len(), &text, &read, &positions));
    print("strike of the read, repeats, text entries", few_text, many_text);
    let one_block = read_strikes(TEXT, &text, &long_read[..TEXT], &positions);
    let ten_blocks = read_strikes(long, &text, &long_read, &positions);
    print("strike of the read, repeats, read entries", one_block, ten_blocks);
}

/// A save of this many entries, and a load of what it wrote. All words and all entries are summed.
fn stores(entries: usize) -> (Job<'static>, Job<'static>) {
    let positions: Vec<u32> = (0..entries as u32).collect();
    let codes = jobs::all_different(entries);
    let room = 2 * entries + 2;
    let stored = store::save(K, W, &codes, &positions, room).expect("a sketch that is saved");
    let saved = Made::of([room as u32].into_iter().chain(stored.iter().copied()));
    let loaded = Made::of([K, W, entries as u32].into_iter().chain(codes.iter().chain(&positions).copied()));
    let (mut words, mut codes_out, mut positions_out) = (vec![BEFORE; room], vec![BEFORE; entries], vec![BEFORE; entries]);
    let save = move || {
        let (time, answer) = timed(|| calls::save(&codes, &positions, K, W, &mut words));
        let number = answer.expect("a saved sketch") as u32;
        (time, Made::of([number].into_iter().chain(words.iter().copied())))
    };
    let load = move || {
        let (time, answer) = timed(|| calls::load(&stored, &mut codes_out, &mut positions_out));
        let answer = answer.expect("a loaded store");
        let numbers = [answer.k, answer.w, answer.entries as u32];
        (time, Made::of(numbers.into_iter().chain(codes_out.iter().chain(&positions_out).copied())))
    };
    let job = |run, expected| Job { items: entries, run, expected };
    (job(Box::new(save), saved), job(Box::new(load), loaded))
}

fn store_rows() {
    let ((save_few, load_few), (save_many, load_many)) = (stores(LETTERS / 10), stores(LETTERS));
    print("save", save_few, save_many);
    print("load", load_few, load_many);
}

/// A start whose cost is counted in these items.
fn starts<'a>(items: usize, text: &'a [u32], pattern: &'a [u32]) -> Job<'a> {
    beside_plain(items, [ours::start, start::start].map(|start| start_run(start, as_they_are, text, pattern)))
}

fn start_rows() {
    let all = random_hits(TEXT, PATTERN, HITS, 0);
    let short = random_hits(TEXT / 10, PATTERN, HITS / 10, 0);
    let few = random_hits(TEXT / 10, PATTERN / 10, HITS / 10, 0);
    let (short_text, long_text) = (starts(TEXT / 10, &short.text, &all.pattern), starts(TEXT, &all.text, &all.pattern));
    print("start, text entries", short_text, long_text);
    let (few_codes, many_codes) = (starts(PATTERN / 10, &short.text, &few.pattern), starts(PATTERN, &short.text, &all.pattern));
    print("start, pattern entries", few_codes, many_codes);
}

/// All cells of a session by steps of this budget.
fn steps(session: &Session, h: usize, budget: u32) -> Job<'static> {
    let ours = step_run(ours::start, ours::step(), Layout::Shared, session, budget);
    let plain = step_run(start::start, step::step, Layout::Shared, session, budget);
    beside_plain(h * (h + 1) / 2, [ours, plain])
}

/// Sessions in which every cell is looked at and none is found.
fn step_rows() {
    let linear = [HITS / 2, HITS].map(|hits| flat(hits, flat_score(hits) + 1));
    let (f, g) = ABOVE_RISING;
    let jaccard = [HITS / 2, HITS].map(|hits| rising(hits).under_jaccard(f, g));
    for (score, [half, all]) in [("", linear), (" under Jaccard", jaccard)] {
        for (name, budget) in [("one step", u32::MAX), ("steps of budget 1", 1)] {
            let job = format!("{name} over all cells{score}, all blocks live, h {} to {HITS}", HITS / 2);
            print(&job, steps(&half, HITS / 2, budget), steps(&all, HITS, budget));
        }
    }
}

/// Prints the table.
pub fn print_all() {
    print_head();
    complement_row();
    letters_rows();
    strike_rows();
    read_strike_rows();
    store_rows();
    start_rows();
    step_rows();
}
