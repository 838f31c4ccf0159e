//! The letter decision's table: sketch and count over letters of several kinds, by the former algorithm with a table and with a match,
//! by the algorithm with computed values in plain Rust and proved, and by the fastest plain Rust known to us.

use crate::jobs::{self, K, LETTERS};
use crate::ours;
use crate::plain::former_sketch::{by_match, by_table};
use crate::plain::{fastest_sketch, sketch};
use crate::runs::{count_run, sketch_run};
use crate::signatures::{Count, Sketch};
use crate::table::{Table, milliseconds, ratio};
use crate::timing::{Run, Timed, ask_agreement, best_times};

/// How often each run of a row is made: less often than in the first table, since there are many rows.
pub const ROUNDS: usize = 60;

/// The most that the proved function may take over the fastest of a row.
const FASTEST_GOAL: f64 = 1.1;

/// Who takes turns in a row, in the order of its times.
const COUNTS: [Count; 5] = [by_table::COUNT, by_match::COUNT, sketch::count, ours::COUNT, fastest_sketch::count];
const SKETCHES: [Sketch; 5] = [by_table::SKETCH, by_match::SKETCH, sketch::sketch, ours::sketch, fastest_sketch::sketch];

/// The most that the proved function may take over the former algorithm with a table: none for wide windows, where the letter decision
/// is the smaller part.
fn before_goal(w: u32) -> Option<f64> {
    (w <= 10).then_some(1.0)
}

/// Races the five, and prints their row.
fn print_row(table: &mut Table, job: &str, w: u32, mut runs: [Run; 5]) {
    let best = best_times(&mut runs, ROUNDS);
    ask_agreement(&best);
    let [by_table, by_match, computed, proved, other] = [0, 1, 2, 3, 4].map(|at| best[at]);
    let plain = [by_table, by_match, computed, other];
    let fastest = plain.into_iter().min_by_key(|timed: &Timed| timed.best).expect("four times");
    let (over_before, over_fastest) = (ratio(proved, by_table), ratio(proved, fastest));
    println!(
        "| {job} | {} | {} | {} | {} | {over_before:.2} | {} | {} | {over_fastest:.2} | {} | {} |",
        milliseconds(by_table),
        milliseconds(by_match),
        milliseconds(computed),
        milliseconds(proved),
        table.judged(&format!("{job}, proved / before"), over_before, before_goal(w)),
        milliseconds(fastest),
        table.judged(&format!("{job}, proved / fastest"), over_fastest, Some(FASTEST_GOAL)),
        proved.made.shown()
    );
}

/// Prints the table. The goals that are missed are remembered with those of the first table.
pub fn print_all(table: &mut Table) {
    println!(
        "| job | before: table, ms | before: match, ms | computed: plain, ms | proved, ms | proved / before (table) | goal \
         | fastest, ms | proved / fastest | goal | checksums |"
    );
    println!("|---|---|---|---|---|---|---|---|---|---|---|");
    let kinds = [
        ("random", jobs::random_letters(LETTERS)),
        ("random with 1 % N", jobs::with_foreign(LETTERS)),
        ("lower case", jobs::lower_case(LETTERS)),
        ("only N", jobs::only_foreign(LETTERS)),
    ];
    for (kind, letters) in &kinds {
        for w in [1, 10, 64] {
            let sketches = SKETCHES.map(|sketch| sketch_run(sketch, letters, K, w));
            print_row(table, &format!("sketch, {kind} letters, w {w}"), w, sketches);
            let counts = COUNTS.map(|count| count_run(count, letters, K, w));
            print_row(table, &format!("count, {kind} letters, w {w}"), w, counts);
        }
    }
}
