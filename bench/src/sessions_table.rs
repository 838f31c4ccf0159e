//! The sessions' table: steps over all cells, proved, in plain Rust with the same algorithm and with the former one, and, under the linear
//! score, by the fastest plain Rust known to us.

use host::reference::score::Scoring;

use crate::jobs::TEXT;
use crate::ours;
use crate::plain::{fastest_start, fastest_step, former_start, former_step, start, step};
use crate::sessions::{ABOVE_RISING, HITS, PATTERN, Session, all_records, cluster, flat, flat_score, random_hits, rising};
use crate::steps::{Layout, counted, step_run};
use crate::table::{Table, each, milliseconds, ratio};
use crate::timing::{ROUNDS, Run, Timed, ask_agreement, best_times};

/// The most that proved steps may take over plain Rust with the same algorithm, and over the former one in the worst row and on clusters.
const PLAIN_GOAL: f64 = 1.15;
const FORMER_GOAL: f64 = 1.15;
const CLUSTER_GOAL: f64 = 0.12;

/// The most that proved steps may take over the former algorithm on clusters under Jaccard.
const JACCARD_CLUSTER_GOAL: f64 = 0.25;

/// The most that portions of 1,000 cells may take over the former algorithm's on clusters.
const PORTIONS_GOAL: f64 = 0.2;
pub const PORTION: u32 = 1_000;

/// The most that steps of budget 1 may take over the single step.
const SINGLES_GOAL: f64 = 6.0;

/// The goals of a row: over plain Rust with the same algorithm, and over the former one.
#[derive(Clone, Copy)]
struct Goals {
    plain: Option<f64>,
    former: Option<f64>,
}

/// Who takes turns in a row, in the order of its times: the fastest scores linearly.
fn runs(session: &Session, budget: u32) -> Vec<Run<'static>> {
    let mut runs = vec![
        step_run(ours::start, ours::step(), Layout::Shared, session, budget),
        step_run(start::start, step::step, Layout::Shared, session, budget),
        step_run(former_start::start, former_step::step, Layout::Own, session, budget),
    ];
    if let Scoring::Linear { .. } = session.scoring {
        runs.push(step_run(fastest_start::start, fastest_step::step, Layout::Own, session, budget));
    }
    runs
}

/// Prints a row of three or four that make the same.
fn print_row(table: &mut Table, job: &str, session: &Session, best: &[Timed], goals: Goals) {
    ask_agreement(best);
    let [proved, plain, former] = [0, 1, 2].map(|at| best[at]);
    let fastest = best.get(3).map(|&fastest| (milliseconds(fastest), format!("{:.2}", ratio(proved, fastest))));
    let (fastest, over_fastest) = fastest.unwrap_or_else(|| ("-".to_string(), "-".to_string()));
    let passed = counted(start::start, step::step, session);
    let (over_plain, over_former) = (ratio(proved, plain), ratio(proved, former));
    println!(
        "| {job} | {} | {} | {} | {over_plain:.2} | {} | {} | {over_former:.3} | {} | {fastest} | {over_fastest} | {} | {} |",
        passed.found,
        milliseconds(proved),
        milliseconds(plain),
        table.judged(&format!("{job}, proved / plain"), over_plain, goals.plain),
        milliseconds(former),
        table.judged(&format!("{job}, proved / former"), over_former, goals.former),
        each(proved, passed.cells),
        proved.made.shown()
    );
}

/// Races them with one budget, and prints their row.
fn race(table: &mut Table, job: &str, session: &Session, budget: u32, goals: Goals) {
    print_row(table, job, session, &best_times(&mut runs(session, budget), ROUNDS), goals);
}

/// The clusters with their names.
pub fn all_clusters() -> [(String, Session); 4] {
    [(8, 90), (20, 90), (8, 98), (20, 98)]
        .map(|(copies, kept)| (format!("cluster of {copies} copies at {kept} %"), cluster(copies, kept)))
}

fn clusters(table: &mut Table) {
    let all = all_clusters();
    let goals = Goals { plain: Some(PLAIN_GOAL), former: Some(CLUSTER_GOAL) };
    for (kind, session) in &all {
        race(table, &format!("steps of the greatest budget, {kind}"), session, u32::MAX, goals);
    }
    let goals = Goals { plain: None, former: Some(PORTIONS_GOAL) };
    for (kind, session) in &all {
        race(table, &format!("portions of {PORTION} cells, {kind}"), session, PORTION, goals);
    }
}

/// Steps of the greatest budget and of budget 1. All runs take turns, since the two rows are compared.
fn singles(table: &mut Table, kind: &str, session: &Session, goals: Goals) {
    let mut all: Vec<Run> = runs(session, u32::MAX).into_iter().chain(runs(session, 1)).collect();
    let best = best_times(&mut all, ROUNDS);
    let (single, ones) = best.split_at(all.len() / 2);
    print_row(table, &format!("steps of the greatest budget, {kind}"), session, single, goals);
    print_row(table, &format!("steps of budget 1, {kind}"), session, ones, Goals { plain: None, former: None });
    let job = format!("steps of budget 1 over the single step, both proved, {kind}");
    let over = ratio(ones[0], single[0]);
    let judged = table.judged(&job, over, Some(SINGLES_GOAL));
    println!("| {job} | - | {} | - | {over:.2} times | {judged} | - | - | - | - | - | - | - |", milliseconds(ones[0]));
}

/// Prints the table. The goals that are missed are remembered with those of the first table.
pub fn print_all(table: &mut Table) {
    println!(
        "| steps | mappings found | proved, ms | plain, ms | proved / plain | goal | former, ms | proved / former | goal \
         | fastest, ms | proved / fastest | proved, ns each | checksums |"
    );
    println!("|---|---|---|---|---|---|---|---|---|---|---|---|---|");
    clusters(table);
    let goals = Goals { plain: Some(PLAIN_GOAL), former: Some(FORMER_GOAL) };
    let repeats = random_hits(TEXT, PATTERN, HITS, 0).with_third();
    race(table, "steps of the greatest budget, random repeats", &repeats, u32::MAX, goals);
    race(table, "steps of the greatest budget, all cells found", &flat(HITS, i32::MIN), u32::MAX, goals);
    singles(table, "all blocks live and none found", &flat(HITS, flat_score(HITS) + 1), goals);
    jaccard(table);
}

/// The rows under Jaccard.
fn jaccard(table: &mut Table) {
    let goals = Goals { plain: Some(PLAIN_GOAL), former: Some(JACCARD_CLUSTER_GOAL) };
    let clusters = all_clusters();
    for (kind, session) in &clusters {
        let job = format!("steps of the greatest budget under Jaccard, {kind}, 1/3");
        race(table, &job, &session.under_jaccard(1, 3), u32::MAX, goals);
    }
    let goals = Goals { plain: Some(PLAIN_GOAL), former: None };
    let [.., (kind, last)] = &clusters;
    for (kind, session, (f, g)) in [
        (kind.as_str(), last, (0, 1)),
        ("random repeats, none near", &random_hits(TEXT, PATTERN, HITS, 0), (1, 1)),
        ("random repeats", &random_hits(TEXT, PATTERN, HITS, 0), (1, 3)),
        ("random repeats", &random_hits(TEXT, PATTERN, HITS, 0), (0, 1)),
        ("every cell a record", &all_records(HITS), (0, 1)),
    ] {
        let job = format!("steps of the greatest budget under Jaccard, {kind}, {f}/{g}");
        race(table, &job, &session.under_jaccard(f, g), u32::MAX, goals);
    }
    let (f, g) = ABOVE_RISING;
    let job = format!("nearly all blocks live and none found under Jaccard, {f}/{g}");
    singles(table, &job, &rising(HITS).under_jaccard(f, g), goals);
}
