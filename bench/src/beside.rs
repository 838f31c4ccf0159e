//! Times steps under the linear score beside those of an earlier proved library, in one process, and prints a table.

use bench::jobs::TEXT;
use bench::ours;
use bench::sessions::{HITS, PATTERN, Session, flat, flat_score, random_hits};
use bench::sessions_table::{PORTION, all_clusters};
use bench::steps::{Layout, step_run};
use bench::table::{Table, milliseconds, ratio};
use bench::timing::{ROUNDS, ask_agreement, best_times};
use host::calls::{self, Stepped};
use host::exported::StepWords;
use host::reference::score::Scoring;

/// The most that proved steps may take over the earlier ones.
const GOAL: f64 = 1.05;

// The earlier library's calls, under the names that bench/beside gives them.
unsafe extern "C" {
    fn before_start(
        text: *const u32,
        text_length: usize,
        pattern: *const u32,
        pattern_length: usize,
        u: u32,
        v: u32,
        threshold: i32,
        work: *mut u32,
        work_length: usize,
        number: *mut u32,
    ) -> usize;
    fn before_step(
        work: *mut u32,
        work_length: usize,
        budget: u32,
        a: *mut u32,
        b: *mut u32,
        score: *mut i32,
        m: *mut u32,
        cells: *mut u32,
    ) -> u32;
}

fn start_before(text: &[u32], pattern: &[u32], scoring: Scoring, work: &mut [u32]) -> i32 {
    let Scoring::Linear { u, v, threshold } = scoring else { panic!("a linear score") };
    let mut number = 0;
    let (text_words, pattern_words, words) = (text.as_ptr(), pattern.as_ptr(), work.as_mut_ptr());
    // SAFETY: each pointer is that of a slice of the length behind it, or of a local word.
    let h = unsafe {
        before_start(text_words, text.len(), pattern_words, pattern.len(), u, v, threshold, words, work.len(), &mut number)
    };
    if number == 0 { h as i32 } else { -(number as i32) }
}

fn step_before() -> impl FnMut(&mut [u32], u32) -> Stepped {
    let mut words = StepWords::default();
    move |work, budget| {
        let StepWords { a, b, score, m, cells } = &mut words;
        // SAFETY: as above.
        let kind = unsafe { before_step(work.as_mut_ptr(), work.len(), budget, a, b, score, m, cells) };
        calls::stepped(kind, words)
    }
}

/// Both take turns, and what they make is compared.
fn race(table: &mut Table, job: &str, session: &Session, budget: u32) {
    let best = best_times(
        &mut [
            step_run(ours::start, ours::step(), Layout::Own, session, budget),
            step_run(start_before, step_before(), Layout::Own, session, budget),
        ],
        ROUNDS,
    );
    ask_agreement(&best);
    let over = ratio(best[0], best[1]);
    println!(
        "| {job} | {} | {} | {over:.2} | {} | {} |",
        milliseconds(best[0]),
        milliseconds(best[1]),
        table.judged(job, over, Some(GOAL)),
        best[0].made.shown()
    );
}

fn main() {
    println!("| steps | proved, ms | before, ms | proved / before | goal | checksums |");
    println!("|---|---|---|---|---|---|");
    let mut table = Table::default();
    let clusters = all_clusters();
    for (kind, session) in &clusters {
        race(&mut table, &format!("steps of the greatest budget, {kind}"), session, u32::MAX);
    }
    for (kind, session) in &clusters {
        race(&mut table, &format!("portions of {PORTION} cells, {kind}"), session, PORTION);
    }
    let repeats = random_hits(TEXT, PATTERN, HITS, 0).with_third();
    race(&mut table, "steps of the greatest budget, random repeats", &repeats, u32::MAX);
    race(&mut table, "steps of the greatest budget, all cells found", &flat(HITS, i32::MIN), u32::MAX);
    let live = flat(HITS, flat_score(HITS) + 1);
    race(&mut table, "steps of the greatest budget, all blocks live and none found", &live, u32::MAX);
    race(&mut table, "steps of budget 1, all blocks live and none found", &live, 1);
    table.print_goals();
}
