//! The lines of the speed table: each job with its inputs and who runs it.

use crate::jobs::K;
use crate::ours;
use crate::plain::{complement, fastest_complement, fastest_sketch, fastest_start, fastest_work, sketch, start, strike};
use crate::runs::{as_they_are, complement_run, count_run, sketch_run, start_run, strike_read_run, strike_run};
use crate::sessions::Session;
use crate::signatures::{Shared, Start, Strike, StrikeRead};
use crate::table::Line;
use crate::timing::{ROUNDS, Run, ask_agreement, best_times};

/// Races ours, plain Rust with the same algorithm, and the fastest.
fn line(job: String, items: usize, goal: Option<f64>, mut runs: [Run; 3]) -> Line {
    let best = best_times(&mut runs, ROUNDS);
    ask_agreement(&best);
    Line { job, items, goal, ours: best[0], plain: best[1], fastest: best[2] }
}

/// The reverse complement of a read, made so many times.
pub fn complement_line(read: &[u8], times: usize) -> Line {
    let complements = [ours::reverse_complement, complement::reverse_complement, fastest_complement::reverse_complement];
    let runs = complements.map(|complement| complement_run(complement, read, times));
    let often = if times > 1 { format!(", {times} times") } else { String::new() };
    line(format!("reverse complement, {} letters{often}", read.len()), read.len() * times, Some(1.2), runs)
}

pub fn count_line(letters: &[u8], w: u32) -> Line {
    let runs = [ours::COUNT, sketch::count, fastest_sketch::count].map(|count| count_run(count, letters, K, w));
    line(format!("count, {} letters, w {w}", letters.len()), letters.len(), Some(1.2), runs)
}

pub fn sketch_line(letters: &[u8], w: u32) -> Line {
    let runs = [ours::sketch, sketch::sketch, fastest_sketch::sketch].map(|sketch| sketch_run(sketch, letters, K, w));
    line(format!("sketch, {} letters, w {w}", letters.len()), letters.len(), Some(1.2), runs)
}

pub fn strike_line(kind: &str, codes: &[u32], fastest: Strike) -> Line {
    let positions: Vec<u32> = (0..codes.len() as u32).collect();
    let runs = [ours::strike, strike::strike, fastest].map(|strike| strike_run(strike, codes, &positions));
    line(format!("strike, {} entries, {kind}", codes.len()), codes.len(), Some(1.5), runs)
}

pub fn strike_read_line(kind: &str, text: &[u32], read: &[u32], fastest: StrikeRead) -> Line {
    let positions: Vec<u32> = (0..read.len() as u32).collect();
    let strikes = [ours::strike_read, strike::strike_read, fastest];
    let runs = strikes.map(|strike_read| strike_read_run(strike_read, text, read, &positions));
    let job = format!("strike of the read, {} text and {} read entries, {kind}", text.len(), read.len());
    line(job, text.len() + read.len(), Some(1.5), runs)
}

pub fn start_line(session: &Session) -> Line {
    let Session { text, pattern, .. } = session;
    let starts: [(Start, Shared); 3] =
        [(ours::start, as_they_are), (start::start, as_they_are), (fastest_start::start, fastest_work::shared_after_start)];
    let runs = starts.map(|(start, shared)| start_run(start, shared, text, pattern));
    let job = format!("start, {} text and {} pattern entries", text.len(), pattern.len());
    line(job, text.len(), Some(1.5), runs)
}
