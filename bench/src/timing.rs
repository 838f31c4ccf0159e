//! Timing of runs that do the same job: they take turns, and the best time of each counts.

use std::time::Duration;

use crate::clock::thread_time;
use crate::made::Made;

/// How often each run is made.
pub const ROUNDS: usize = 100;

/// A run of a job: it returns the time that counts and what it made.
pub type Run<'a> = Box<dyn FnMut() -> (Duration, Made) + 'a>;

/// The best time of a run, and what it made.
#[derive(Clone, Copy)]
pub struct Timed {
    pub best: Duration,
    pub made: Made,
}

/// Times one call.
pub fn timed<T>(call: impl FnOnce() -> T) -> (Duration, T) {
    let start = thread_time();
    let made = std::hint::black_box(call());
    (thread_time() - start, made)
}

/// Runs all in turn, this many rounds, and gives the best time of each. Panics where a run makes something else than in its first round.
pub fn best_times(runs: &mut [Run], rounds: usize) -> Vec<Timed> {
    let mut best: Vec<Timed> = Vec::new();
    for round in 0..rounds {
        for (at, run) in runs.iter_mut().enumerate() {
            let (time, made) = run();
            if round == 0 {
                best.push(Timed { best: time, made });
            }
            best[at].best = best[at].best.min(time);
            assert_eq!(made, best[at].made, "run {at} made something else in round {round}");
        }
    }
    best
}

/// Panics where a run's checksums differ from those of the first.
pub fn ask_agreement(timed: &[Timed]) {
    for (at, timed_run) in timed.iter().enumerate() {
        let (made, first) = (timed_run.made, timed[0].made);
        assert!(made.agrees(&first), "run {at} made {made:?}, and the first one {first:?}");
    }
}
