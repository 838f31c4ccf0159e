//! The proved functions beside a brute force on random small tasks and at the limits of document 01's table.

mod clusters;
mod codes;
mod complements;
mod lists;
mod numbers;
mod per_mille;
mod read_strikes;
mod refusals;
mod session_limits;
mod session_refusals;
mod sketches;
mod stepping;
mod stores;
mod strikes;
mod tally;
mod tasks;
mod two_strands;

use tally::Tally;

/// Runs all parts and prints what was compared. Whether nothing differs, every part compared what it must, and the whole table of
/// refusals was met.
pub fn run() -> bool {
    let mut tally = Tally::default();
    println!("Random cases, small, each beside the brute force");
    lists::random(&mut tally);
    two_strands::random(&mut tally);
    clusters::random(&mut tally);
    codes::random(&mut tally);
    complements::random(&mut tally);
    sketches::random(&mut tally);
    strikes::random(&mut tally);
    read_strikes::random(&mut tally);
    stores::random(&mut tally);
    per_mille::random(&mut tally);
    println!("\nCases at the limits");
    complements::limits(&mut tally);
    sketches::limits(&mut tally);
    sketches::block_ends(&mut tally);
    strikes::limits(&mut tally);
    read_strikes::limits(&mut tally);
    stores::limits(&mut tally);
    session_refusals::limits(&mut tally);
    session_limits::limits(&mut tally);
    per_mille::limits(&mut tally);
    tally.print_end()
}
