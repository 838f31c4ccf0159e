//! Times the speed tables' jobs and prints the tables, and behind them the goals that are missed.

use bench::jobs::{self, LETTERS, LONG_READ, READ, TEXT};
use bench::lines::{complement_line, count_line, sketch_line, start_line, strike_line, strike_read_line};
use bench::plain::{fastest_strike, hash_strike};
use bench::sessions::{HITS, PATTERN, random_hits};
use bench::table::Table;
use bench::timing::ROUNDS;
use bench::{growth, letters_table, machine, sessions_table};

/// Prints what the first table's columns mean.
fn print_legend() {
    println!(
        "The best processor time of {ROUNDS} runs counts, taken in turn in one process, all built for release, with warm buffers."
    );
    println!("'plain' is plain Rust with the proved function's algorithm, 'fastest' the fastest other plain Rust known to us.");
    println!("'ns each' is per letter or entry. Letters are random, in one run, k 15. Weights are 3 and 2.");
    println!("Checksums are of every number, byte, entry and work word made, in one layout.\n");
}

/// Prints what the sessions' table shows.
fn print_sessions_legend() {
    println!("\nSteps over all {} cells of sessions with {HITS} hits, timed as above.", HITS * (HITS + 1) / 2);
    println!(
        "'former' is plain Rust with the proved step's former algorithm, which looks at every cell. 'ns each' is per cell. The threshold"
    );
    println!(
        "of clusters and random repeats is a third of the perfect score, and under Jaccard the fraction that is named. There 'former' is"
    );
    println!(
        "the same loop over all cells, and 'fastest', which scores linearly, has no time. Checksums are of every answer and work"
    );
    println!(
        "word; the former and the fastest session have some words of their own, so that all are compared without these, and proved and"
    );
    println!("plain in all.\n");
}

/// Prints what the columns of the letter decision's table mean.
fn print_letters_legend() {
    println!(
        "\nHow a letter's value is had, k 15: 'before' is plain Rust with the former algorithm, which has each value as it reads"
    );
    println!(
        "the letter, by a table that a match fills once a call, or by a match at each letter. 'computed' is plain Rust with the"
    );
    println!(
        "proved function's algorithm of today. 'fastest' is the least of all times in plain Rust, the fastest known to us with them."
    );
    println!("The best processor time of {} runs counts, taken in turn. All five make the same.\n", letters_table::ROUNDS);
}

/// A long read, and one as long as `maplist` takes it, made so often that it is about as many letters.
fn print_complements(table: &mut Table) {
    let letters = jobs::random_letters(LONG_READ);
    table.print(&complement_line(&letters, 1));
    table.print(&complement_line(&letters[..READ], LONG_READ / READ));
}

fn print_sketches(table: &mut Table) {
    let letters = jobs::random_letters(LETTERS);
    for w in [1, 10, 64] {
        table.print(&sketch_line(&letters, w));
        table.print(&count_line(&letters, w));
    }
}

/// What stands behind the kind of a row whose fastest is the hash map.
const BY_MAP: &str = "; 'fastest' is std's HashMap";

fn print_strikes(table: &mut Table) {
    let texts = [
        ("all different", jobs::all_different(TEXT)),
        ("all the same", jobs::all_the_same(TEXT)),
        ("repeats", jobs::repeats(TEXT)),
    ];
    for (kind, codes) in &texts {
        table.print(&strike_line(kind, codes, fastest_strike::strike));
        table.print(&strike_line(&format!("{kind}{BY_MAP}"), codes, hash_strike::strike));
    }
    let [.., (repeats, text)] = &texts;
    let short = texts.iter().map(|(kind, text)| (*kind, text, jobs::stretch(text, READ)));
    for (kind, text, read) in short.chain([(*repeats, text, jobs::read_of_repeats(TEXT))]) {
        table.print(&strike_read_line(kind, text, &read, fastest_strike::strike_read));
        table.print(&strike_read_line(&format!("{kind}{BY_MAP}"), text, &read, hash_strike::strike_read));
    }
}

fn main() {
    machine::print();
    print_legend();
    let mut table = Table::begin();
    print_complements(&mut table);
    print_sketches(&mut table);
    print_strikes(&mut table);
    table.print(&start_line(&random_hits(TEXT, PATTERN, HITS, 0)));
    print_sessions_legend();
    sessions_table::print_all(&mut table);
    print_letters_legend();
    letters_table::print_all(&mut table);
    println!(
        "\nHow the cost of the proved functions grows: ten times the letters or entries, twice the hits (four times the cells).\n"
    );
    growth::print_all();
    table.print_goals();
}
