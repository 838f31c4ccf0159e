//! The program on reads through repeats, whose struck k-mers leave the read too, beside the reference and beside lists that are
//! written out here.
//! Assumes that the program has been built.

use host::cases::{settings, three_lines, threshold_near, through_a_repeat};
use host::program::{expect, hold, listed, run_on, sweep};
use host::random::Random;
use host::reference::definition1::Mapping;
use host::reference::faster::finals;
use host::reference::input::{Input, Settings, input};
use host::reference::output::{Prepared, output, prepared, prepared_run};
use host::reference::score::{Score, Scoring, Task};
use host::reference::sketch::{codes, sketch};
use host::reference::strand::Strand;

/// A three times is struck by c 2, from the text and from the read: |p| is 2, for the score and for the per mille. The complement has no
/// A, and keeps its entries.
#[test]
fn size_of_what_is_left() {
    hold(b"1 1 2 1 1 1\nAAACG\nAACG\n", &listed("3 4 2 2 1000 +\nfound 1 cells 6"));
    hold(b"1 1 2 5 3 -2147483648\nAAACG\nAAAAAAAAAACG\n", &listed("3 4 10 2 1000 +\n3 4 -20 2 167 -\nfound 2 cells 6"));
    hold(b"1 1 3 1 1 0\nAAACG\nAACG\n", &listed("1 4 4 4 1000 +\n3 4 0 2 500 -\nfound 2 cells 18"));
    // G is what the text lacks, and stays
    hold(b"1 1 2 1 1 0\nAAAC\nAACG\n", &listed("3 3 0 1 500 +\nfound 1 cells 2"));
    hold(b"1 1 2 1 1 1\nAAAC\nAACG\n", &listed("found 0 cells 2"));
}

#[test]
fn emptied_patterns() {
    for read in ["A", "AA", "AAAAAAAAAAAAA", "ANA", "aAn"] {
        hold(format!("1 1 1 1 1 -2147483648\nAA\n{read}\n").as_bytes(), "refused 9\n");
        hold(format!("1 1 2 1 1 -2147483648\nAAcA\n{read}\n").as_bytes(), "refused 9\n");
    }
    hold(b"1 1 1 1 1 -9\nAA\nAC\n", &listed("found 0 cells 0"));
    hold(b"1 1 2 1 1 -9\nAA\nA\n", &listed("1 1 1 1 1000 +\n0 0 1 1 1000 +\nfound 2 cells 3"));
    hold(b"3 1 1 1 1 -9\nACGNACG\nACG\n", "refused 9\n");
    hold(b"3 2 1 1 1 -9\nACGTACG\nNNNN\n", "refused 9\n");
}

/// A read is struck by the text's codes as they were before the text was struck, and never by its own.
#[test]
fn counts_are_those_of_the_whole_text() {
    hold(b"1 1 2 1 1 1\nCAAA\nCCCCA\n", &listed("found 0 cells 1"));
    hold(b"1 1 2 1 1 -2\nCAAA\nCCCCA\n", &listed("0 0 -2 1 250 +\nfound 1 cells 1"));
    hold(b"1 1 4 1 1 -9\nAAAAA\nACCCCCC\n", &listed("found 0 cells 0"));
}

/// sketch of the text, sketch of the read, strike, strike of the read, start: the first that refuses is answered.
#[test]
fn refusals_in_the_order_of_the_calls() {
    for read in ["A", "", "N", "C", "AC"] {
        for (first, number) in [
            ("0 0 0 0 0 0", 1),
            ("16 0 65536 0 0 0", 1),
            ("1 0 0 0 0 0", 2),
            ("1 65 65536 0 0 0", 2),
            ("1 1 0 0 0 0", 6),
            ("1 1 0 1 1 0", 6),
            ("1 1 65536 1 1 0", 6),
            ("1 1 4294967295 1001 1 0", 6),
            ("1 1 1 0 1 0", 7),
            ("1 1 1 1 0 0", 7),
            ("1 1 1 1001 1001 0", 7),
        ] {
            for text in ["AA", "", "AAC"] {
                hold(format!("{first}\n{text}\n{read}\n").as_bytes(), &format!("refused {number}\n"));
            }
        }
    }
    for (read, text) in [("", ""), ("", "AA"), ("N", "AA"), ("A", "AA"), ("AAA", "CAA"), ("AC", "AACC")] {
        hold(format!("1 1 1 1 1 0\n{text}\n{read}\n").as_bytes(), "refused 9\n");
    }
}

/// A code that occurs c times in the text stays in both, and one that occurs c + 1 times leaves both.
#[test]
fn codes_at_the_limit() {
    for c in 1..40 {
        for (times, left) in [(c - 1, 2), (c, 2), (c + 1, 1)] {
            let text = format!("C{}", "A".repeat(times));
            let bytes = format!("1 1 {c} 1 1 -2147483648\n{text}\nCA\n").into_bytes();
            let forward = prepared(&input(&bytes).expect("three lines"), Strand::Forward).expect("an accepted read");
            assert_eq!(forward.task.pattern.len(), left, "c {c}, {times} times");
            expect("at the limit", &bytes, &run_on(&bytes), &output(&bytes));
        }
    }
}

/// What a sweep met, so that it can't pass on reads that lose nothing.
#[derive(Debug, Default)]
struct Met {
    /// lists of a strand whose read lost some of its entries
    shortened: usize,
    /// such lists with a mapping that is not listed where the read keeps its entries
    gained: usize,
    /// strands whose read lost all entries
    emptied: usize,
}

/// The whole sketch of the read on a strand, with k and w that are accepted.
fn whole_read(input: &Input, strand: Strand) -> Vec<u32> {
    let Settings { k, w, .. } = input.settings;
    codes(&sketch(&strand.letters(&input.read), k.clamp(1, 15), w.clamp(1, 64)))
}

/// A case whose threshold is, mostly, at a score that some interval has on either strand, or one beside it.
fn case(random: &mut Random, longest: usize) -> Vec<u8> {
    let (text, read) = through_a_repeat(random, longest);
    let mut settings = Settings { c: random.between(1, 6) as u32, ..settings(random, longest) };
    let open = three_lines(&Settings { scoring: settings.scoring.open(), ..settings }, &text, &read);
    if let Ok(run) = prepared_run(&input(&open).expect("three lines"))
        && let found @ [_, ..] = run.map(|of| finals(&of.task)).concat().as_slice()
        && random.below(4) > 0
    {
        let score = found[random.below(found.len())].score;
        settings.scoring = threshold_near(settings.scoring, score, -(random.below(3) as i32));
    }
    three_lines(&settings, &text, &read)
}

/// Each entry that the read loses raises every score by v, and changes nothing else: the list is that of the whole read with the
/// threshold lower by so much. Asks that it is, and takes note of what was met.
fn meet_list(met: &mut Met, of: &Prepared, whole: Vec<u32>, bytes: &[u8]) {
    let lost = whole.len() - of.task.pattern.len();
    if lost == 0 {
        return;
    }
    let Scoring::Linear { u, v, threshold } = of.task.scoring else { panic!("a linear score") };
    let raised = i64::from(v) * lost as i64;
    let raise = |mapping: &Mapping| Mapping { score: Score::Number(mapping.score.number() + raised), ..*mapping };
    let (list, whole) = (finals(&of.task), Task { pattern: whole, ..of.task.clone() });
    let lower = i64::from(threshold) - raised;
    if let Ok(threshold) = i32::try_from(lower) {
        let all: Vec<Mapping> =
            finals(&Task { scoring: Scoring::Linear { u, v, threshold }, ..whole.clone() }).iter().map(raise).collect();
        assert_eq!(list, all, "{:?}, {}", of.strand, bytes.escape_ascii());
    }
    met.shortened += 1;
    met.gained += usize::from(finals(&whole).len() < list.len());
}

/// Takes note of both strands, whether the run is refused or not.
fn meet(met: &mut Met, bytes: &[u8]) {
    let input = input(bytes).expect("three lines");
    for strand in Strand::BOTH {
        let whole = whole_read(&input, strand);
        match prepared(&input, strand) {
            Ok(of) => meet_list(met, &of, whole, bytes),
            Err(refusal) => met.emptied += usize::from(refusal.number == 9 && !whole.is_empty()),
        }
    }
}

/// Sweeps so many cases, and asks that enough of each kind were met.
fn sweep_many(seeds: std::ops::Range<u64>, longest: usize, least: Met) {
    let mut met = Met::default();
    sweep(seeds, |seed| case(&mut Random::new(seed), longest), |bytes| meet(&mut met, bytes));
    let enough = met.shortened >= least.shortened && met.gained >= least.gained && met.emptied >= least.emptied;
    assert!(enough, "met {met:?}, asked for {least:?}");
}

#[test]
fn short_texts() {
    sweep_many(60_000..61_000, 40, Met { shortened: 500, gained: 270, emptied: 390 });
}

#[test]
fn texts() {
    sweep_many(62_000..63_000, 200, Met { shortened: 440, gained: 240, emptied: 290 });
}

#[test]
fn longer_texts() {
    sweep_many(64_000..64_500, 600, Met { shortened: 320, gained: 190, emptied: 160 });
}

#[test]
fn full_lines() {
    sweep_many(66_000..66_030, 4096, Met { shortened: 24, gained: 15, emptied: 17 });
}
