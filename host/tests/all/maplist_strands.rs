//! The program on both strands: beside lists that are written out here, beside the reference, and beside itself on the complemented
//! read.
//! Assumes that the program has been built.

use host::cases::{both_strands, palindrome, settings, three_lines, threshold_near};
use host::program::{expect, hold, listed, run_on, sweep};
use host::random::Random;
use host::reference::complement::reverse_complement;
use host::reference::faster::finals;
use host::reference::input::{Settings, input};
use host::reference::output::{output, prepared, prepared_run};
use host::reference::strand::Strand;

/// The number that refuses the read as each strand has it, 0 where it is accepted.
fn numbers(bytes: &[u8]) -> [u32; 2] {
    let input = input(bytes).expect("three lines");
    Strand::BOTH.map(|strand| prepared(&input, strand).map_or_else(|refusal| refusal.number, |_| 0))
}

/// Holds an input whose strands are refused with these numbers, 0 where one is accepted.
fn hold_refused(input: &[u8], strands: [u32; 2], printed: u32) {
    assert_eq!(numbers(input), strands, "{}", input.escape_ascii());
    hold(input, &format!("refused {printed}\n"));
}

#[test]
fn stated_lists() {
    hold(b"1 1 100 1 1 1\nACAG\nACG\n", &listed("1 3 3 3 1000 +\nfound 1 cells 13"));
    // a read of the other strand
    hold(b"3 1 100 1 1 1\nTTTGGG\nCCCAAA\n", &listed("0 5 4 4 1000 -\nfound 1 cells 10"));
    hold(b"3 1 100 1 1 1\nTTTGGG\ncCcaAa\n", &listed("0 5 4 4 1000 -\nfound 1 cells 10"));
    hold(b"3 1 100 1 1 1\ntttggg\nCCCAAA\n", &listed("0 5 4 4 1000 -\nfound 1 cells 10"));
    // the same read, and a text that has both strands of it: the forward read's line comes first, though it stands behind
    hold(b"3 1 100 1 1 1\nTTTGGGNCCCAAA\nCCCAAA\n", &listed("7 12 4 4 1000 +\n0 5 4 4 1000 -\nfound 2 cells 20"));
    hold(b"3 1 100 1 1 1\nCCCAAANTTTGGG\nCCCAAA\n", &listed("0 5 4 4 1000 +\n7 12 4 4 1000 -\nfound 2 cells 20"));
    // a read that is its own reverse complement has each place twice
    hold(b"3 1 100 1 1 1\nGAATTC\nGAATTC\n", &listed("0 5 4 4 1000 +\n0 5 4 4 1000 -\nfound 2 cells 20"));
    hold(b"3 1 100 1 1 5\nGAATTC\nGAATTC\n", &listed("found 0 cells 20"));
    // runs of the read stay runs, in reverse order
    let parts = "0 5 0 2 500 -\n3 5 0 1 500 -\n0 2 0 1 500 -\nfound 3 cells 3";
    hold(b"3 1 100 1 1 0\nTTTGGG\nCCCNAAA\n", &listed(parts));
    hold(b"3 1 100 1 1 0\nTTTGGG\nccc*aaa\n", &listed(parts));
    hold(b"3 1 100 1 1 0\nTTTGGG\nNCCCN-AAANN\n", &listed(parts));
    hold(b"3 1 100 1 1 0\n\nCCCAAA\n", &listed("found 0 cells 0"));
}

#[test]
fn reads_without_a_kmer() {
    for read in ["", "N", "A", "AC", "ACNGT", "nnnnnnnnnnnn", "AC-GT*ac"] {
        for text in ["", "ACG", "ACGTACGT"] {
            hold_refused(format!("3 1 100 1 1 -9\n{text}\n{read}\n").as_bytes(), [9, 9], 9);
        }
    }
}

/// A k-mer that the text has too often is struck from the strand that has it, and empties that strand alone or both.
#[test]
fn strands_that_are_struck() {
    hold_refused(b"1 1 1 1 1 0\nAAT\nA\n", [9, 0], 9);
    hold_refused(b"1 1 1 1 1 0\nAAT\nT\n", [0, 9], 9);
    hold_refused(b"1 1 1 1 1 0\nAAT\naNa\n", [9, 0], 9);
    hold_refused(b"1 1 1 1 1 0\nAATT\nA\n", [9, 9], 9);
    hold_refused(b"3 1 1 1 1 0\nAACNAACNGTT\nAAC\n", [9, 0], 9);
    hold_refused(b"3 1 1 1 1 0\nAACNAACNGTT\nGTT\n", [0, 9], 9);
    // one letter that is left is enough
    hold(b"1 1 1 1 1 0\nAAT\nAT\n", &listed("2 2 1 1 1000 +\n2 2 1 1 1000 -\nfound 2 cells 2"));
    hold(b"1 1 1 1 1 0\nAAT\nAC\n", &listed("2 2 0 1 500 -\nfound 1 cells 1"));
}

/// A line of so many A and C, and T up to a full line.
fn line_of(a: usize, c: usize) -> Vec<u8> {
    [vec![b'A'; a], vec![b'C'; c], vec![b'T'; 4096 - a - c]].concat()
}

/// The input of a full line and of a read.
fn full(first: &str, text: &[u8], read: &str) -> Vec<u8> {
    [first.as_bytes(), b"\n", text, b"\n", read.as_bytes(), b"\n"].concat()
}

#[test]
fn strands_with_too_many_hits() {
    let open = "1 1 65535 1 1 0";
    hold_refused(&full(open, &line_of(2049, 2047), "A"), [11, 0], 11);
    hold_refused(&full(open, &line_of(2049, 2047), "T"), [0, 11], 11);
    hold_refused(&full(open, &line_of(2049, 0), "A"), [11, 0], 11);
    hold_refused(&full(open, &line_of(2047, 0), "A"), [0, 11], 11);
    hold_refused(&full(open, &line_of(2047, 0), "T"), [11, 0], 11);
    hold_refused(&full(open, &line_of(1024, 2047), "AT"), [11, 11], 11);
    hold_refused(&full(open, &line_of(1024, 2047), "TA"), [11, 11], 11);
}

/// Both strands at the most hits that there may be: the last line sums 2,048 and 2,048 hits.
#[test]
fn as_many_hits_as_are_allowed_on_both_strands() {
    for (text, read) in [(line_of(2048, 0), "A"), (line_of(2048, 0), "T"), (line_of(1024, 2048), "AT"), (line_of(0, 2048), "AT")]
    {
        for threshold in [i32::MIN, 1, i32::MAX] {
            let input = full(&format!("1 1 65535 1 1 {threshold}"), &text, read);
            assert_eq!(numbers(&input), [0, 0]);
            let expected = output(&input);
            assert!(expected.ends_with(b" cells 4196352\n"), "{}", expected.escape_ascii());
            expect("4,096 hits", &input, &run_on(&input), &expected);
        }
    }
}

/// Both strands are refused with different numbers: A is struck, which empties the one, and C and T are 2,049 hits of the other.
#[test]
fn strands_that_are_refused_with_different_numbers() {
    let text = [vec![b'A'; 1033], vec![b'C'; 1032], vec![b'T'; 1031]].join(&b'N');
    let read = "GGGGAAAAA";
    hold_refused(&full("4 5 1025 1 1 0", &text, read), [9, 11], 9);
    hold_refused(&full("4 5 1025 1 1 0", &text, "TTTTTCCCC"), [11, 9], 11);
    // one A more is allowed, or one T fewer is there
    hold_refused(&full("4 5 1026 1 1 0", &text, read), [0, 11], 11);
    hold_refused(&full("4 5 1026 1 1 0", &text, "TTTTTCCCC"), [11, 0], 11);
    hold_refused(&full("4 5 1025 1 1 0", &text[..text.len() - 1], read), [9, 0], 9);
    hold_refused(&full("4 5 1025 1 1 0", &text[..text.len() - 1], "TTTTTCCCC"), [0, 9], 9);
    // both at their most
    let input = full("4 5 1026 1 1 2147483647", &text[..text.len() - 1], read);
    let cells = 1026 * 1027 / 2 + 2048 * 2049 / 2;
    hold(&input, &listed(&format!("found 0 cells {cells}")));
}

/// The mappings of a printed list, those of each strand by themselves and without their strand, and the cells. None where the run was
/// refused. Panics where a line of the forward strand stands behind one of the other.
fn printed(input: &[u8]) -> Option<([Vec<String>; 2], usize)> {
    let printed = String::from_utf8(run_on(input).stdout).expect("a list in ASCII");
    let mut lines: Vec<&str> = printed.lines().collect();
    let last: Vec<&str> = lines.pop().expect("a last line").split(' ').collect();
    let &["found", found, "cells", cells] = last.as_slice() else {
        assert_eq!(last[0], "refused", "{printed}");
        return None;
    };
    let of = |lines: &[&str], sign: &str| lines.iter().filter_map(|line| line.strip_suffix(sign)).map(String::from).collect();
    let lists: [Vec<String>; 2] = [of(&lines[1..], " +"), of(&lines[1..], " -")];
    let first = &lines[1..][..lists[0].len()];
    assert!(first.iter().all(|line| line.ends_with('+')), "{printed}");
    assert_eq!(lists[0].len() + lists[1].len(), lines.len() - 1, "{printed}");
    assert_eq!(found, (lines.len() - 1).to_string(), "{printed}");
    Some((lists, cells.parse().expect("a number of cells")))
}

/// A case of text and read whose threshold is, mostly, at a score that some interval has on either strand, or one beside it.
fn case(random: &mut Random, longest: usize, text: &[u8], read: &[u8]) -> Vec<u8> {
    let mut settings = settings(random, longest);
    let open = three_lines(&Settings { scoring: settings.scoring.open(), ..settings }, text, read);
    if let Ok(run) = prepared_run(&input(&open).expect("three lines"))
        && random.below(5) > 0
        && let found @ [_, ..] = run.map(|of| finals(&of.task)).concat().as_slice()
    {
        let score = found[random.below(found.len())].score;
        settings.scoring = threshold_near(settings.scoring, score, -(random.below(3) as i32));
    }
    three_lines(&settings, text, read)
}

/// What a sweep met, so that it can't pass on one strand alone.
#[derive(Debug, Default)]
struct Met {
    /// lists with mappings on both strands, on the forward strand alone, on the other alone
    both: usize,
    forward: usize,
    reverse: usize,
    /// runs that are refused for one strand alone
    one_refused: usize,
}

fn meet(met: &mut Met, bytes: &[u8]) {
    let Ok(run) = prepared_run(&input(bytes).expect("three lines")) else {
        met.one_refused += usize::from(numbers(bytes).contains(&0));
        return;
    };
    match run.map(|of| !finals(&of.task).is_empty()) {
        [true, true] => met.both += 1,
        [true, false] => met.forward += 1,
        [false, true] => met.reverse += 1,
        [false, false] => {}
    }
}

/// Sweeps so many clusters with copies on both strands, and asks that enough of each kind were met.
fn sweep_many(seeds: std::ops::Range<u64>, longest: usize, least: Met) {
    let mut met = Met::default();
    let made = |seed: u64| {
        let mut random = Random::new(seed);
        let (text, read) = both_strands(&mut random, longest);
        case(&mut random, longest, &text, &read)
    };
    sweep(seeds, made, |bytes| meet(&mut met, bytes));
    let strands = met.both >= least.both && met.forward >= least.forward && met.reverse >= least.reverse;
    assert!(strands && met.one_refused >= least.one_refused, "met {met:?}, asked for {least:?}");
}

#[test]
fn tiny_clusters() {
    sweep_many(70_000..72_000, 20, Met { both: 700, forward: 180, reverse: 190, one_refused: 160 });
}

#[test]
fn clusters() {
    sweep_many(72_000..73_500, 100, Met { both: 420, forward: 220, reverse: 190, one_refused: 100 });
}

#[test]
fn longer_clusters() {
    sweep_many(74_000..74_600, 400, Met { both: 210, forward: 75, reverse: 80, one_refused: 24 });
}

#[test]
fn full_lines() {
    sweep_many(75_000..75_030, 4096, Met { both: 10, forward: 3, reverse: 1, one_refused: 1 });
}

/// A read and its reverse complement have the same lists on exchanged strands, and so has the read in lower case.
#[test]
fn complemented_reads() {
    let mut lists = 0;
    for seed in 76_000..77_000 {
        let mut random = Random::new(seed);
        let (text, read) = both_strands(&mut random, 80);
        let bytes = case(&mut random, 80, &text, &read);
        let settings = input(&bytes).expect("three lines").settings;
        let as_read = |read: &[u8]| printed(&three_lines(&settings, &text, read));
        let given = as_read(&read);
        assert_eq!(as_read(&read.to_ascii_lowercase()), given, "seed {seed}");
        let exchanged = given.map(|([forward, reverse], cells)| ([reverse, forward], cells));
        assert_eq!(as_read(&reverse_complement(&read)), exchanged, "seed {seed}");
        lists += usize::from(exchanged.is_some_and(|(lists, _)| lists.iter().all(|list| !list.is_empty())));
    }
    assert!(lists > 300, "lists with mappings on both strands: {lists}");
}

/// Each place of a palindrome is listed on both strands.
#[test]
fn palindromic_reads() {
    let mut lists = 0;
    for seed in 78_000..78_600 {
        let mut random = Random::new(seed);
        let half = random.between(1, 12);
        let read = palindrome(&mut random, half);
        let (before, _) = both_strands(&mut random, 60);
        let text = [before.as_slice(), &read, &before].concat();
        let bytes = case(&mut random, 100, &text, &read);
        expect(&format!("seed {seed}"), &bytes, &run_on(&bytes), &output(&bytes));
        if let Some(([forward, reverse], cells)) = printed(&bytes) {
            assert_eq!(forward, reverse, "seed {seed}");
            assert_eq!(cells % 2, 0, "seed {seed}");
            lists += usize::from(!forward.is_empty());
        }
    }
    assert!(lists > 350, "lists with mappings: {lists}");
}
