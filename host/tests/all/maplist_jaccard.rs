//! The program under the weighted Jaccard: beside lists that are written out here, and beside the reference.
//! Assumes that the program has been built.

use std::ops::Range;

use host::cases::{both_strands, cluster, fraction_near, jaccard_settings, letters, three_lines, through_a_repeat};
use host::program::{expect, hold, listed, run_on, sweep};
use host::random::Random;
use host::reference::definition1::Mapping;
use host::reference::faster::finals;
use host::reference::input::{Settings, input};
use host::reference::output::{output, prepared_run};
use host::reference::score::Score;

#[test]
fn stated_lists() {
    hold(b"1 1 100 1 2 jaccard\nACAG\nACG\n", &listed("1 3 3/3 3 1000 +\n1 3 2/4 2 500 -\nfound 2 cells 13"));
    hold(b"1 1 100 2 3 jaccard\nACAG\nACG\n", &listed("1 3 3/3 3 1000 +\nfound 1 cells 13"));
    hold(b"1 1 100 1 1 jaccard\nACAG\nACG\n", &listed("1 3 3/3 3 1000 +\nfound 1 cells 13"));
    // the fraction is not reduced: 1/2 and 2/4 stand side by side, since they are equal scores
    let halves = "0 3 2/4 2 500 +\n3 3 1/2 1 500 +\n0 0 1/2 1 500 +\n2 2 1/2 1 500 -\n1 1 1/2 1 500 -\nfound 5 cells 6";
    for threshold in ["0 1", "1 1000", "1 2", "2 4", "500 1000", "499 1000"] {
        hold(format!("1 1 100 {threshold} jaccard\nATTC\nAC\n").as_bytes(), &listed(halves));
    }
    for threshold in ["501 1000", "2 3", "1 1", "1000 1000"] {
        hold(format!("1 1 100 {threshold} jaccard\nATTC\nAC\n").as_bytes(), &listed("found 0 cells 6"));
    }
    // the other strand
    hold(b"3 1 100 1 1 jaccard\nTTTGGG\nCCCAAA\n", &listed("0 5 4/4 4 1000 -\nfound 1 cells 10"));
    hold(b"3 1 100 0 1 jaccard\n\nCCCAAA\n", &listed("found 0 cells 0"));
}

/// 17 stands in the place of 7: behind what sketch and strike refuse, and before an empty pattern.
#[test]
fn refusals_in_their_order() {
    for (numbers, refused) in [
        ("0 0", true),
        ("1 0", true),
        ("2 1", true),
        ("1000 999", true),
        ("0 1001", true),
        ("1001 1001", true),
        ("4294967295 4294967295", true),
        ("0 1", false),
        ("0 1000", false),
        ("1 1", false),
        ("999 1000", false),
        ("1000 1000", false),
    ] {
        for read in ["A", "", "N", "AC"] {
            for text in ["AA", "", "AAC"] {
                let printed = |measures: &str, number: u32| {
                    let input = format!("{measures} {numbers} jaccard\n{text}\n{read}\n");
                    hold(input.as_bytes(), &format!("refused {number}\n"));
                };
                printed("0 0 0", 1);
                printed("31 1 1", 1);
                printed("1 0 0", 2);
                printed("1 1 0", 6);
                if refused {
                    printed("1 1 1", 17);
                } else if read.is_empty() || read == "N" {
                    printed("1 1 1", 9);
                }
            }
        }
    }
}

#[test]
fn words_for_the_threshold() {
    let rest = "\nACAG\nACG\n";
    for word in [
        "Jaccard", "JACCARD", "jaccar", "jaccardd", "jaccard ", " jaccard", "jaccard\t", "jaccard\r", "\"jaccard\"", "-jaccard",
        "jaccard1", "1jaccard", "jaccard 1", "1 jaccard", "j", "jac card", "jaccard\0", "linear", "jaccard/2", "1/2", "",
    ] {
        hold(format!("1 1 100 1 2 {word}{rest}").as_bytes(), "refused input\n");
    }
    for numbers in
        ["jaccard 2", "1 jaccard", "-1 2", "1 -2", "01 2", "1 02", "1/2 1", "1 4294967296", "4294967296 1", "+1 2", "1.0 2"]
    {
        hold(format!("1 1 100 {numbers} jaccard{rest}").as_bytes(), "refused input\n");
    }
    for first in ["1 1 1 2 jaccard", "1 1 100 1 2 jaccard 1", "1 1 jaccard 1 2 jaccard", "jaccard 1 100 1 2 jaccard"] {
        hold(format!("{first}{rest}").as_bytes(), "refused input\n");
    }
}

/// Every byte of the word, one too many and one too few.
#[test]
fn damaged_words() {
    let input = b"2 2 5 1 5 jaccard\nACAGTTACAGACGNNCAGacgTTACA\nACAGACGTTA\n";
    let check = |case: &str, bytes: &[u8]| expect(case, bytes, &run_on(bytes), &output(bytes));
    for at in 0..18 {
        check("cut off", &input[..at]);
        check("a byte too few", &[&input[..at], &input[at + 1..]].concat());
        for byte in [0, b'\n', b'0', b'-', b' ', b'a', b'j', b'/', 255, input[at] ^ 0x80, input[at] ^ 1, input[at] ^ 0x20] {
            let mut changed = input.to_vec();
            changed[at] = byte;
            check("another byte", &changed);
            check("a byte too many", &[&input[..at], &[byte], &input[at..]].concat());
        }
    }
}

/// A case whose threshold is, mostly, at a score that some interval has on either strand, or beside one.
fn case(random: &mut Random, longest: usize, (text, read): (Vec<u8>, Vec<u8>)) -> Vec<u8> {
    let mut settings = jaccard_settings(random, longest);
    let open = three_lines(&Settings { scoring: settings.scoring.open(), ..settings }, &text, &read);
    if let Ok(run) = prepared_run(&input(&open).expect("three lines"))
        && random.below(4) > 0
        && let found @ [_, ..] = run.map(|of| finals(&of.task)).concat().as_slice()
    {
        let score = random.one_of(found).score;
        settings.scoring = fraction_near(random, score);
    }
    three_lines(&settings, &text, &read)
}

/// What a sweep met, so that it can't pass on empty lists.
#[derive(Debug, Default)]
struct Met {
    /// lists with mappings on both strands, and on one alone
    both: usize,
    one: usize,
    /// lists with equal scores in different numbers
    ties: usize,
    refused: usize,
}

/// Whether two scores are equal and not the same fraction.
fn has_tie(list: &[Mapping]) -> bool {
    let tie = |one: &Mapping, other: &Mapping| one.score != other.score && one.score.compare(other.score).is_eq();
    list.iter().any(|one| list.iter().any(|other| tie(one, other)))
}

fn meet(met: &mut Met, bytes: &[u8]) {
    let Ok(run) = prepared_run(&input(bytes).expect("three lines")) else {
        met.refused += 1;
        return;
    };
    let lists = run.map(|of| finals(&of.task));
    assert!(lists.iter().flatten().all(|mapping| matches!(mapping.score, Score::Fraction { .. })));
    match lists.each_ref().map(|list| !list.is_empty()) {
        [true, true] => met.both += 1,
        [false, false] => {}
        _ => met.one += 1,
    }
    met.ties += usize::from(has_tie(&lists.concat()));
}

/// Makes letters of at most so many.
type Make = fn(&mut Random, usize) -> (Vec<u8>, Vec<u8>);

/// Sweeps so many cases, and asks that enough of each kind were met.
fn sweep_many(seeds: Range<u64>, longest: usize, make: Make, least: Met) {
    let mut met = Met::default();
    let made = |seed: u64| {
        let mut random = Random::new(seed);
        let letters = make(&mut random, longest);
        case(&mut random, longest, letters)
    };
    sweep(seeds, made, |bytes| meet(&mut met, bytes));
    let enough = met.both >= least.both && met.one >= least.one && met.ties >= least.ties && met.refused >= least.refused;
    assert!(enough, "met {met:?}, asked for {least:?}");
}

#[test]
fn tiny_clusters() {
    sweep_many(80_000..81_500, 20, cluster, Met { both: 300, one: 480, ties: 36, refused: 430 });
}

#[test]
fn clusters() {
    sweep_many(82_000..83_000, 120, cluster, Met { both: 100, one: 420, ties: 36, refused: 190 });
}

#[test]
fn copies_on_both_strands() {
    sweep_many(84_000..85_000, 100, both_strands, Met { both: 360, one: 280, ties: 110, refused: 190 });
}

#[test]
fn longer_copies_on_both_strands() {
    sweep_many(86_000..86_300, 500, both_strands, Met { both: 110, one: 95, ties: 42, refused: 45 });
}

#[test]
fn reads_through_repeats() {
    sweep_many(87_000..87_600, 200, through_a_repeat, Met { both: 100, one: 300, ties: 34, refused: 88 });
}

#[test]
fn full_lines() {
    sweep_many(88_000..88_030, 4096, both_strands, Met { both: 10, one: 8, ties: 4, refused: 5 });
}

/// 2,048 hits, whose greatest divisor is 8,191, and a read as long as a line.
#[test]
fn as_many_hits_as_are_allowed() {
    let mut random = Random::new(89_000);
    let text = [vec![b'A'; 2048], letters(&mut random, 2048, b"C")].concat();
    for read in [1, 100, 4096] {
        for threshold in ["0 1", "1 1000", "1 3", "1 1"] {
            let first = format!("1 1 65535 {threshold} jaccard\n");
            let input = [first.as_bytes(), &text, b"\n", &vec![b'A'; read], b"\n"].concat();
            let expected = output(&input);
            assert!(expected.ends_with(b" cells 2098176\n"), "{}", expected.escape_ascii());
            expect("2,048 hits", &input, &run_on(&input), &expected);
        }
    }
}
