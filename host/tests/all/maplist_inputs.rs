//! The program on malformed, damaged and extreme inputs, beside the reference.
//! Assumes that the program has been built.

use std::time::Duration;

use host::cases::{cluster, letters, settings, three_lines};
use host::program::{expect, run_in_pieces, run_on};
use host::random::Random;
use host::reference::output::output;

fn hold(case: &str, input: &[u8]) {
    expect(case, input, &run_on(input), &output(input));
}

/// Holds the program to the reference on an input that must be refused as input.
fn hold_refused(case: &str, input: &[u8]) {
    assert_eq!(output(input), b"refused input\n", "{case}: {}", input.escape_ascii());
    hold(case, input);
}

const LINES: &[u8] = b"\nACAGTTACAGACG\nACAGACG\n";

#[test]
fn fields_of_the_first_line() {
    let goods = [["2", "3", "100", "1", "1", "1"], ["2", "3", "100", "1", "5", "jaccard"]];
    let fields: [&[u8]; 46] = [
        b"", b"-", b"+", b"+1", b"01", b"00", b"-0", b"-00", b"-01", b"-1", b"--1", b"-+1", b"1-", b"1.", b"1.0", b"0x1", b"1e1",
        b"1,", b"a", b"1a", b"A", b"\t1", b"1\t", b"1\r", b"\x001", b"1\0", b"\0", b"\xb2", b"\xff", b"/", b":", b"1_000", b"0",
        b"1", b"2147483647", b"2147483648", b"-2147483647", b"-2147483648", b"-2147483649", b"4294967295", b"4294967296",
        b"4294967297", b"-4294967295", b"-4294967297", b"jaccard", b"linear",
    ];
    let longer =
        [10_000_000_000, 42_949_672_970, 99_999_999_999, (1 << 64) + 1, (1 << 63) + 1, 10u128.pow(38)].map(|n| n.to_string());
    let long = [vec![b'1'; 70], vec![b'0'; 300], vec![b'9'; 5000], vec![b'1'; 20_000]];
    for (good, at) in goods.iter().flat_map(|good| (0..good.len()).map(move |at| (good, at))) {
        let longer = longer.iter().map(String::as_bytes).chain(long.iter().map(Vec::as_slice));
        for field in fields.iter().copied().chain(longer) {
            let mut line: Vec<&[u8]> = good.iter().map(|field| field.as_bytes()).collect();
            line[at] = field;
            hold(&format!("field {at}"), &[line.join(&b' '), LINES.to_vec()].concat());
        }
    }
}

#[test]
fn malformed_first_lines() {
    let lines: [&[u8]; 26] = [
        b"", b" ", b"2", b"2 3 100 1 1", b"2 3 100 1 1 ", b"2 3 100 1 1 1 ", b" 2 3 100 1 1 1", b"2 3 100 1 1 1 1",
        b"2  3 100 1 1 1", b"2 3  100 1 1 1", b"2 3 100  1 1 1", b"2 3 100 1  1 1", b"2 3 100 1 1  1", b"2\t3\t100\t1\t1\t1",
        b"2 3 100 1 1\t1", b"2 3 100 1 1 1\r", b"2,3,100,1,1,1", b"2 3 100 1 1 - 1", b"2 3 100 1 1 1-", b"2 3 100 1 1 -",
        b"-2 3 100 1 1 1", b"\xef\xbb\xbf2 3 100 1 1 1", b"k w c u v threshold", b"2 3 100 1 1 1\0", b"\n2 3 100 1 1 1",
        b"2 3 100\n1 1 1",
    ];
    for line in lines {
        hold_refused("a first line", &[line, LINES].concat());
    }
    hold("a good first line", &[b"2 3 100 1 1 1", LINES].concat());
}

#[test]
fn missing_lines() {
    let inputs: [&[u8]; 12] = [
        b"",
        b"\n",
        b"\n\n",
        b"\n\n\n",
        b"1 1 100 1 1 1",
        b"1 1 100 1 1 1\n",
        b"1 1 100 1 1 1\n\n",
        b"1 1 100 1 1 1\nACAG",
        b"1 1 100 1 1 1\nACAG\n",
        b"1 1 100 1 1 1\nACAG\nACG",
        b"1 1 100 1 1 1 ACAG ACG\n",
        b"1 1 100 1 1 1\r\nACAG\r\nACG\r\n",
    ];
    for input in inputs {
        hold_refused("lines missing", input);
    }
    hold("the example", b"1 1 100 1 1 1\nACAG\nACG\n");
    hold("empty text", b"1 1 100 1 1 1\n\nACG\n");
    hold("empty read", b"1 1 100 1 1 1\nACAG\n\n");
    hold("both empty", b"1 1 100 1 1 1\n\n\n");
}

#[test]
fn what_follows_the_third_line_is_ignored() {
    let start = b"1 1 100 1 1 1\nACAG\nACG\n".to_vec();
    for rest in [b"x".to_vec(), b"\n".to_vec(), b"1 1 100 1 1 1\nACAG\nACG\n".to_vec(), vec![b'A'; 5000], vec![0; 3_000_000]] {
        hold("a rest", &[start.as_slice(), &rest].concat());
    }
}

/// The longest first line that is well formed, one that is accepted too, and some others.
const FIRST_LINES: [&[u8]; 8] = [
    b"4294967295 4294967295 4294967295 4294967295 4294967295 -2147483648",
    b"15 64 65535 1000 1000 -2147483648",
    b"15 64 100 1 1 1",
    b"7 20 3 2 1 -40",
    b"0 64 100 1 1 1",
    b"15 64 100 1 1 1x",
    b"15 64 65535 1000 1000 jaccard",
    b"4294967295 4294967295 4294967295 4294967295 4294967295 jaccard",
];

#[test]
fn lengths_of_the_text_and_read_lines() {
    let mut random = Random::new(1000);
    for text in [0, 1, 4095, 4096, 4097, 9000] {
        for read in [0, 1, 4095, 4096, 4097, 9000] {
            for first in FIRST_LINES {
                let (text, read) = (letters(&mut random, text, b"ACGT"), letters(&mut random, read, b"ACGT"));
                let lines = [first, b"\n", &text, b"\n", &read, b"\n"].concat();
                hold("lengths", &lines);
                hold("without the last line feed", &lines[..lines.len() - 1]);
                hold("with a rest", &[&lines, b"A\nACGT".as_slice()].concat());
            }
        }
    }
    for length in [65_535, 65_536, 70_000, 200_000] {
        hold_refused("a long first line", &vec![b'1'; length]);
        hold_refused("a long text line", &[b"1 1 1 1 1 1\n", vec![b'A'; length].as_slice(), b"\nA\n"].concat());
        hold_refused("a long read line", &[b"1 1 1 1 1 1\nA\n", vec![b'A'; length].as_slice(), b"\n"].concat());
    }
}

#[test]
fn refusals_in_their_order() {
    for k in [0, 1, 15, 16] {
        for w in [0, 1, 64, 65] {
            for c in [0, 1, 65_535, 65_536] {
                for (u, v) in [(0, 1), (1, 0), (1, 1), (1000, 1000), (1001, 1), (1, 1001)] {
                    for read in ["ACGTACGTACGTACGTACGT", "NNNN"] {
                        hold("refusals", format!("{k} {w} {c} {u} {v} 0\nACGTACGTACGTACGTACGTACGT\n{read}\n").as_bytes());
                    }
                }
            }
        }
    }
}

#[test]
fn damaged_inputs() {
    let input = b"2 2 5 2 1 -3\nACAGTTACAGACGNNCAGacgTTACA\nACAGACGTTA\n";
    for at in 0..=input.len() {
        hold("cut off", &input[..at]);
        hold("a byte too many", &[&input[..at], b"\n", &input[at..]].concat());
        hold("a byte too many", &[&input[..at], b" ", &input[at..]].concat());
    }
    for at in 0..input.len() {
        hold("a byte too few", &[&input[..at], &input[at + 1..]].concat());
        for byte in [0, b'\n', b'0', b'-', b' ', b'N', 255, input[at] ^ 0x80, input[at] ^ 1] {
            let mut changed = input.to_vec();
            changed[at] = byte;
            hold("another byte", &changed);
        }
    }
}

#[test]
fn damaged_clusters() {
    for seed in 1100..1500 {
        let mut random = Random::new(seed);
        let (text, read) = cluster(&mut random, 120);
        let mut input = three_lines(&settings(&mut random, 120), &text, &read);
        for _ in 0..random.between(1, 3) {
            let at = random.below(input.len());
            match random.below(4) {
                0 => input.truncate(at + 1),
                1 => input[at] = random.below(256) as u8,
                2 => input.insert(at, random.one_of(b"\n -0195ACGTN")),
                _ => drop(input.drain(at..(at + 3).min(input.len()))),
            }
        }
        hold(&format!("seed {seed}"), &input);
    }
}

#[test]
fn arbitrary_bytes() {
    for seed in 1500..1900 {
        let mut random = Random::new(seed);
        let length = random.below(400);
        let mut bytes: Vec<u8> = match seed % 3 {
            0 => (0..length).map(|_| random.below(256) as u8).collect(),
            1 => letters(&mut random, length, b"0123456789 -\nACGT"),
            _ => [b"2 2 9 1 1 -5\n", letters(&mut random, length, b"ACGTacgt\0\xff\r ").as_slice(), b"\nACGTAACCA\n"].concat(),
        };
        if random.once_in(4) {
            bytes.push(b'\n');
        }
        hold(&format!("seed {seed}"), &bytes);
    }
}

#[test]
fn input_in_pieces() {
    let mut random = Random::new(1900);
    let (text, read) = (letters(&mut random, 4096, b"ACGT"), letters(&mut random, 4096, b"ACGT"));
    let long = [b"9 30 5 1 1 -100000\n".as_slice(), &text, b"\n", &read, b"\n"].concat();
    for (input, size) in [(b"1 1 100 1 1 1\nACAG\nACG\n".to_vec(), 1), (long.clone(), 700), (long[..6000].to_vec(), 999)] {
        let printed = run_in_pieces(&input, size, Duration::from_millis(2));
        expect("in pieces", &input, &printed, &output(&input));
    }
}
