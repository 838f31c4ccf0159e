//! Running the built program `maplist` on given bytes, and on random cases beside the reference.
//! Assumes that HUDDLEWOOL_MAPLIST, where it is set, names the program; it is the repository's crates/maplist/out/maplist otherwise.

use std::env;
use std::io::Write;
use std::ops::Range;
use std::path::{Path, PathBuf};
use std::process::{ChildStdin, Command, Output, Stdio};
use std::thread;

use crate::reference::output::output;

/// The program's path. Panics where there is none: a test must not pass without it.
pub fn maplist() -> PathBuf {
    let path = match env::var_os("HUDDLEWOOL_MAPLIST") {
        Some(path) => PathBuf::from(path),
        None => Path::new(env!("CARGO_MANIFEST_DIR")).join("../crates/maplist/out/maplist"),
    };
    assert!(
        path.is_file(),
        "{} is missing: `rt run` in crates/maplist makes it, and host/test all that is needed",
        path.display()
    );
    path
}

/// Runs the program while `feed` writes its standard input, and returns what it printed.
/// The program may stop reading early, as what follows the third line is ignored, so `feed` ignores a pipe that nobody reads.
fn run(feed: impl FnOnce(ChildStdin) + Send) -> Output {
    let mut command = Command::new(maplist());
    command.stdin(Stdio::piped()).stdout(Stdio::piped()).stderr(Stdio::piped());
    let mut child = command.spawn().expect("the program starts");
    let stdin = child.stdin.take().expect("a pipe to the program");
    thread::scope(|scope| {
        scope.spawn(|| feed(stdin));
        child.wait_with_output().expect("the program ends")
    })
}

/// Runs the program on these bytes.
pub fn run_on(bytes: &[u8]) -> Output {
    run(|mut stdin| {
        let _ = stdin.write_all(bytes);
    })
}

/// Runs the program on these bytes, handed over in pieces of this size with a pause after each.
pub fn run_in_pieces(bytes: &[u8], size: usize, pause: std::time::Duration) -> Output {
    run(|mut stdin| {
        for piece in bytes.chunks(size) {
            let _ = stdin.write_all(piece);
            let _ = stdin.flush();
            thread::sleep(pause);
        }
    })
}

/// Panics unless the program printed exactly this, and ended with status 0.
pub fn expect(case: &str, input: &[u8], printed: &Output, expected: &[u8]) {
    let right = printed.status.code() == Some(0) && printed.stdout == expected;
    assert!(
        right,
        "{case}\ninput ({} bytes): {}\nexpected: {}\nprinted: {}\nstatus: {}",
        input.len(),
        input.escape_ascii(),
        expected.escape_ascii(),
        printed.stdout.escape_ascii(),
        printed.status
    );
}

/// Holds the reference and the program to an output that is written out in a test.
pub fn hold(input: &[u8], expected: &str) {
    assert_eq!(String::from_utf8_lossy(&output(input)), expected, "{}", input.escape_ascii());
    expect("an output", input, &run_on(input), expected.as_bytes());
}

/// An output with these lines behind the header.
pub fn listed(lines: &str) -> String {
    format!("first last score shared permille strand\n{lines}\n")
}

/// Runs the program on the case of each seed, and hands on what agrees with the reference.
pub fn sweep(seeds: Range<u64>, case: impl Fn(u64) -> Vec<u8>, mut meet: impl FnMut(&[u8])) {
    for seed in seeds {
        let bytes = case(seed);
        expect(&format!("seed {seed}"), &bytes, &run_on(&bytes), &output(&bytes));
        meet(&bytes);
    }
}
