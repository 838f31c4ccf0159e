//! Prints how much stack each exported call and the program `maplist` need at their largest input: the least, in whole pages, on
//! which they do not overflow. Ends with status 1 where one needs more than 1.5 MiB.
//! Assumes that an overflow ends the process: a compiled function touches each page of its frame in turn, so it can't step over
//! the page that guards the stack.

use host::exported::{self, StepWords};
use host::program;
use host::random::Random;
use std::env;
use std::io::Write;
use std::process::{Command, ExitCode, Stdio};
use std::thread;

const CALLS: [&str; 13] = [
    "nothing", "reverse complement", "sketch", "count", "strike", "strike of the read", "save", "load", "start",
    "start, Jaccard", "step", "step, Jaccard", "per mille",
];

/// In KiB: a page, the least stack that a thread is given, and the most that a call may need.
const PAGE: usize = 4;
const LEAST: usize = 16;
const MOST: usize = 1536;

const LETTERS: usize = 1_048_576;
const ENTRIES: usize = 65_535;

/// A read's entries: the read has no limit of its own, and is taken in blocks of as many entries as a text may have.
const READ: usize = 200_000;

/// A call with its arguments. It tells whether it answered as it should.
type Call = Box<dyn FnOnce() -> bool + Send>;

fn letters(n: usize) -> Vec<u8> {
    let mut random = Random::new(1);
    (0..n).map(|_| random.one_of(b"ACGT")).collect()
}

/// So many words that fall, each of them twice but for the ends. With c = 1 they are sorted, nearly all are found to be frequent, and
/// each is looked up among these. Buffers without room for all of them have the entries counted before they are written.
fn twice_each(n: usize) -> Vec<u32> {
    (1..=n as u32).rev().map(|word| word / 2).collect()
}

/// Text, pattern and work words for a start with all that it accepts: 2,048 hits, and a pattern that falls, so that it is sorted.
fn task() -> (Vec<u32>, Vec<u32>, Vec<u32>) {
    ((0..ENTRIES as u32).collect(), (63_487..67_583).rev().collect(), vec![0; 16_384])
}

/// The call at its largest input. What comes before it, and the buffers, do not lie on the stack that is measured.
fn call(name: &str) -> Call {
    let mut number = u32::MAX;
    match name {
        "reverse complement" => {
            let (read, mut out) = (letters(LETTERS), vec![0; LETTERS]);
            Box::new(move || exported::reverse_complement(&read, &mut out, &mut number) == LETTERS && number == 0)
        }
        "sketch" => {
            // Buffers shorter than the letters, so that the entries are counted before they are written.
            let letters = letters(LETTERS);
            let n = host::count(&letters, 15, 64) as usize;
            let (mut codes, mut positions) = (vec![0; n], vec![0; n]);
            Box::new(move || exported::sketch(&letters, 15, 64, &mut codes, &mut positions, &mut number) == n && number == 0)
        }
        "count" => {
            let letters = letters(LETTERS);
            Box::new(move || host::count(&letters, 15, 64) > 0)
        }
        "strike" => {
            let codes = twice_each(ENTRIES);
            let (positions, mut codes_out, mut positions_out) = (codes.clone(), vec![0; 1], vec![0; 1]);
            Box::new(move || {
                exported::strike(&codes, &positions, 1, &mut codes_out, &mut positions_out, &mut number) == 1 && number == 0
            })
        }
        "strike of the read" => {
            let (text, codes) = (twice_each(ENTRIES), twice_each(READ));
            let rest = READ - ENTRIES + 1;
            let (positions, mut codes_out, mut positions_out) = (codes.clone(), vec![0; rest], vec![0; rest]);
            Box::new(move || {
                let n = exported::strike_read(&text, &codes, &positions, 1, &mut codes_out, &mut positions_out, &mut number);
                n == rest && number == 0
            })
        }
        "save" | "load" => {
            let mut codes: Vec<u32> = (0..LETTERS as u32).collect();
            let (mut positions, mut words) = (codes.clone(), vec![0; 2 * LETTERS + 2]);
            if name == "save" {
                return Box::new(move || {
                    exported::save(&codes, &positions, 15, 64, &mut words, &mut number) == words.len() && number == 0
                });
            }
            exported::save(&codes, &positions, 15, 64, &mut words, &mut number);
            let (mut k, mut w) = (0, 0);
            Box::new(move || {
                exported::load(&words, &mut codes, &mut positions, &mut k, &mut w, &mut number) == LETTERS && number == 0
            })
        }
        "start" => {
            let (text, pattern, mut work) = task();
            Box::new(move || exported::start(&text, &pattern, 1, 1, i32::MAX, &mut work, &mut number) == 2048 && number == 0)
        }
        "start, Jaccard" => {
            let (text, pattern, mut work) = task();
            Box::new(move || exported::start_jaccard(&text, &pattern, 1, 1, &mut work, &mut number) == 2048 && number == 0)
        }
        "step, Jaccard" => {
            let (text, pattern, mut work) = task();
            exported::start_jaccard(&text, &pattern, 1, 1, &mut work, &mut number);
            let mut words = StepWords::default();
            Box::new(move || exported::step(&mut work, u32::MAX, &mut words) == 1 && words.cells == 2_098_176)
        }
        "step" => {
            let (text, pattern, mut work) = task();
            exported::start(&text, &pattern, 1, 1, i32::MAX, &mut work, &mut number);
            let mut words = StepWords::default();
            Box::new(move || exported::step(&mut work, u32::MAX, &mut words) == 1 && words.cells == 2_098_176)
        }
        "per mille" => Box::new(|| host::per_mille(4096, 65_535, 4096) > 0),
        "nothing" => Box::new(|| true),
        _ => panic!("no call {name}"),
    }
}

/// Whether the call ends well in a thread with this stack. It has a process of its own, since an overflow ends the process.
fn call_fits(name: &str, kib: usize) -> bool {
    let program = env::current_exe().expect("the path of this program");
    let mut child = Command::new(program);
    child.args([name, &kib.to_string()]).stderr(Stdio::null());
    child.status().expect("a process").success()
}

/// Whether `maplist` ends well on this stack. A stack begins at a random place and holds the environment: so the size has to do
/// several times, and the environment is left out.
fn maplist_fits(input: &[u8], kib: usize) -> bool {
    let fits = || {
        let mut shell = Command::new("sh");
        shell.args(["-c", "ulimit -s \"$0\" && exec \"$1\"", &kib.to_string()]).arg(program::maplist()).env_clear();
        shell.stdin(Stdio::piped()).stdout(Stdio::null()).stderr(Stdio::null());
        let mut child = shell.spawn().expect("a shell");
        // A program that has ended reads nothing; its status tells.
        let _ = child.stdin.take().expect("a pipe").write_all(input);
        child.wait().expect("a status").success()
    };
    (0..20).all(|_| fits())
}

/// The least stack that fits, in KiB.
fn least(fits: impl Fn(usize) -> bool) -> Option<usize> {
    let (mut low, mut high) = (LEAST / PAGE, MOST / PAGE);
    if !fits(MOST) {
        return None;
    }
    while low < high {
        let middle = (low + high) / 2;
        if fits(middle * PAGE) {
            high = middle;
        } else {
            low = middle + 1;
        }
    }
    Some(high * PAGE)
}

/// Prints a row of the table, and tells whether the need is within the limit.
fn row(name: &str, need: Option<usize>) -> bool {
    println!("{name:18} {}", need.map_or(format!("over {MOST} KiB, or it fails"), |kib| format!("{kib:5} KiB")));
    need.is_some()
}

fn main() -> ExitCode {
    let arguments: Vec<String> = env::args().skip(1).collect();
    let right = if let [name, kib] = arguments.as_slice() {
        let bytes = kib.parse::<usize>().expect("a number of KiB") << 10;
        thread::Builder::new().stack_size(bytes).spawn(call(name)).expect("a thread").join().expect("an answer")
    } else {
        let sequence = letters(4096);
        let input = [b"15 4 100 1 1 0\n", sequence.as_slice(), b"\n", &sequence, b"\n"].concat();
        let calls = CALLS.map(|name| row(name, least(|kib| call_fits(name, kib))));
        row("maplist", least(|kib| maplist_fits(&input, kib))) && !calls.contains(&false)
    };
    if right { ExitCode::SUCCESS } else { ExitCode::FAILURE }
}
