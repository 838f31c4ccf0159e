//! The letters and entries of the speed table's jobs, all made from fixed seeds.

use host::cases::letters;
use host::random::Random;
use host::reference::sketch::rank;

pub const LETTERS: usize = 1_048_576;
pub const TEXT: usize = 65_535;

/// The entries of a read, as many as a session takes, and the letters of one, as many as `maplist` takes.
pub const READ: usize = 4_096;

/// The letters of a read whose reverse complement is made.
pub const LONG_READ: usize = 1_000_000;

/// The k of all sketches here.
pub const K: u32 = 15;

/// Random letters, in one run.
pub fn random_letters(number: usize) -> Vec<u8> {
    letters(&mut Random::new(1), number, b"ACGT")
}

/// Random letters, one in a hundred of which is an N, so that runs have some hundred letters.
pub fn with_foreign(number: usize) -> Vec<u8> {
    let mut random = Random::new(5);
    (0..number).map(|_| if random.once_in(100) { b'N' } else { random.one_of(b"ACGT") }).collect()
}

/// Random letters in lower case, in one run.
pub fn lower_case(number: usize) -> Vec<u8> {
    letters(&mut Random::new(6), number, b"acgt")
}

/// Letters outside the eight alone, which have no run.
pub fn only_foreign(number: usize) -> Vec<u8> {
    vec![b'N'; number]
}

/// The code behind one more letter.
fn rolled(code: u32, letter: usize) -> u32 {
    (code * 4 + letter as u32) % (1 << (2 * K))
}

/// At most so many letters that lead from this code to the lowest rank above `low` that can be had, with higher ranks on the way.
fn climb(code: u32, low: u64, letters: usize) -> Option<(u64, Vec<usize>)> {
    let through = |letter: usize| {
        let next = rolled(code, letter);
        let here = Some((rank(next), vec![letter])).filter(|end| end.0 > low);
        let further = if letters > 1 { climb(next, low, letters - 1) } else { None };
        let further = further.filter(|end| end.0 < rank(next)).map(|(end, rest)| (end, [vec![letter], rest].concat()));
        further.or(here)
    };
    (0..4).filter_map(through).min_by_key(|end| end.0)
}

/// Letters in which the lowest rank of a window leaves it as often as we can have it, with a little higher one to be found behind it:
/// ranks climb by steps of up to three letters as long as they can, and begin again.
pub fn climbing_letters(number: usize) -> Vec<u8> {
    let mut random = Random::new(4);
    let (mut code, mut low) = (0, 0);
    let mut made = Vec::with_capacity(number + 3);
    while made.len() < number {
        let path = match climb(code, low, 3) {
            Some((end, path)) => {
                low = end;
                path
            }
            None => {
                low = 0;
                vec![random.below(4)]
            }
        };
        for letter in path {
            code = rolled(code, letter);
            made.push(b"ACGT"[letter]);
        }
    }
    made.truncate(number);
    made
}

/// A code for each number below 2^30, in no order: multiplying by an odd number repeats none.
pub fn spread(number: usize) -> u32 {
    (number as u32).wrapping_mul(2_654_435_761) % (1 << 30)
}

/// Entries whose codes are all different, in no order.
pub fn all_different(number: usize) -> Vec<u32> {
    (0..number).map(spread).collect()
}

/// Entries that all have one code.
pub fn all_the_same(number: usize) -> Vec<u32> {
    vec![123_456_789; number]
}

/// Entries with codes that each occur some 16 times, in no order.
pub fn repeats(number: usize) -> Vec<u32> {
    drawn(2, number, number / 16)
}

/// A read of so many entries with the codes that the repeats of a whole text have, in another order.
pub fn read_of_repeats(number: usize) -> Vec<u32> {
    drawn(7, number, TEXT / 16)
}

/// Random entries with so many different codes.
fn drawn(seed: u64, number: usize, kinds: usize) -> Vec<u32> {
    let mut random = Random::new(seed);
    (0..number).map(|_| spread(random.below(kinds))).collect()
}

/// A read of so many entries: a stretch from the middle of the text.
pub fn stretch(text: &[u32], number: usize) -> Vec<u32> {
    text[(text.len() - number) / 2..][..number].to_vec()
}
