//! Runs of one job each: a call on given input, its time, and a checksum of all that it made. The words or bytes of an output buffer
//! behind those that were written are summed too, since they must stay.

use std::hint::black_box;

use host::reference::score::Scoring;

use crate::made::Made;
use crate::plain::work::WORK_WORDS;
use crate::signatures::{Complement, Count, Shared, Sketch, Start, Strike, StrikeRead};
use crate::timing::{Run, timed};

const C: u32 = 16;
pub const U: u32 = 3;
pub const V: u32 = 2;
const LINEAR: Scoring = Scoring::Linear { u: U, v: V, threshold: 0 };

/// What an output buffer and the work words hold before a run.
pub const BEFORE: u32 = 1;

/// A number, and all words of two buffers.
fn made(number: i32, codes: &[u32], positions: &[u32]) -> Made {
    assert!(number >= 0, "an accepted call, and not refused with {}", -number);
    Made::of([number as u32].into_iter().chain(codes.iter().chain(positions).copied()))
}

/// The same call so many times, since one of a short read takes less than the clock can tell; the output has 16 bytes to spare.
pub fn complement_run(complement: Complement, read: &[u8], times: usize) -> Run<'_> {
    let mut out = vec![BEFORE as u8; read.len() + 16];
    Box::new(move || {
        let (time, number) = timed(|| {
            let mut number = 0;
            for _ in 0..times {
                number = complement(black_box(read), black_box(&mut out));
            }
            number
        });
        assert_eq!(number, read.len() as i32, "an accepted call");
        (time, Made::of(out.iter().map(|&byte| u32::from(byte))))
    })
}

pub fn count_run(count: Count, letters: &[u8], k: u32, w: u32) -> Run<'_> {
    Box::new(move || {
        let (time, number) = timed(|| count(letters, k, w));
        (time, made(number, &[], &[]))
    })
}

pub fn sketch_run(sketch: Sketch, letters: &[u8], k: u32, w: u32) -> Run<'_> {
    let (mut codes, mut positions) = (vec![BEFORE; letters.len()], vec![BEFORE; letters.len()]);
    Box::new(move || {
        let (time, number) = timed(|| sketch(letters, k, w, &mut codes, &mut positions));
        (time, made(number, &codes, &positions))
    })
}

pub fn strike_run<'a>(strike: Strike, codes: &'a [u32], positions: &'a [u32]) -> Run<'a> {
    let (mut out_codes, mut out_positions) = (vec![BEFORE; codes.len()], vec![BEFORE; codes.len()]);
    Box::new(move || {
        let (time, number) = timed(|| strike(codes, positions, C, &mut out_codes, &mut out_positions));
        (time, made(number, &out_codes, &out_positions))
    })
}

pub fn strike_read_run<'a>(strike_read: StrikeRead, text: &'a [u32], codes: &'a [u32], positions: &'a [u32]) -> Run<'a> {
    let (mut out_codes, mut out_positions) = (vec![BEFORE; codes.len()], vec![BEFORE; codes.len()]);
    Box::new(move || {
        let (time, number) = timed(|| strike_read(text, codes, positions, C, &mut out_codes, &mut out_positions));
        (time, made(number, &out_codes, &out_positions))
    })
}

/// The work words of a start that lays them out as docs/WORK_WORDS.md says.
pub fn as_they_are(work: &[u32], _: &[u32]) -> Vec<u32> {
    work.to_vec()
}

/// All 16,384 words are summed. `shared` brings them into the layout of docs/WORK_WORDS.md, outside of the time.
pub fn start_run<'a>(start: Start, shared: Shared, text: &'a [u32], pattern: &'a [u32]) -> Run<'a> {
    let before = vec![BEFORE; WORK_WORDS];
    let mut work = before.clone();
    Box::new(move || {
        work.copy_from_slice(&before);
        let (time, h) = timed(|| start(text, pattern, LINEAR, &mut work));
        (time, made(h, &shared(&work, &before), &[]))
    })
}
