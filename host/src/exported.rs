//! The nine calls of the proved library `exports`, with slices in place of pointers and lengths: `number` becomes 0 where the call is
//! accepted, else the refusal number, and the result is the value answered, or the second value.
//! Assumes that the declarations below are those of the library: the linker compares names and nothing else.

unsafe extern "C" {
    fn huddlewool_reverse_complement(
        read: *const u8,
        read_length: usize,
        out: *mut u8,
        out_length: usize,
        number: *mut u32,
    ) -> usize;
    fn huddlewool_sketch(
        letters: *const u8,
        letters_length: usize,
        k: u32,
        w: u32,
        codes: *mut u32,
        codes_length: usize,
        positions: *mut u32,
        positions_length: usize,
        number: *mut u32,
    ) -> usize;
    fn huddlewool_strike(
        codes: *const u32,
        codes_length: usize,
        positions: *const u32,
        positions_length: usize,
        c: u32,
        codes_out: *mut u32,
        codes_out_length: usize,
        positions_out: *mut u32,
        positions_out_length: usize,
        number: *mut u32,
    ) -> usize;
    fn huddlewool_strike_read(
        text: *const u32,
        text_length: usize,
        codes: *const u32,
        codes_length: usize,
        positions: *const u32,
        positions_length: usize,
        c: u32,
        codes_out: *mut u32,
        codes_out_length: usize,
        positions_out: *mut u32,
        positions_out_length: usize,
        number: *mut u32,
    ) -> usize;
    fn huddlewool_save(
        codes: *const u32,
        codes_length: usize,
        positions: *const u32,
        positions_length: usize,
        k: u32,
        w: u32,
        words: *mut u32,
        words_length: usize,
        number: *mut u32,
    ) -> usize;
    fn huddlewool_load(
        words: *const u32,
        words_length: usize,
        codes: *mut u32,
        codes_length: usize,
        positions: *mut u32,
        positions_length: usize,
        k: *mut u32,
        w: *mut u32,
        number: *mut u32,
    ) -> usize;
    fn huddlewool_start(
        text: *const u32,
        text_length: usize,
        pattern: *const u32,
        pattern_length: usize,
        u: u32,
        v: u32,
        threshold: i32,
        work: *mut u32,
        work_length: usize,
        number: *mut u32,
    ) -> usize;
    fn huddlewool_start_jaccard(
        text: *const u32,
        text_length: usize,
        pattern: *const u32,
        pattern_length: usize,
        f: u32,
        g: u32,
        work: *mut u32,
        work_length: usize,
        number: *mut u32,
    ) -> usize;
    fn huddlewool_step(
        work: *mut u32,
        work_length: usize,
        budget: u32,
        a: *mut u32,
        b: *mut u32,
        score: *mut i32,
        m: *mut u32,
        cells: *mut u32,
    ) -> u32;
}

// SAFETY, in each function: a pointer and the length behind it are those of one slice, what is written overlaps nothing else, as
// Rust's `&mut` says, and all stay lent during the call.

pub fn reverse_complement(read: &[u8], out: &mut [u8], number: &mut u32) -> usize {
    unsafe { huddlewool_reverse_complement(read.as_ptr(), read.len(), out.as_mut_ptr(), out.len(), number) }
}

pub fn sketch(letters: &[u8], k: u32, w: u32, codes: &mut [u32], positions: &mut [u32], number: &mut u32) -> usize {
    let (codes_at, positions_at) = (codes.as_mut_ptr(), positions.as_mut_ptr());
    unsafe {
        huddlewool_sketch(letters.as_ptr(), letters.len(), k, w, codes_at, codes.len(), positions_at, positions.len(), number)
    }
}

pub fn strike(
    codes: &[u32],
    positions: &[u32],
    c: u32,
    codes_out: &mut [u32],
    positions_out: &mut [u32],
    number: &mut u32,
) -> usize {
    unsafe {
        huddlewool_strike(
            codes.as_ptr(),
            codes.len(),
            positions.as_ptr(),
            positions.len(),
            c,
            codes_out.as_mut_ptr(),
            codes_out.len(),
            positions_out.as_mut_ptr(),
            positions_out.len(),
            number,
        )
    }
}

pub fn strike_read(
    text: &[u32],
    codes: &[u32],
    positions: &[u32],
    c: u32,
    codes_out: &mut [u32],
    positions_out: &mut [u32],
    number: &mut u32,
) -> usize {
    unsafe {
        huddlewool_strike_read(
            text.as_ptr(),
            text.len(),
            codes.as_ptr(),
            codes.len(),
            positions.as_ptr(),
            positions.len(),
            c,
            codes_out.as_mut_ptr(),
            codes_out.len(),
            positions_out.as_mut_ptr(),
            positions_out.len(),
            number,
        )
    }
}

pub fn save(codes: &[u32], positions: &[u32], k: u32, w: u32, words: &mut [u32], number: &mut u32) -> usize {
    let words_at = words.as_mut_ptr();
    unsafe {
        huddlewool_save(codes.as_ptr(), codes.len(), positions.as_ptr(), positions.len(), k, w, words_at, words.len(), number)
    }
}

/// `k` and `w` become those of the store where it is loaded.
pub fn load(words: &[u32], codes: &mut [u32], positions: &mut [u32], k: &mut u32, w: &mut u32, number: &mut u32) -> usize {
    let (codes_at, positions_at) = (codes.as_mut_ptr(), positions.as_mut_ptr());
    unsafe { huddlewool_load(words.as_ptr(), words.len(), codes_at, codes.len(), positions_at, positions.len(), k, w, number) }
}

pub fn start(text: &[u32], pattern: &[u32], u: u32, v: u32, threshold: i32, work: &mut [u32], number: &mut u32) -> usize {
    let work_at = work.as_mut_ptr();
    unsafe {
        huddlewool_start(text.as_ptr(), text.len(), pattern.as_ptr(), pattern.len(), u, v, threshold, work_at, work.len(), number)
    }
}

/// A start under the weighted Jaccard with the threshold f/g.
pub fn start_jaccard(text: &[u32], pattern: &[u32], f: u32, g: u32, work: &mut [u32], number: &mut u32) -> usize {
    let work_at = work.as_mut_ptr();
    unsafe {
        huddlewool_start_jaccard(text.as_ptr(), text.len(), pattern.as_ptr(), pattern.len(), f, g, work_at, work.len(), number)
    }
}

/// The words that a step answers with; `score` is the divisor where a mapping is found under Jaccard. Those that its answer does not
/// have keep their content.
#[derive(Clone, Copy, Debug, Default, PartialEq, Eq)]
pub struct StepWords {
    pub a: u32,
    pub b: u32,
    pub score: i32,
    pub m: u32,
    pub cells: u32,
}

/// Found is 0, finished is 1, spent is 2, found under Jaccard is 3, and another number is a refusal's.
pub fn step(work: &mut [u32], budget: u32, words: &mut StepWords) -> u32 {
    let StepWords { a, b, score, m, cells } = words;
    unsafe { huddlewool_step(work.as_mut_ptr(), work.len(), budget, a, b, score, m, cells) }
}
