//! The host's calls of the two functions with bytes and numbers only, those of the nine with buffers, and beside them a reference
//! of documents 01 and 02.
//! Assumes that the declarations below are those of the proved library `exports`: the linker compares names and nothing else.

pub mod calls;
pub mod cases;
pub mod clusters;
pub mod crosscheck;
pub mod exported;
pub mod held;
pub mod program;
pub mod random;
pub mod reference;
pub mod words;

unsafe extern "C" {
    fn huddlewool_count(letters: *const u8, length: usize, k: u32, w: u32) -> i32;
    fn huddlewool_per_mille(m: u32, len: u32, size: u32) -> i32;
}

/// The number of entries that the sketch of the letters would have, or the refusal number negated.
pub fn count(letters: &[u8], k: u32, w: u32) -> i32 {
    // SAFETY: the pointer and the length are those of one slice, which stays lent and unchanged during the call.
    unsafe { huddlewool_count(letters.as_ptr(), letters.len(), k, w) }
}

/// The per mille of a mapping with m shared entries, len text entries and a pattern of this size, or the refusal number negated.
pub fn per_mille(m: u32, len: u32, size: u32) -> i32 {
    // SAFETY: the call takes numbers only, and any numbers are allowed.
    unsafe { huddlewool_per_mille(m, len, size) }
}
