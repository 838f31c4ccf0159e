//! The codes of all k-mers that end in a block, many at a time: those of 2, 4, 8 and 16 letters each from two of half the length.
//! No turn of a loop depends on another, as it does where one code is rolled on.

use super::parts::{BLOCK, FRONT, Values};

/// The codes of fewer letters, each at the index of its last letter.
pub struct Halves {
    two: Values,
    four: Values,
    eight: [u16; FRONT + BLOCK],
}

impl Halves {
    pub const NONE: Halves = Halves { two: [0; FRONT + BLOCK], four: [0; FRONT + BLOCK], eight: [0; FRONT + BLOCK] };

    /// Makes something of each index in the block and the code of the k-mer that ends there. A letter outside the eight leaves its
    /// bits in those codes alone that reach over it, and these are of no k-mer.
    #[inline(always)]
    pub fn codes<T>(&mut self, values: &Values, k: usize, to: &mut [T; BLOCK], made: impl Fn(usize, u32) -> T) {
        let Halves { two, four, eight } = self;
        let mask = u32::MAX >> (32 - 2 * k);
        for at in 1..FRONT + BLOCK {
            two[at] = values[at - 1] << 2 | values[at];
        }
        for at in 3..FRONT + BLOCK {
            four[at] = two[at - 2] << 4 | two[at];
        }
        for at in 7..FRONT + BLOCK {
            eight[at] = u16::from(four[at - 4]) << 8 | u16::from(four[at]);
        }
        for (at, to) in to.iter_mut().enumerate() {
            *to = made(at, (u32::from(eight[at + 8]) << 16 | u32::from(eight[at + FRONT])) & mask);
        }
    }
}
